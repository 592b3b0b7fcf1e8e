"""The bounds of a hunt: what a script may hold, how much of it, and in which beats. docs/python.md#the-bounds has the form."""
from __future__ import annotations

from dataclasses import dataclass
from typing import Any, Mapping

from kube_replay.errors import KubeReplayError

LAST_BEAT = 604_800_000
MOST_EVENTS = 100


class WrongBounds(KubeReplayError, ValueError):
    """The bounds aren't of the form; the message begins with the path of what is wrong."""


@dataclass(frozen=True)
class Range:
    """Whole numbers from the least to the greatest, both among them."""

    least: int
    greatest: int


@dataclass(frozen=True)
class Kind:
    """A kind of event: its `type` in a document, the key of each number in the bounds with its name in the event and its limits."""

    type: str
    numbers: Mapping[str, tuple[str, Range]]
    switches: tuple[str, ...] = ()
    kubelets: bool = True


@dataclass(frozen=True)
class Allowance:
    """At most so many events of a kind, of these processes, in these beats, with numbers of these ranges."""

    kind: Kind
    most: int
    beats: Range
    processes: tuple[str, ...]
    numbers: Mapping[str, Range]
    switches: tuple[str, ...]


@dataclass(frozen=True)
class Clock:
    """The clocks of these processes may go at any of these rates from the beginning, and be ahead by any of these milliseconds."""

    processes: tuple[str, ...]
    numbers: Mapping[str, Range]


@dataclass(frozen=True)
class Waits:
    """The waits of these controllers after failures may be any lists of so many of this range, in thousandths of the retry period."""

    processes: tuple[str, ...]
    most: int
    thousandths: Range


@dataclass(frozen=True)
class Bounds:
    """All that a script may hold."""

    clocks: tuple[Clock, ...]
    allowances: tuple[Allowance, ...]
    waits: tuple[Waits, ...] = ()
    settings: tuple[Mapping[str, Any], ...] = ()


RATES = Range(500_000, 2_000_000)
CLOCK_NUMBERS = {'ratePpm': RATES, 'offsetMillis': Range(-31_536_000_000, 31_536_000_000)}
DELAYS = Range(1, 6_000)
THOUSANDTHS = Range(1_000, 2_200)
KINDS: dict[str, Kind] = {
    'rates': Kind('rate', {'ratePpm': ('ratePpm', RATES)}),
    'delays': Kind('delay', {'requestBeats': ('requestBeats', DELAYS), 'replyBeats': ('replyBeats', DELAYS)}),
    'losses': Kind('loss', {}, ('requests', 'replies')),
    'crashes': Kind('crash', {}),
    'starts': Kind('start', {}),
    'stops': Kind('stop', {}, kubelets=False),
    'watches': Kind('watch', {}, ('on',), kubelets=False),
    'pauses': Kind('pause', {'lasting': ('beats', Range(1, LAST_BEAT))}),
}


def read_bounds(given: Any, document: Mapping[str, Any]) -> Bounds:
    """The bounds that a JSON value says, for a document. Raises `WrongBounds`."""
    fields = _object(given, '', {'clocks', 'waits', 'settings', *KINDS})
    processes = _processes_of(document)
    end = int(document['settings']['endBeat'])
    clocks = tuple(_clock(each, path, processes) for each, path in _each(fields, 'clocks'))
    allowances = tuple(_allowance(KINDS[name], each, path, processes, end) for name in KINDS for each, path in _each(fields, name))
    waits = tuple(_waits(each, path, processes) for each, path in _each(fields, 'waits'))
    return Bounds(clocks, allowances, waits, tuple(_settings(each, path) for each, path in _each(fields, 'settings')))


def _settings(value: Any, path: str) -> Mapping[str, Any]:
    """Keys of settings that stand together in one of the documents that are tried."""
    if not isinstance(value, dict) or not value:
        raise WrongBounds(f'{path}: not an object with keys of settings')
    return value


def _processes_of(document: Mapping[str, Any]) -> list[str]:
    return [each['name'] for each in document['controllers']] + ['kubelet/' + each['node'] for each in document.get('kubelets', [])]


def _each(fields: Mapping[str, Any], name: str) -> list[tuple[Any, str]]:
    """What stands under a name: nothing, an object, or a list of objects; each with its path."""
    value = fields.get(name, [])
    return [(each, f'/{name}/{place}') for place, each in enumerate(value)] if isinstance(value, list) else [(value, f'/{name}')]


def _object(value: Any, path: str, known: set[str]) -> Mapping[str, Any]:
    if not isinstance(value, dict):
        raise WrongBounds(f'{path or "/"}: not an object')
    unknown = sorted(set(value) - known)
    if unknown:
        raise WrongBounds(f'{path}/{unknown[0]}: an unknown key; there are {", ".join(sorted(known))}')
    return value


def _range(value: Any, path: str, limits: Range) -> Range:
    """A range is two whole numbers, or one that stands for both."""
    pair = value if isinstance(value, list) else [value, value]
    if len(pair) != 2 or not all(isinstance(each, int) and not isinstance(each, bool) for each in pair):
        raise WrongBounds(f'{path}: not two whole numbers, the least and the greatest')
    if not limits.least <= pair[0] <= pair[1] <= limits.greatest:
        raise WrongBounds(f'{path}: not a range within {limits.least} to {limits.greatest}')
    return Range(*pair)


def _clock(value: Any, path: str, processes: list[str]) -> Clock:
    fields = _object(value, path, {'processes', *CLOCK_NUMBERS})
    numbers = {name: _range(fields[name], f'{path}/{name}', limits) for name, limits in CLOCK_NUMBERS.items() if name in fields}
    return Clock(_named(fields, path, processes), numbers)


def _waits(value: Any, path: str, processes: list[str]) -> Waits:
    fields = _object(value, path, {'processes', 'most', 'thousandths'})
    if 'most' not in fields:
        raise WrongBounds(f'{path}/most: is missing')
    most = _range(fields['most'], f'{path}/most', Range(1, MOST_EVENTS)).greatest
    thousandths = _range(fields.get('thousandths', [THOUSANDTHS.least, THOUSANDTHS.greatest]), f'{path}/thousandths', THOUSANDTHS)
    named = _named(fields, path, processes)
    if any(name.startswith('kubelet/') for name in named):
        raise WrongBounds(f'{path}/processes: waits are of controllers alone')
    return Waits(named, most, thousandths)


def _allowance(kind: Kind, value: Any, path: str, processes: list[str], end: int) -> Allowance:
    fields = _object(value, path, {'processes', 'beats', 'most', *kind.numbers} | ({'of'} if kind.type == 'loss' else set()))
    for name in ('most', *kind.numbers):
        if name not in fields:
            raise WrongBounds(f'{path}/{name}: is missing')
    most = _range(fields['most'], f'{path}/most', Range(0, MOST_EVENTS)).greatest
    beats = _range(fields.get('beats', [0, end]), f'{path}/beats', Range(0, end))
    numbers = {to: _range(fields[name], f'{path}/{name}', limits) for name, (to, limits) in kind.numbers.items()}
    named = _named(fields, path, processes)
    if not kind.kubelets and any(name.startswith('kubelet/') for name in named):
        raise WrongBounds(f'{path}/processes: a `{kind.type}` is of controllers alone')
    return Allowance(kind, most, beats, named, numbers, _switches(kind, fields, path))


def _switches(kind: Kind, fields: Mapping[str, Any], path: str) -> tuple[str, ...]:
    """What may be true in an event: of a loss what `of` names, else everything."""
    chosen = fields.get('of', list(kind.switches))
    if not isinstance(chosen, list) or not all(each in kind.switches for each in chosen):
        raise WrongBounds(f'{path}/of: not a list of {", ".join(kind.switches)}')
    return tuple(chosen)


def _named(fields: Mapping[str, Any], path: str, processes: list[str]) -> tuple[str, ...]:
    """The processes that are meant: by name, `*` for each controller, `kubelet/*` for each kubelet."""
    controllers = [name for name in processes if not name.startswith('kubelet/')]
    groups = {'*': controllers, 'kubelet/*': [name for name in processes if name.startswith('kubelet/')]}
    words = fields.get('processes', ['*'])
    if not isinstance(words, list) or not words:
        raise WrongBounds(f'{path}/processes: not a list of names')
    named: dict[str, None] = {}
    for place, word in enumerate(words):
        if word not in groups and word not in processes:
            raise WrongBounds(f'{path}/processes/{place}: the document has no process {word}')
        named.update(dict.fromkeys(groups.get(word, [word])))
    if not named:
        raise WrongBounds(f'{path}/processes: the document has no such processes')
    return tuple(named)
