"""Scripts within bounds: how Hypothesis makes one, and the document that it stands for."""
from __future__ import annotations

from dataclasses import dataclass, field
from typing import Any, Mapping

from hypothesis import strategies
from hypothesis.strategies import DrawFn, SearchStrategy

from kube_replay.hunt.bounds import Allowance, Bounds, Range

Event = dict[str, Any]
Switch = SearchStrategy[bool]
TRUE_RATE = 1_000_000


@dataclass(frozen=True)
class Script:
    """What is added to a document: the keys of clocks, by process, events in the order of their beats, waits, by controller, and keys of settings."""

    clocks: Mapping[str, Mapping[str, int]]
    events: tuple[Event, ...]
    waits: Mapping[str, tuple[int, ...]] = field(default_factory=dict)
    settings: Mapping[str, Any] = field(default_factory=dict)

    def keys_of(self, process: str) -> dict[str, Any]:
        """The keys of a process that the script says."""
        keys: dict[str, Any] = dict(self.clocks.get(process) or {})
        if process in self.waits:
            keys['waits'] = list(self.waits[process])
        return keys


@dataclass(frozen=True)
class Number:
    """How a number of a range is drawn. The simplest one, to which it is shrunk, is `center`."""

    center: int
    offsets: SearchStrategy[int]

    def draw(self, draw: DrawFn) -> int:
        return self.center + draw(self.offsets)


def number_of(allowed: Range, name: str) -> Number:
    """A number that a range allows; the simplest rate of a clock is the true one, and else the simplest number is the nearest to 0."""
    center = min(max(TRUE_RATE if name == 'ratePpm' else 0, allowed.least), allowed.greatest)
    return Number(center, strategies.integers(allowed.least - center, allowed.greatest - center))


@strategies.composite
def events_of(
    draw: DrawFn, type_: str, process: SearchStrategy[str], numbers: dict[str, Number], switches: dict[str, Switch]
) -> Event | None:
    """Events of a type, with its keys; None is the simplest. All is drawn for None too, so that an event comes or goes by one draw."""
    happens = draw(strategies.booleans())
    event: Event = {'beat': 0, 'type': type_, 'process': draw(process)}
    for name, number in numbers.items():
        event[name] = number.draw(draw)
    for name, switch in switches.items():
        event[name] = draw(switch)
    return event if happens else None


def events_allowed(allowance: Allowance) -> list[SearchStrategy[Event | None]]:
    """The events that an allowance allows, each of which may happen or not."""
    numbers = {name: number_of(allowed, name) for name, allowed in {'beat': allowance.beats, **allowance.numbers}.items()}
    switches = {name: strategies.sampled_from([False, True][: 1 + (name in allowance.switches)]) for name in allowance.kind.switches}
    return [events_of(allowance.kind.type, strategies.sampled_from(allowance.processes), numbers, switches)] * allowance.most


@strategies.composite
def scripts_of(
    draw: DrawFn,
    clocks: list[tuple[str, str, Number]],
    events: list[SearchStrategy[Event | None]],
    waits: list[tuple[str, int, Number]],
    settings: SearchStrategy[Mapping[str, Any]],
) -> Script:
    """Scripts with these keys of clocks, each by its process and its name, with these events, with so many waits of each controller, and with one of these
    settings."""
    keys: dict[str, dict[str, int]] = {}
    for process, name, number in clocks:
        keys.setdefault(process, {})[name] = number.draw(draw)
    drawn = [draw(event) for event in events]
    lists = {process: tuple(number.draw(draw) for _ in range(count)) for process, count, number in waits}
    return Script(keys, tuple(sorted((event for event in drawn if event is not None), key=beat_of)), lists, draw(settings))


def scripts_in(bounds: Bounds) -> SearchStrategy[Script]:
    """Scripts within bounds; the simplest one has no events, clocks that go right where they may, the shortest waits, and the first settings."""
    clocks = [
        (process, name, number_of(allowed, name))
        for clock in bounds.clocks
        for process in clock.processes
        for name, allowed in clock.numbers.items()
    ]
    waits = [(process, each.most, number_of(each.thousandths, 'waits')) for each in bounds.waits for process in each.processes]
    events = [event for allowance in bounds.allowances for event in events_allowed(allowance)]
    return scripts_of(clocks, events, waits, strategies.sampled_from(bounds.settings or ({},)))


def beat_of(event: Event) -> int:
    """The beat of an event."""
    return int(event['beat'])


def document_of(script: Script, document: Mapping[str, Any]) -> dict[str, Any]:
    """The document with a script added: its own events first within a beat. Pauses make it one of version 3, waits and settings one of version 4."""
    added = dict(document)
    if script.clocks or script.waits:
        added['controllers'] = [{**each, **script.keys_of(each['name'])} for each in document['controllers']]
        added['kubelets'] = [{**each, **script.keys_of('kubelet/' + each['node'])} for each in document.get('kubelets', [])]
    events = sorted([*document.get('events', []), *script.events], key=beat_of)
    if any(event['type'] == 'pause' for event in events):
        added['version'] = max(3, document['version'])
        events = without_pauses_in_pauses(events)
    if script.waits or script.settings:
        added['version'] = max(4, document['version'])
    if script.settings:
        added['settings'] = {**document['settings'], **script.settings}
    added['events'] = events
    return added


def without_pauses_in_pauses(events: list[Event]) -> list[Event]:
    """The events without those pauses that begin before an earlier one of the same process is over, which a document can't have."""
    over: dict[str, int] = {}
    kept = []
    for event in events:
        if event['type'] == 'pause':
            if event['beat'] <= over.get(event['process'], -1):
                continue
            over[event['process']] = event['beat'] + event['beats']
        kept.append(event)
    return kept
