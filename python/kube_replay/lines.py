"""The lines of a trace, one class for each form of docs/trace.md.

Each line has its `beat`, that beat in `seconds` since the document's epoch, and its `actor`: `script`, or an identity such as
`cp-east-1_2` or `kubelet/worker-1_1`. `str(line)` is the line's text again.
"""
from __future__ import annotations

from dataclasses import dataclass
from datetime import datetime, timezone
from enum import Enum
from typing import Callable, ClassVar, Sequence

from kube_replay.errors import NotATrace


class Outcome(str, Enum):
    """What the store says to a write."""

    ACCEPTED = 'accepted'
    CONFLICT = 'conflict'
    ABSENT = 'absent'
    EXISTS = 'exists'


@dataclass(frozen=True)
class Answer:
    """The store's answer to a write: `version` is the one that was written, or of a conflict the one that is stored; else None."""

    outcome: Outcome
    version: int | None = None

    @property
    def accepted(self) -> bool:
        """Whether the write was taken."""
        return self.outcome is Outcome.ACCEPTED

    def __str__(self) -> str:
        if self.outcome is Outcome.ACCEPTED:
            return f'v={self.version}'
        return f'conflict v={self.version}' if self.outcome is Outcome.CONFLICT else str(self.outcome.value)


@dataclass(frozen=True)
class Line:
    """A line of a trace. `seconds` is `beat` times the milliseconds of a beat, over 1,000."""

    kind: ClassVar[str] = ''
    beat: int
    seconds: float
    actor: str

    @property
    def process(self) -> str:
        """The actor without the number of its start: a controller's name, `kubelet/NODE`, or `script`."""
        return self.actor.rpartition('_')[0] or self.actor

    @property
    def incarnation(self) -> int | None:
        """The number of the actor's start, from 1 on; None for the script."""
        return int(self.actor.rpartition('_')[2]) if self.actor != 'script' else None

    def words(self) -> str:
        """What stands behind the beat and the actor."""
        return self.kind

    def __str__(self) -> str:
        return f'{self.beat} {self.actor} {self.words()}'


@dataclass(frozen=True)
class Start(Line):
    """A process starts: at beat 0, by an event, or by itself after an `End`."""

    kind = 'start'


@dataclass(frozen=True)
class Crash(Line):
    """An event has killed the process."""

    kind = 'crash'


@dataclass(frozen=True)
class Stop(Line):
    """An event has stopped a controller in good order."""

    kind = 'stop'


@dataclass(frozen=True)
class End(Line):
    """A leader hasn't renewed in time, and gives up at its deadline."""

    kind = 'end'


@dataclass(frozen=True)
class Pause(Line):
    """A process stands still from this beat on, for so many beats."""

    kind = 'pause'
    beats: int

    def words(self) -> str:
        return f'pause beats={self.beats}'


@dataclass(frozen=True)
class Stall(Line):
    """The store stands still from this beat on, for so many beats."""

    kind = 'stall'
    beats: int

    def words(self) -> str:
        return f'stall beats={self.beats}'


@dataclass(frozen=True)
class Lead(Line):
    """A candidate hears that its write of this version was taken, and leads from this beat on."""

    kind = 'lead'
    version: int

    def words(self) -> str:
        return f'lead v={self.version}'


@dataclass(frozen=True)
class CreateElection(Line):
    """The store answers the Create of the election Lease. `transitions` are those of the record that it took; else None."""

    kind = 'create election'
    answer: Answer
    transitions: int | None

    def words(self) -> str:
        return f'{self.kind} {self.answer}' + ('' if self.transitions is None else f' t={self.transitions}')


@dataclass(frozen=True)
class UpdateElection(CreateElection):
    """The store answers an Update of the election Lease: a renewal, a takeover (`transitions` rises by one), or a release."""

    kind = 'update election'


@dataclass(frozen=True)
class Put(Line):
    """The script has stored an object: `key` is `node/NAME`, `lease/NAMESPACE/NAME` or `pod/NAMESPACE/NAME`."""

    kind = 'put'
    key: str
    version: int

    def words(self) -> str:
        return f'{self.kind} {self.key} v={self.version}'


@dataclass(frozen=True)
class Remove(Put):
    """The script has removed an object."""

    kind = 'remove'


@dataclass(frozen=True)
class NodeLine(Line):
    """A write that is about a node, with the store's answer."""

    node: str
    answer: Answer

    def words(self) -> str:
        return f'{self.kind} {self.node} {self.answer}'


@dataclass(frozen=True)
class CreateNodeLease(NodeLine):
    """The store answers a kubelet's Create of its node's Lease."""

    kind = 'create nodelease'


@dataclass(frozen=True)
class UpdateNodeLease(NodeLine):
    """The store refuses a kubelet's renewal of its node's Lease. Renewals that it takes have no line."""

    kind = 'update nodelease'


@dataclass(frozen=True)
class NodeStatus(NodeLine):
    """The store answers the status that a kubelet posts."""

    kind = 'status'
    ready: bool

    def words(self) -> str:
        return f'status {self.node} {self.ready} {self.answer}'


@dataclass(frozen=True)
class MarkUnknown(NodeLine):
    """A leader writes Ready Unknown: `reason` is `NodeStatusUnknown` or `NodeStatusNeverUpdated`."""

    kind = 'unknown'
    reason: str

    def words(self) -> str:
        return f'unknown {self.node} {self.reason} {self.answer}'


@dataclass(frozen=True)
class Taint(NodeLine):
    """The head of a zone's queue gets its taint: `condition` is `not-ready` or `unreachable`."""

    kind = 'taint'
    condition: str

    def words(self) -> str:
        return f'{self.kind} {self.node} {self.condition} {self.answer}'


@dataclass(frozen=True)
class Swap(Taint):
    """A condition taint takes the place of the other, without the queue."""

    kind = 'swap'


@dataclass(frozen=True)
class Untaint(NodeLine):
    """A node that is ready loses its condition taints."""

    kind = 'untaint'


@dataclass(frozen=True)
class Mode(Line):
    """Every zone is disrupted, so nothing is tainted (`on`); or that ends."""

    kind = 'mode'
    on: bool

    def words(self) -> str:
        return 'mode on' if self.on else 'mode off'


@dataclass(frozen=True)
class ZoneChange(Line):
    """A pass finds a zone in another state, or another rate: `rate` is in taints per 1,000 seconds."""

    kind = 'zone'
    region: str
    zone: str
    state: str
    rate: int

    def words(self) -> str:
        return f'zone {self.region}/{self.zone} {self.state} rate={self.rate}'


@dataclass(frozen=True)
class Eviction(Line):
    """A pod is deleted. `due` is the time of day at which it was due, by the clock of the controller, as text (RFC 3339, UTC)."""

    kind = 'evict'
    namespace: str
    name: str
    due: str
    answer: Answer

    @property
    def due_time(self) -> datetime:
        """`due` as a time, in UTC."""
        return datetime.strptime(self.due, '%Y-%m-%dT%H:%M:%SZ').replace(tzinfo=timezone.utc)

    def words(self) -> str:
        return f'evict {self.namespace}/{self.name} due={self.due} {self.answer}'


# Reading

Place = tuple[int, float, str]


def _after(word: str, name: str) -> str:
    if not word.startswith(name):
        raise NotATrace(f'{word} does not begin with {name}')
    return word[len(name) :]


def _number(word: str, name: str) -> int:
    digits = _after(word, name)
    if not digits.isascii() or not digits.isdecimal():
        raise NotATrace(f'{word} has no number')
    return int(digits)


def _answer(words: Sequence[str]) -> Answer:
    first, *rest = words
    if first == 'conflict':
        (version,) = rest
        return Answer(Outcome.CONFLICT, _number(version, 'v='))
    if rest:
        raise NotATrace(f'no word follows {first}')
    if first in ('absent', 'exists'):
        return Answer(Outcome(first))
    return Answer(Outcome.ACCEPTED, _number(first, 'v='))


def _switch(word: str, on: str, off: str) -> bool:
    if word not in (on, off):
        raise NotATrace(f'{word} is neither {on} nor {off}')
    return word == on


def _simple(kind: type[Line]) -> Callable[[Place, list[str]], Line]:
    def read(place: Place, words: list[str]) -> Line:
        () = words
        return kind(*place)

    return read


def _beats(kind: type[Pause] | type[Stall]) -> Callable[[Place, list[str]], Line]:
    def read(place: Place, words: list[str]) -> Line:
        (beats,) = words
        return kind(*place, _number(beats, 'beats='))

    return read


def _lead(place: Place, words: list[str]) -> Line:
    (version,) = words
    return Lead(*place, _number(version, 'v='))


def _election(kind: type[CreateElection]) -> Callable[[Place, list[str]], Line]:
    def read(place: Place, words: list[str]) -> Line:
        if words[0].startswith('v='):
            version, transitions = words
            return kind(*place, _answer([version]), _number(transitions, 't='))
        return kind(*place, _answer(words), None)

    return read


def _put(kind: type[Put]) -> Callable[[Place, list[str]], Line]:
    def read(place: Place, words: list[str]) -> Line:
        key, version = words
        return kind(*place, key, _number(version, 'v='))

    return read


def _node(kind: type[NodeLine]) -> Callable[[Place, list[str]], Line]:
    def read(place: Place, words: list[str]) -> Line:
        return kind(*place, words[0], _answer(words[1:]))

    return read


def _status(place: Place, words: list[str]) -> Line:
    return NodeStatus(*place, words[0], _answer(words[2:]), _switch(words[1], 'True', 'False'))


def _unknown(place: Place, words: list[str]) -> Line:
    return MarkUnknown(*place, words[0], _answer(words[2:]), words[1])


def _taint(kind: type[Taint]) -> Callable[[Place, list[str]], Line]:
    def read(place: Place, words: list[str]) -> Line:
        return kind(*place, words[0], _answer(words[2:]), words[1])

    return read


def _mode(place: Place, words: list[str]) -> Line:
    (switch,) = words
    return Mode(*place, _switch(switch, 'on', 'off'))


def _zone(place: Place, words: list[str]) -> Line:
    zone, state, rate = words
    region, slash, name = zone.partition('/')
    if not slash:
        raise NotATrace(f'{zone} is not REGION/ZONE')
    return ZoneChange(*place, region, name, state, _number(rate, 'rate='))


def _evict(place: Place, words: list[str]) -> Line:
    namespace, slash, name = words[0].partition('/')
    if not slash:
        raise NotATrace(f'{words[0]} is not NAMESPACE/NAME')
    return Eviction(*place, namespace, name, _after(words[1], 'due='), _answer(words[2:]))


READERS: dict[str, Callable[[Place, list[str]], Line]] = {
    **{kind.kind: _simple(kind) for kind in (Start, Crash, Stop, End)},
    **{kind.kind: _election(kind) for kind in (CreateElection, UpdateElection)},
    **{kind.kind: _put(kind) for kind in (Put, Remove)},
    **{kind.kind: _node(kind) for kind in (CreateNodeLease, UpdateNodeLease, Untaint)},
    **{kind.kind: _taint(kind) for kind in (Taint, Swap)},
    **{kind.kind: _beats(kind) for kind in (Pause, Stall)},
    'lead': _lead,
    'status': _status,
    'unknown': _unknown,
    'mode': _mode,
    'zone': _zone,
    'evict': _evict,
}


def read_line(text: str, beat_millis: int) -> Line:
    """A line of a trace but for its first, where a beat has so many milliseconds. Raises `NotATrace` where it is of no form."""
    try:
        beat, actor, verb, *words = text.split(' ')
        if verb in ('create', 'update'):
            verb = f'{verb} {words.pop(0)}'
        at = _number(beat, '')
        return READERS[verb]((at, at * beat_millis / 1000, actor), words)
    except (ValueError, LookupError) as fault:
        raise NotATrace(f'{text!r} is no line of a trace') from fault
