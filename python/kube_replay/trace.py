"""A whole trace: its first line, its lines, and what is read off them: terms, evictions, who leads when."""
from __future__ import annotations

import re
from dataclasses import dataclass, fields
from functools import cached_property
from typing import TYPE_CHECKING, Any, Iterator, Sequence, TypeVar, overload

from kube_replay.errors import NotATrace
from kube_replay.lines import Answer, Crash, End, Eviction, Lead, Line, Pause, Stop, read_line

if TYPE_CHECKING:
    import pandas

FIRST_LINE = re.compile(r'trace 1 beat=([1-9][0-9]{0,3}) end=([0-9]{1,9}) premise=(yes|no)')
Kind = TypeVar('Kind', bound=Line)


class _Stretch:
    """What goes from a first beat to a last one, both among its own."""

    first_beat: int
    last_beat: int
    beat_millis: int

    @property
    def beats(self) -> int:
        """How many beats it has."""
        return self.last_beat + 1 - self.first_beat

    @property
    def seconds(self) -> float:
        """How long it is, in seconds."""
        return self.beats * self.beat_millis / 1000


@dataclass(frozen=True)
class Term(_Stretch):
    """From the beat at which an identity leads to the beat before its `End`, `Crash` or `Stop`, or to the last beat of the trace.

    Both beats belong to the term. `ended_by` is the line that ends it, None where it goes on to the end.
    """

    identity: str
    first_beat: int
    last_beat: int
    beat_millis: int
    lead: Lead
    ended_by: Line | None


@dataclass(frozen=True)
class Span(_Stretch):
    """Beats in which the same number of controllers act as the leader, from the first to the last, both among them."""

    first_beat: int
    last_beat: int
    leaders: int
    beat_millis: int


class Trace(Sequence[Line]):
    """The lines of a trace, in their order, but for the first one, whose fields are `beat_millis`, `end_beat` and `premise`.

    `text` is the whole text as the program wrote it. Lines are read when they are first asked for.
    """

    def __init__(self, text: str | bytes) -> None:
        self.text = text.decode() if isinstance(text, bytes) else text
        head, _, self._rest = self.text.partition('\n')
        first = FIRST_LINE.fullmatch(head)
        if first is None:
            raise NotATrace(f'{head[:80]!r} is not the first line of a trace')
        self.beat_millis = int(first[1])
        """Milliseconds of a beat."""
        self.end_beat = int(first[2])
        """The last beat."""
        self.premise = first[3] == 'yes'
        """Whether two leaders at one beat are ruled out."""

    @cached_property
    def lines(self) -> tuple[Line, ...]:
        """All lines but the first."""
        return tuple(read_line(line, self.beat_millis) for line in self._rest.removesuffix('\n').split('\n') if self._rest)

    @overload
    def __getitem__(self, place: int) -> Line:
        ...

    @overload
    def __getitem__(self, place: slice) -> Sequence[Line]:
        ...

    def __getitem__(self, place: int | slice) -> Line | Sequence[Line]:
        return self.lines[place]

    def __len__(self) -> int:
        return len(self.lines)

    def __iter__(self) -> Iterator[Line]:
        return iter(self.lines)

    def __eq__(self, other: object) -> bool:
        return isinstance(other, Trace) and self.text == other.text

    def __hash__(self) -> int:
        return hash(self.text)

    def __str__(self) -> str:
        return self.text

    def __repr__(self) -> str:
        return f'<Trace of {self._rest.count(chr(10))} lines, {self.end_beat * self.beat_millis / 1000} s, premise={self.premise}>'

    def of(self, kind: type[Kind]) -> list[Kind]:
        """The lines of one kind, and of those that stand under it: `trace.of(Lead)`."""
        return [line for line in self.lines if isinstance(line, kind)]

    def evictions(self) -> list[Eviction]:
        """The evictions that the store took."""
        return [line for line in self.of(Eviction) if line.answer.accepted]

    def terms(self) -> list[Term]:
        """The terms, in the order in which they begin."""
        ends: dict[str, Line] = {}
        for line in self.lines:
            if isinstance(line, (End, Crash, Stop)):
                ends.setdefault(line.actor, line)
        return [self._term(lead, ends.get(lead.actor)) for lead in self.of(Lead)]

    def _term(self, lead: Lead, ended_by: Line | None) -> Term:
        last = self.end_beat if ended_by is None else ended_by.beat - 1
        return Term(lead.actor, lead.beat, last, self.beat_millis, lead, ended_by)

    def _acting(self) -> list[tuple[int, int]]:
        """The stretches in which a leader acts, from a beat to before another."""
        since: dict[str, int] = {}
        still: dict[str, int] = {}
        found = []
        for line in self.lines:
            if isinstance(line, Lead):
                since.setdefault(line.actor, max(line.beat, still.get(line.actor, 0)))
                continue
            if not isinstance(line, (End, Crash, Stop, Pause)):
                continue
            began = since.pop(line.actor, None)
            if began is not None:
                found.append((began, line.beat))
            if isinstance(line, Pause):
                still[line.actor] = max(still.get(line.actor, 0), line.beat + line.beats)
                if began is not None:
                    since[line.actor] = still[line.actor]
        found += [(began, self.end_beat + 1) for began in since.values()]
        return [(began, until) for began, until in found if began < until]

    def leaders(self) -> list[Span]:
        """How many controllers act as the leader, over all beats from 0 to the last: spans that follow on each other.

        A leader acts in each beat of its term but those in which a `Pause` has it stand still.
        """
        changes: dict[int, int] = {}
        for began, until in self._acting():
            changes[began] = changes.get(began, 0) + 1
            changes[until] = changes.get(until, 0) - 1
        spans, count, since = [], 0, 0
        for beat in sorted(beat for beat, change in changes.items() if change and beat <= self.end_beat):
            if beat > since:
                spans.append(Span(since, beat - 1, count, self.beat_millis))
            count, since = count + changes[beat], beat
        return [*spans, Span(since, self.end_beat, count, self.beat_millis)]

    def leaderless(self) -> list[Span]:
        """The spans in which nobody acts as the leader."""
        return [span for span in self.leaders() if span.leaders == 0]

    def two_leaders(self) -> list[Span]:
        """The spans in which two or more act at once."""
        return [span for span in self.leaders() if span.leaders > 1]

    def to_pandas(self) -> pandas.DataFrame:
        """A row for each line, with the columns `beat`, `seconds`, `actor`, `process`, `incarnation` and `kind`, and one for each field
        of any kind of line; the answer of the store is `outcome` and `version`. Needs pandas, else raises ImportError."""
        try:
            import pandas
        except ImportError as fault:
            raise ImportError('to_pandas() needs the package pandas: apt install python3-pandas, or pip install pandas') from fault
        return pandas.DataFrame.from_records([_row(line) for line in self.lines])


def _row(line: Line) -> dict[str, Any]:
    row: dict[str, Any] = {'beat': line.beat, 'seconds': line.seconds, 'actor': line.actor}
    row.update(process=line.process, incarnation=line.incarnation, kind=line.kind)
    for field in fields(line)[3:]:
        value = getattr(line, field.name)
        if isinstance(value, Answer):
            row.update(outcome=value.outcome.value, version=value.version)
        else:
            row[field.name] = value
    return row
