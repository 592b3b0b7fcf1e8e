"""The search for the worst script. Hypothesis makes the scripts, climbs towards the worst, and shrinks it."""
from __future__ import annotations

import time
from dataclasses import dataclass, field
from random import Random
from typing import Any, Callable, Iterable, Mapping

import hypothesis
from hypothesis import HealthCheck, Phase, Verbosity
from hypothesis.database import InMemoryExampleDatabase

from kube_replay.commands import replay
from kube_replay.hunt.bounds import Bounds
from kube_replay.hunt.measures import Measure, Run
from kube_replay.hunt.scripts import Script, document_of, scripts_in

ROUND = 400
SEARCHING = (Phase.reuse, Phase.generate, Phase.target)
SHRINKING = (Phase.reuse, Phase.generate, Phase.shrink)
MOST_SHRINKINGS = 20
ENOUGH_IN_VAIN = 2


@dataclass(frozen=True)
class Found:
    """The worst script of a hunt: the document with it, the measure's value, and how many scripts were tried."""

    document: dict[str, Any]
    script: Script
    value: float
    tried: int


class Spent(BaseException):
    """The time or the number of scripts is used up. No Exception, so that Hypothesis lets it through."""


class Reached(Exception):
    """A script with the condition that was looked for."""


class Store(InMemoryExampleDatabase):
    """Where Hypothesis keeps what is worth coming back to. It notes what is saved of the script that was looked at last."""

    def __init__(self, first: bytes | None = None) -> None:
        super().__init__()  # type: ignore[no-untyped-call]
        self.is_noting = False
        self.first = self.noted = first

    def fetch(self, key: bytes) -> Iterable[bytes]:
        """What was saved. Under the key that Hypothesis asks for first, which is that of its test, stands the script to begin with."""
        if self.first is not None:
            super().save(key, self.first)
            self.first = None
        return super().fetch(key)

    def save(self, key: bytes, value: bytes) -> None:
        if self.is_noting:
            self.noted, self.is_noting = bytes(value), False
        super().save(key, value)


@dataclass
class Hunt:
    """A search over one document. `scripts` and `seconds` bound the search; the shrinking after it takes what it needs beyond these. With
    a seed it tries the same scripts again, where the seconds don't end it."""

    document: Mapping[str, Any]
    bounds: Bounds
    measure: Measure
    scripts: int = 20_000
    seconds: float = 60.0
    seed: int | str | None = None
    tried: int = 0
    worst: float | None = None
    worst_script: Script | None = None
    best_score: float | None = None
    _store: Store = field(default_factory=Store)
    _kept: bytes | None = None
    _random: Random = field(init=False)

    def __post_init__(self) -> None:
        self._random = Random(self.seed)

    def run(self, at_least: float | None = None) -> Found | None:
        """The smallest of the worst scripts that are found. With `at_least` the search ends at the first that is so bad, and the
        smallest that is still so bad is the answer. None where there is none."""
        try:
            self._search(at_least, time.monotonic() + self.seconds)
        except Spent:
            pass
        wanted = self.worst if at_least is None else at_least
        if self.worst_script is None or self.worst is None or wanted is None or self.worst < wanted:
            return None
        script = self.shrunk(self.worst_script, wanted)
        while at_least is None and self.worst > wanted:
            # The shrinking has come across a worse one.
            wanted = self.worst
            script = self.shrunk(self.worst_script, wanted)
        return self.found(script, wanted)

    def found(self, script: Script, wanted: float) -> Found:
        """What is told of a script that is so bad."""
        document = document_of(script, self.document)
        return Found(document, script, self.measure.value(Run(document, replay(document))) or wanted, self.tried)

    def search_from(self, first: bytes | None, at_least: float | None) -> bytes | None:
        """One round that begins with a script as Hypothesis has saved it, or anew; what it has saved of the worst one."""
        self._begin_from(first)
        try:
            self._find(self._is_enough(at_least, time.monotonic() + self.seconds), SEARCHING)
        except Spent:
            pass
        return self.saved()

    def _search(self, at_least: float | None, until: float) -> None:
        """Rounds of scripts. Every other one goes on from the worst script so far, and every other one begins anew."""
        rounds = 0
        while self._find(self._is_enough(at_least, until), SEARCHING) is None:
            if self.tried == 0:
                raise Spent
            rounds += 1
            self._begin_from(self.saved() if rounds % 2 else None)

    def _is_enough(self, at_least: float | None, until: float) -> Callable[[Script], bool]:
        """The condition that ends a search."""

        def is_enough(script: Script) -> bool:
            if self.tried >= self.scripts or time.monotonic() > until:
                raise Spent
            value = self._look_at(script)
            return at_least is not None and value is not None and value >= at_least

        return is_enough

    def saved(self) -> bytes | None:
        """What Hypothesis has saved of the worst script."""
        return self._store.noted or self._kept

    def _begin_from(self, first: bytes | None) -> None:
        """The next round begins with this script, or with none."""
        self._kept, self._store = self.saved(), Store(first)

    def _find(self, condition: Callable[[Script], bool], phases: tuple[Phase, ...]) -> Script | None:
        """A round of Hypothesis: a script with the condition, or None."""
        settings = hypothesis.settings(
            max_examples=min(ROUND, max(1, self.scripts)),
            phases=phases,
            database=self._store,
            deadline=None,
            print_blob=False,
            verbosity=Verbosity.quiet,
            suppress_health_check=list(HealthCheck),
            report_multiple_bugs=False,
        )
        last: list[Script] = []

        @hypothesis.given(scripts_in(self.bounds))
        def look(script: Script) -> None:
            if condition(script):
                last[:] = [script]
                raise Reached

        # `hypothesis.find` with a seed keeps nothing in the store, and so do tests, where the settings aren't outside of the seed.
        try:
            settings(hypothesis.seed(self._random.getrandbits(64))(look))()
        except Reached:
            return last[0]
        return None

    def _look_at(self, script: Script) -> float | None:
        """The measure of a script, which tells Hypothesis where to climb."""
        self.tried += 1
        self._store.is_noting = False
        document = document_of(script, self.document)
        run = Run(document, replay(document))
        value = self.measure.value(run)
        score = self.measure.nearness(run) if value is None else float(value)
        hypothesis.target(score)
        if self.best_score is None or score > self.best_score:
            self.best_score, self._store.is_noting = score, True
            self.worst, self.worst_script = value, script
        return value

    def shrunk(self, script: Script, wanted: float, first: bytes | None = None) -> Script:
        """The smallest script that is still so bad. A round of shrinking ends after some steps in vain, so there are several. They begin
        with the script as Hypothesis has saved it."""

        def is_so_bad(script: Script) -> bool:
            value = self._look_at(script)
            return value is not None and value >= wanted

        in_vain = 0
        self._begin_from(first or self.saved())
        for _ in range(MOST_SHRINKINGS):
            smaller = self._find(is_so_bad, SHRINKING)
            in_vain = in_vain + 1 if smaller in (None, script) else 0
            script = smaller or script
            if in_vain == ENOUGH_IN_VAIN:
                break
        return script
