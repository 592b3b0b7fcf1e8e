"""A hunt on the workers of a Dask scheduler. It hands out generations of scripts: each share of one is a round of Hypothesis on a worker,
which begins with the worst script of all generations before, or anew. The worst one of all is shrunk in several ways, and the smallest taken.

Shares have seeds of their own and their number doesn't depend on that of the workers, so that the same seed finds the same script, on however
many workers and whichever of them are lost.
"""
from __future__ import annotations

import json
import threading
import time
from dataclasses import dataclass
from typing import Any, Callable, Iterator, Mapping, Protocol, Sequence

from kube_replay.hunt.bounds import Bounds
from kube_replay.hunt.measures import MEASURES
from kube_replay.hunt.scripts import Script
from kube_replay.hunt.search import Found, Hunt

SHARES = 16
SCRIPTS_A_SHARE = 200
WAYS_OF_SHRINKING = 4


@dataclass(frozen=True)
class Ground:
    """What all shares have in common."""

    document: Mapping[str, Any]
    bounds: Bounds
    measure: str
    at_least: float | None = None


@dataclass(frozen=True)
class Worst:
    """A script, how bad it is, how Hypothesis has saved it, and how many scripts were tried until then."""

    script: Script
    score: float
    value: float | None
    saved: bytes | None
    tried: int


@dataclass(frozen=True)
class Share:
    """A round of a generation: its seed, what it may use, and with which script it begins."""

    seed: str
    scripts: int
    seconds: float
    first: bytes | None


@dataclass(frozen=True)
class Shrinking:
    """A way of shrinking a script that is so bad."""

    seed: str
    worst: Worst
    wanted: float


class Hands(Protocol):
    """Who does the tasks: `Workers`, or what does the same in one process."""

    def results(self, function: Callable[[Any, Any], Any], common: Any, tasks: Sequence[Any]) -> Iterator[tuple[int, Any]]:
        """The place and the result of each task, as they are done."""


# On a worker

# Hypothesis isn't made for several threads at once.
_alone = threading.Lock()


def searched(ground: Ground, share: Share) -> Worst | None:
    """The worst script of a share; None where there was no time for one."""
    hunt = Hunt(ground.document, ground.bounds, MEASURES[ground.measure], share.scripts, share.seconds, share.seed)
    with _alone:
        saved = hunt.search_from(share.first, ground.at_least)
    return worst_of(hunt, saved)


def shrunk(ground: Ground, way: Shrinking) -> tuple[Script, Worst | None]:
    """The smallest script that is still so bad, and the worst one that the shrinking came across."""
    hunt = Hunt(ground.document, ground.bounds, MEASURES[ground.measure], seed=way.seed)
    with _alone:
        smallest = hunt.shrunk(way.worst.script, way.wanted, way.worst.saved)
    return smallest, worst_of(hunt, hunt.saved())


def worst_of(hunt: Hunt, saved: bytes | None) -> Worst | None:
    """What a hunt has found so far."""
    if hunt.worst_script is None or hunt.best_score is None:
        return None
    return Worst(hunt.worst_script, hunt.best_score, hunt.worst, saved, hunt.tried)


# Where the generations are handed out


@dataclass
class Generations:
    """A hunt by generations. `seconds` is looked at between them; a share that is under way ends then too."""

    hands: Hands
    ground: Ground
    scripts: int = 20_000
    seconds: float = 60.0
    seed: int = 1
    tried: int = 0
    worst: Worst | None = None
    tell: Callable[[int, float | None], None] = lambda count, value: None

    def run(self) -> Found | None:
        """The smallest of the worst scripts that are found, as `Hunt.run` gives it."""
        self._search(time.monotonic() + self.seconds)
        wanted, before = self._wanted(), None
        if wanted is None:
            return None
        while wanted != before:
            # The shrinking may come across a worse one.
            smallest, before = self._shrink(wanted), wanted
            wanted = self._wanted() or wanted
        hunt = Hunt(self.ground.document, self.ground.bounds, MEASURES[self.ground.measure], tried=self.tried)
        return hunt.found(smallest, wanted)

    def _wanted(self) -> float | None:
        """How bad the answer is to be; None where nothing is so bad."""
        value, at_least = self.worst.value if self.worst else None, self.ground.at_least
        if value is None or at_least is None:
            return value
        return at_least if value >= at_least else None

    def _search(self, until: float) -> None:
        generation = 0
        while self.tried < self.scripts and time.monotonic() < until and not self._is_enough():
            before = self.tried
            self._take(list(self._generation(generation, until - time.monotonic())))
            if self.tried == before:
                break
            generation += 1

    def _is_enough(self) -> bool:
        return self.ground.at_least is not None and self._wanted() is not None

    def _generation(self, generation: int, seconds: float) -> Iterator[Worst | None]:
        """The worst script of each share, in the order of the shares."""
        left = self.scripts - self.tried
        scripts = min(SCRIPTS_A_SHARE, -(-left // SHARES))
        first = self.worst.saved if self.worst else None
        shares = [Share(f'{self.seed} {generation} {place}', scripts, seconds, first if place % 2 else None) for place in range(SHARES)]
        found: dict[int, Worst | None] = {}
        for place, worst in self.hands.results(searched, self.ground, shares):
            found[place] = worst
            values = [each.value for each in (*found.values(), self.worst) if each is not None and each.value is not None]
            self.tell(worst.tried if worst else 0, max(values, default=None))
        return iter(found[place] for place in range(SHARES))

    def _take(self, found: Sequence[Worst | None]) -> None:
        """Counts what was tried, and keeps the worst script; of two that are as bad the first one."""
        for each in found:
            if each is not None:
                self.tried += each.tried
                if self.worst is None or each.score > self.worst.score:
                    self.worst = each

    def _shrink(self, wanted: float) -> Script:
        assert self.worst is not None
        ways = [Shrinking(f'{self.seed} shrinking {place}', self.worst, wanted) for place in range(WAYS_OF_SHRINKING)]
        found = dict(self.hands.results(shrunk, self.ground, ways))
        self._take([found[place][1] for place in range(WAYS_OF_SHRINKING)])
        return min((found[place][0] for place in range(WAYS_OF_SHRINKING)), key=size_of)


def size_of(script: Script) -> tuple[int, int, str]:
    """By what the smaller of two scripts is told: fewer events, and then the shorter text."""
    text = json.dumps([script.clocks, script.events, script.waits, script.settings])
    return len(script.events), len(text), text
