"""The greatest plan of an election, and the least failover for which there is one, by trying all plans in whole steps.

It shares nothing with the program: the bounds are those of test_lens_bounds.py, in fractions, and whether a plan is safe is counted on the clocks
themselves. Each lease, retry period and renew deadline is tried, from the greatest on, so it is for short failovers alone.
"""
import math
from dataclasses import dataclass
from fractions import Fraction
from functools import cached_property

import test_lens_bounds as bounds

RENEW_DEADLINE, HALF = 'renew-deadline', 'half'
LONGEST_TIMEOUT = 600


@dataclass
class Wish:
    """What is asked. Times are in milliseconds, the skew in parts per million, the wait in percent of the retry period, which is at least so many
    tenths of a second; the timeout is milliseconds, or one of the two words above."""
    failover: int
    timeout: object
    skew: int = 0
    wait: int = 220
    stall: int = 0
    delay: int = 100
    retry: int = 1
    beat: int = 10

    @cached_property
    def tick(self):
        return Fraction(self.beat, 1000)

    @cached_property
    def slow(self):
        return 1 - Fraction(self.skew, 10 ** 6)

    @cached_property
    def fast(self):
        return 1 + Fraction(self.skew, 10 ** 6)

    @cached_property
    def calm(self):
        return bounds.Calm(self.beat, 1, math.ceil(Fraction(self.delay, self.beat)), self.tick * self.slow, self.tick * self.fast)

    def controller(self, lease, retry, renew):
        """One with these settings, of which the last two are in tenths of a second."""
        retry, renew = Fraction(retry, 10), Fraction(renew, 10)
        timeout = {RENEW_DEADLINE: renew, HALF: max(Fraction(1), renew / 2)}.get(self.timeout)
        if timeout is None:
            timeout = Fraction(self.timeout, 1000)
        return bounds.Controller('any', Fraction(lease), renew, retry, timeout, retry * Fraction(self.wait, 100))

    @cached_property
    def still(self):
        """How long a pause for a whole stall may last, in seconds."""
        beats = math.ceil(Fraction(self.stall, self.beat))
        return (beats + 1) * self.tick if beats else 0

    def is_safe(self, one):
        """What a leader may act on by its slow clock, and a stall, are over before a fast clock has gone on for the lease."""
        return self.still + (one.timeout + one.retry + one.renew) / self.slow < one.lease / self.fast

    def holds(self, lease, retry, renew):
        if not (renew < lease * 10 and retry * 12 < renew * 10):
            return False
        one = self.controller(lease, retry, renew)
        return one.timeout <= LONGEST_TIMEOUT and self.is_safe(one) and bounds.stays(self.calm, one)

    def bound(self, lease, retry):
        one = self.controller(lease, retry, 0)
        return bounds.crash(self.calm, one, one, False)[1] * self.beat

    def of_lease(self, lease, most=None):
        """Each retry period of a plan with this lease whose bound is at most this, from the longest on, with the longest renew deadline."""
        for retry in range(lease * 10, self.retry - 1, -1):
            bound = self.bound(lease, retry)
            if most is None or bound <= most:
                renew = next((renew for renew in range(lease * 10, 0, -1) if self.holds(lease, retry, renew)), None)
                if renew:
                    yield bound, retry, renew

    def greatest(self):
        """The lease, the retry period, the renew deadline and the bound of the greatest plan, or None."""
        for lease in range(self.failover // 1000, 0, -1):
            for bound, retry, renew in self.of_lease(lease, self.failover):
                return lease, retry, renew, bound
        return None

    def least_failover(self, longest):
        """The least bound of any plan with a lease of at most so many seconds, or None."""
        least, lease = None, 1
        while lease <= longest and (least is None or lease * 1000 <= least):
            for bound, _, _ in self.of_lease(lease, None if least is None else least - 1):
                least = bound if least is None else min(least, bound)
            lease += 1
        return least


def wish(dice):
    """One of a short failover, mostly not far from the edge."""
    return Wish(failover=dice.choice((dice.randint(500, 7000), dice.randint(2000, 6000))),
                timeout=dice.choice((RENEW_DEADLINE, HALF, 500, 1000, 2000, 3000, dice.randint(1, 4000))),
                skew=dice.choice((0, 0, 10000, 1000, 20000, 200000, 500000)), wait=dice.choice((100, 100, 220, 220, 130, 1000)),
                stall=dice.choice((0, 0, 0, 1, 500, 1000, 3000)), delay=dice.choice((1, 10, 50, 100, 100, 200, 400)),
                retry=dice.choice((1, 1, 1, 5, 10, 7)), beat=dice.choice((10, 10, 1, 100, 7, 50)))
