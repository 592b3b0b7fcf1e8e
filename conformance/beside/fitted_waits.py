"""Waits of rivals by which nobody leads for as long after a crash as was recorded there: whether there are such, within 1 to 2.2 retry periods.

They are sought by the rules of docs/model.md, and the program's trace tells whether they were right: a rival's attempt is a Get of two beats; where
that finds the leader's last renewal still respected it waits, and else it leads four beats after the attempt began."""
from .documents import LEADS
from .elections import Crash
from .tally import EXACT, NEAR, differs

RETRY_MILLIS = 2000
LEAST, GREATEST = 1000, 2200
UNFITTED = differs("jitter", "no waits were found by which nobody leads for as long here")
GET, LEAD = 2, 4  # beats from an attempt's begin to the Get's reply, and to the lead


class Steps:
    """The ways from one attempt's begin to that of another, in beats: so many waits, and the last of them at least so long."""

    def __init__(self, beat):
        self.beat = beat
        self.least, self.greatest = GET + -(-RETRY_MILLIS // beat), GET + RETRY_MILLIS * GREATEST // LEAST // beat

    def of(self, length, last):
        """Steps that come to `length`, the last of them at least `last`; None where there are none."""
        last = max(last, self.least)
        if length == 0:
            return []
        for count in range(1, length // self.least + 1):
            end = min(self.greatest, length - (count - 1) * self.least)
            rest = length - end
            if end >= last and rest <= (count - 1) * self.greatest:
                return [rest // (count - 1) + (at < rest % (count - 1)) for at in range(count - 1)] + [end]
        return None

    def wait(self, step):
        """A wait, in thousandths, after which the next attempt begins that step later."""
        return max(LEAST, min(GREATEST, (step - GET) * self.beat * LEAST // RETRY_MILLIS))


def fitted(crash, renewed):
    """Waits by which a rival leads as long after the crash as was recorded, where the last renewal was stored at beat `renewed`; or None."""
    steps, lease = Steps(crash.beat), crash.case["lease_ms"] // crash.beat
    takeover = crash.crash + round(crash.case["gap_ms"] / crash.beat) - LEAD
    for seen in range(renewed, renewed + steps.greatest):
        # The attempt before didn't see the renewal yet, and the one before the takeover came within the lease from the Get's reply.
        before, after = steps.of(seen - LEADS, seen - renewed + 2), steps.of(takeover - seen, takeover - seen - lease + 1)
        if before is not None and after is not None and takeover - seen >= lease:
            return [steps.wait(step) for step in before + after]
    return None


def verdict(case, program, more):
    crash = Crash(case, more)
    trace = program.replay(crash.document())
    renewed = [at for at, actor, deed in trace if actor == "a_1" and deed[1:2] == ["election"] and at <= crash.crash + 1][-1]
    waits = fitted(crash, renewed)
    if waits is None:
        return UNFITTED
    apart = abs(crash.gap(program.replay(crash.document(waits))) - case["gap_ms"])
    return EXACT if apart == 0 else NEAR if apart <= crash.beat else UNFITTED


def election_failover(cases, program, more):
    return list(program.each(lambda case: verdict(case, program, more), cases))
