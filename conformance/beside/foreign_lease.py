"""Single attempts on a Lease that another wrote: is it left alone, or taken over, and with how many transitions?"""
from collections import namedtuple

from .documents import document, lease
from .tally import EXACT, differs, left, unnamed

# What a candidate makes of a Lease: ms from when it first saw it to its Update, None where it sends none, and the transitions then.
Takeover = namedtuple("Takeover", "after transitions")
FIRST_SEEN, RETRY_MILLIS = 2, 2  # attempts stand 4 beats of 1 ms apart, so one stands at each whole second
READING = differs("reading at the reply", "the age at the attempt's start counts there")
SAME_RECORD = differs("changed record", "a record that looks the same there, in whole seconds")
WRAPS = differs("transitions", "they wrap round there")
STALE = left("the Get fails")
OWN = left("nothing stored, or its own Lease")
FAST = left("begun by an Update without a Get: in the other sets")


def takeover_of(own_seconds, stored, program):
    """By a document that has the Lease at first."""
    spec = {"holderIdentity": stored["holder"], "leaseDurationSeconds": stored["duration"], "leaseTransitions": stored["transitions"]}
    held = lease("kube-system", "kube-controller-manager", **{key: it for key, it in spec.items() if it is not None})
    settings = {"beatMillis": 1, "endBeat": max(own_seconds, stored["duration"] or 0) * 1000 + 100, "leaseDurationSeconds": own_seconds,
                "renewDeadlineMillis": own_seconds * 1000 - 500, "retryPeriodMillis": RETRY_MILLIS}
    trace = program.replay(document(settings, [held], controllers=[{"name": "me"}]))
    written = next(((beat, deed) for beat, _, deed in trace if deed[:2] == ["update", "election"]), None)
    if written is None:
        return Takeover(None, None)
    return Takeover(written[0] - 1 - FIRST_SEEN, int(written[1][3].split("=")[1]))


class Sequence:
    """A recorded sequence of foreign writes and attempts; `seen` is when the stored Lease was first shown to the candidate."""

    def __init__(self, case, program):
        self.own, self.steps, self.program = case["lease_seconds"], case["steps"], program
        self.stored, self.seen = None, None

    def verdicts(self):
        for step in self.steps:
            if step["op"] == "attempt":
                yield self.judge(step["plan"], step["result"])
                self.take(step["plan"], step["result"])
            elif step["op"] in ("foreign", "delete"):
                self.stored, self.seen = step.get("lease"), None

    def take(self, plan, result):
        if plan["mid"] and any(it["what"] == "fast" or it["reply"] in ("found", "absent") for it in result["made"]):
            self.stored, self.seen = plan["mid"], None
        if result["wrote"]:
            self.stored, self.seen = None, None

    def judge(self, plan, result):
        if result["made"] and result["made"][0]["what"] == "fast":
            return FAST
        if plan["get"] != "ok":
            return STALE
        if self.stored is None:
            return OWN
        if self.seen is None:
            self.seen = result["got_us"]
        here = takeover_of(self.own, self.stored, self.program)
        return self.compared(here, result)

    def compared(self, here, result):
        age, age_at_start = ((result[it] - self.seen) // 1000 for it in ("got_us", "start_us"))
        is_taken = here.after is not None and age >= here.after
        if is_taken == bool(result["sent"]):
            is_same = not is_taken or not result["wrote"] or result["wrote"]["transitions"] == here.transitions
            return EXACT if is_same else self.other_transitions()
        if (here.after is not None and age_at_start >= here.after) == bool(result["sent"]):
            return READING
        return SAME_RECORD

    def other_transitions(self):
        return WRAPS if self.stored["transitions"] == 2**31 - 1 else unnamed("other transitions")


def election_steps(cases, program):
    return [it for verdicts in program.each(lambda case: list(Sequence(case, program).verdicts()), cases) for it in verdicts]
