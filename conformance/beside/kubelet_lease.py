"""How long after a renewal a kubelet begins the next one, while no call fails."""
import json

from .documents import CALM, document, node
from .stored_nodes import seconds_of
from .tally import EXACT, NEAR, differs, left, unnamed

BEATS = (5_000, 25_000)  # of 1 ms; after each the last renewal is looked at
LONGEST_MILLIS = 10_400  # from the end of a renewal to the next one, in newer kubelets
LONGER = differs("kubelet", "10.0 to 10.4 s between two renewals there")
FAILED = left("after a call that fails, or whose reply is lost")


def period_here(program):
    """In ms, by the renewals that the store has after two beats."""
    made = document(dict(CALM, endBeat=BEATS[1], beatMillis=1), [node("n")])
    made["kubelets"] = [{"node": "n"}]
    first, later = (renew_time(program.lines(f"state {beat}", made)) for beat in BEATS)
    return round((later - first) / round((later - first) / 10) * 1000)


def renew_time(lines):
    items = json.loads("\n".join(lines))["items"]
    lease = next(it for it in items if it["kind"] == "Lease" and it["metadata"]["namespace"] == "kube-node-lease")
    second, micros = lease["spec"]["renewTime"].rstrip("Z").split(".")
    return seconds_of(second + "Z") + int(micros.ljust(6, "0")) / 1e6


def kubelet_lease(cases, program):
    here = period_here(program)
    return [it for case in cases for it in verdicts_of(case["calls"], here)]


def verdicts_of(calls, here):
    for call, following in zip(calls, calls[1:]):
        if call["what"] == following["what"] == "update" and call["reply"] == "done":
            yield verdict_of(following["at_ms"] - call["at_ms"], here, call["end_ms"] - call["at_ms"])
        elif call["what"] != "get":
            yield FAILED


def verdict_of(there, here, of_call):
    """There the wait counts from the call's end, here from its beginning."""
    if there == here:
        return EXACT
    if abs(there - here) <= of_call:
        return NEAR
    return LONGER if here < there <= LONGEST_MILLIS + of_call else unnamed("another wait of a kubelet")
