"""The taint manager: when pods are deleted, as a node's taints change, pods come and the node goes."""
from .documents import CALM, WELL, document, node, pod, put, removed_node, stamp, taint
from .program import evictions
from .tally import EXACT, NEAR, differs, unnamed

BEFORE = 100  # beats of a second before the story of a case begins
LATE_POD = differs("late pod", "its whole toleration from its coming there, from timeAdded here")
STAYS = differs("first eviction time", "an eviction that is scheduled stays so there when the taints change")
GONE_NODE = differs("removed node", "timers that run go on there, and here nothing is due")


def tainted_node(event):
    """The node has no Ready condition, so that the controller leaves its taints alone."""
    return node("n", taints=[taint(it["key"], it["effect"], it["value"], stamp(BEFORE + it["added_s"])) for it in event["taints"] or []])


def beat_of(event):
    return BEFORE + event["at_ms"] // 1000


def document_of(case, objects, events):
    return document(dict(CALM, beatMillis=1000, endBeat=BEFORE + case["end_ms"] // 1000), objects, events)


def taint_manager(cases, program):
    return [it for verdicts in program.each(lambda case: manager_verdicts(case, program), cases) for it in verdicts]


def manager_verdicts(case, program):
    events = [put(beat_of(it), tainted_node(it)) for it in case["events"]]
    pods = [pod(it["name"], "n", it["tolerations"] or []) for it in case["pods"]]
    gone = evictions(program.replay(document_of(case, [WELL, node("n"), *pods], events)))
    return [time_verdict(case, it["deleted_ms"], millis(gone.get(it["name"]))) for it in case["pods"]]


def millis(beat):
    return -1 if beat is None else (beat - BEFORE) * 1000


def time_verdict(case, there, here):
    if here == there:
        return EXACT
    is_both = min(here, there) >= 0
    if is_both and abs(here - there) <= 1000:
        return NEAR
    last = max(here, there) if is_both else case["end_ms"]
    has_changed = any(it["at_ms"] <= last for it in case["events"][1:])
    return STAYS if has_changed else unnamed("another time of an eviction, though no taint changed")


def taint_more(cases, program):
    return [it for verdicts in program.each(lambda case: more_verdicts(case, program), cases) for it in verdicts]


def more_verdicts(case, program):
    tolerations = {it["name"]: it["tolerations"] for it in case["pods"]}
    events = []
    for it in case["events"]:
        if it.get("pod"):
            events.append(put(beat_of(it), pod(it["pod"], "n", tolerations[it["pod"]])))
        elif it.get("gone"):
            events.append(removed_node(beat_of(it), "n"))
        else:
            events.append(put(beat_of(it), tainted_node(it)))
    gone = evictions(program.replay(document_of(case, [WELL, node("n")], events)))
    return [late_verdict(case, it["name"], it["deleted_ms"], millis(gone.get(it["name"]))) for it in case["pods"]]


def late_verdict(case, name, there, here):
    if here == there:
        return EXACT
    bound = next(it["at_ms"] for it in case["events"] if it.get("pod") == name)
    until = max(here, there) if min(here, there) >= 0 else case["end_ms"]
    if any(it.get("gone") and bound <= it["at_ms"] <= until for it in case["events"]):
        return GONE_NODE
    changes = [it for it in case["events"] if not it.get("pod") and not it.get("gone")]
    last = next((it for it in reversed(changes) if it["at_ms"] <= bound), None)
    is_tainted = last is not None and bool(last["taints"])
    return LATE_POD if is_tainted and not any(bound < it["at_ms"] <= until for it in changes) else STAYS
