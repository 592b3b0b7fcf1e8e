"""Which toleration tolerates a taint, and until when all taints of a node are tolerated."""
from datetime import datetime

from .documents import CALM, LEADS, WELL, document, listed, node, pod, stamp, taint
from .tally import EXACT, differs, left, unnamed

NEW_YEAR_2199 = datetime(2199, 1, 1)
FIRST_ADDED = datetime(1970, 1, 2)
LONGEST_SECONDS = 7_200


def is_refused_by_rule(toleration):
    return (not toleration["key"] and toleration["operator"] != "Exists"
            or toleration["operator"] == "Exists" and toleration["value"]
            or toleration["seconds"] is not None and toleration["effect"] != "NoExecute")


def tolerates(cases, program):
    """By `place` for NoSchedule and for keys without default tolerations, by evictions for the other NoExecute."""
    placed, evicted, verdicts = [], [], []
    for number, case in enumerate(cases):
        toleration, of_taint = case["toleration"], case["taint"]
        if not case["lawful"] and is_refused_by_rule(toleration):
            verdicts.append(unlawful(program, toleration))
        elif of_taint["effect"] == "PreferNoSchedule":
            verdicts.append(left("PreferNoSchedule neither places nor evicts"))
        elif of_taint["effect"] == "NoSchedule" or of_taint["key"] == "k":
            placed.append((number, case))
        elif toleration["seconds"] is not None and toleration["seconds"] <= 0:
            verdicts.append(left("tolerated for no time: evicted at once either way"))
        else:
            evicted.append((number, case))
    return verdicts + by_place(placed, program) + by_eviction(evicted, program)


def unlawful(program, toleration):
    answer = program.answer("place", {"objects": listed([pod("p", "", [toleration])])})
    if answer == "refused 17 /objects/items/0/spec/tolerations/0":
        return left("unlawful, and refused with 17")
    return unnamed("an unlawful toleration isn't refused")


def by_place(cases, program):
    items = []
    for number, case in cases:
        of_taint = case["taint"]
        items.append(node(f"n{number}", ready="True", taints=[taint(of_taint["key"], of_taint["effect"], of_taint["value"])]))
        items.append(pod(f"p{number}", "", [case["toleration"]]))
    places = {}
    for line in program.lines("place", {"objects": listed(items)}):
        words = line.split()
        if words[0] == "place":
            places[words[1].split("/")[1]] = words[3].split("=")[1].split(",")
    same = [(f"n{number}" in places[f"p{number}"]) == case["tolerates"] for number, case in cases]
    return [EXACT if it else unnamed("another place") for it in same]


def by_eviction(cases, program):
    objects = [WELL]
    for number, case in cases:
        of_taint = case["taint"]
        objects.append(node(f"n{number}", taints=[taint(of_taint["key"], "NoExecute", of_taint["value"], stamp(0))]))
        objects.append(pod(f"p{number}", f"n{number}", [case["toleration"]]))
    trace = program.replay(document(dict(CALM, endBeat=5, beatMillis=100), objects))
    gone = {deed[1] for _, _, deed in trace if deed[0] == "evict"}
    same = [(f"default/p{number}" not in gone) == case["tolerates"] for number, case in cases]
    return [EXACT if it else unnamed("evicted otherwise") for it in same]


def matching(cases, program):
    """By the due time in the line of the eviction. Taints are of 1970 and the replay is of 2199, so what can be due is due."""
    objects = [WELL]
    for number, case in enumerate(cases):
        taints = [taint(it["key"], it["effect"], it["value"], stamp(0, FIRST_ADDED)) for it in case["taints"] or []]
        objects += [node(f"n{number}", taints=taints), pod(f"p{number}", f"n{number}", case["tolerations"] or [])]
    settings = dict(CALM, endBeat=5, epoch=NEW_YEAR_2199.strftime("%Y-%m-%dT%H:%M:%SZ"))
    due = {deed[1]: deed[2] for _, _, deed in program.replay(document(settings, objects)) if deed[0] == "evict"}
    return [due_time_verdict(case, due.get(f"default/p{number}")) for number, case in enumerate(cases)]


def matching_at_sight(cases, program):
    """As `matching`, where seconds count from when the leader first sees the pod, at its lead: so what can be due within two hours is due."""
    objects = [WELL]
    for number, case in enumerate(cases):
        taints = [taint(it["key"], it["effect"], it["value"], stamp(0)) for it in case["taints"] or []]
        objects += [node(f"n{number}", taints=taints), pod(f"p{number}", f"n{number}", case["tolerations"] or [])]
    settings = dict(CALM, beatMillis=1000, endBeat=LONGEST_SECONDS)
    due = {deed[1]: deed[2] for _, _, deed in program.replay(document(settings, objects)) if deed[0] == "evict"}
    return [sight_verdict(case, due.get(f"default/p{number}")) for number, case in enumerate(cases)]


def sight_verdict(case, here):
    nanos = case["min_nanos"] if case["all_tolerated"] else 0
    if nanos > (LONGEST_SECONDS - LEADS) * 1e9:
        return left("due after two hours")
    return EXACT if here == (None if nanos < 0 else "due=" + stamp(LEADS + nanos / 1e9)) else unnamed("another due time")


def due_time_verdict(case, here):
    span = (NEW_YEAR_2199 - FIRST_ADDED).total_seconds()
    is_long = any((it["seconds"] or 0) > span for it in case["tolerations"] or [])
    if not case["all_tolerated"]:
        there = 0
    else:
        there = None if case["min_nanos"] < 0 else case["min_nanos"] / 1e9
    if here == (None if there is None else "due=" + stamp(there, FIRST_ADDED)) and not (there is None and is_long):
        return EXACT
    if here is None and is_long and (there is None or there > span):
        return left("due after 2199, or never: no document tells these apart")
    return differs("seconds in 64 bits", "nanoseconds wrap round there") if is_long else unnamed("another due time")


def all_tolerated(cases, program):
    """As `matching`, where the least seconds weren't recorded: a pod is due at once if a taint isn't tolerated, and else it never is."""
    lacking = [dict(it, tolerations=[dict(one, seconds=None) for one in it["tolerations"] or []], min_nanos=-1) for it in cases]
    return matching(lacking, program)


def comparisons(cases, program):
    """The operators Lt and Gt, and words that are none."""
    answers = {operator: unlawful_operator(program, operator) for operator in {it["toleration"]["operator"] for it in cases}}
    return [answers[it["toleration"]["operator"]] for it in cases]


def unlawful_operator(program, operator):
    answer = program.answer("place", {"objects": listed([pod("p", "", [{"key": "k", "operator": operator, "value": "5", "effect": "", "seconds": None}])])})
    if answer == "refused 16 /objects/items/0/spec/tolerations/0/operator":
        return left("an operator other than Exists and Equal, refused with 16")
    return unnamed(f"the operator {operator} isn't refused")
