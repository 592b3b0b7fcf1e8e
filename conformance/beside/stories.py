"""Whole runs of the node lifecycle controller: what happened when, from the lead on."""
from collections import namedtuple

from .alignment import aligned
from .documents import NOT_READY, UNREACHABLE, document, lease, node, pod, put, stamp
from .program import is_accepted
from .tally import EXACT, NEAR, differs, unnamed

# How the recorded stories were set up: nodes in zones, seconds that pods tolerate, the last second, and by a node's number the
# seconds after which it renews its Lease no more, and from which it does so again.
Story = namedtuple("Story", "nodes zones tolerated end dies returns")
STORIES = {
    "dead_node_failover": Story(3, 1, 300, 900, {2: 16}, {}),
    "one_leader": Story(3, 1, 300, 900, {2: 16}, {}),
    "queue_of_five": Story(12, 1, 100_000, 400, {0: 16, 1: 16, 2: 16, 3: 16, 4: 16, 5: 46}, {}),
    "all_full": Story(4, 2, 300, 700, {0: 16, 1: 36, 2: 16, 3: 66}, {3: 200}),
}
MARKS = {"unknown": "mark", "taint": "taint", "untaint": "untaint", "swap": "swap"}
WHY_ALONE = {
    "stamped": differs("queued once", "stamped anew there alone"),
    "untaint": differs("new leader's taints", "untainted there alone"),
    "taint": differs("new leader's taints", "tainted there alone"),
}
WHY_LATER = {
    "taint": differs("one pass later", "tainted at another instant"),
    "evict": differs("due time", "evicted at another instant"),
}


def is_up(story, number, second):
    dies, returns = story.dies.get(number), story.returns.get(number)
    return dies is None or second <= dies or returns is not None and second >= returns


def document_of(story, has_failover):
    """Upstream's first pass is 0.1 s after its lead, so the leader leads at 4.1 s here. The script renews the nodes' Leases."""
    tolerations = [{"key": key, "operator": "Exists", "value": "", "effect": "NoExecute", "seconds": story.tolerated}
                   for key in (NOT_READY, UNREACHABLE)]
    objects, events = [], [{"beat": 37, "type": "start", "process": "a"}]
    for at in range(story.nodes):
        objects.append(node(f"n{at}", f"z{at % story.zones}", "True", "KubeletReady", stamp(0)))
        objects.append(pod(f"p{at}", f"n{at}", tolerations))
    for second in range(5, story.end, 10):
        for at in range(story.nodes):
            if not is_up(story, at, second):
                continue
            events.append(put(second * 10, lease("kube-node-lease", f"n{at}", renewTime=stamp(second))))
            if story.returns.get(at, story.end) <= second < story.returns.get(at, story.end) + 10:
                events.append(put(second * 10, node(f"n{at}", f"z{at % story.zones}", "True", "KubeletReady", stamp(second))))
    if has_failover:
        events += [{"beat": 1000, "type": "crash", "process": "a"}, {"beat": 2103, "type": "start", "process": "b"}]
    events.sort(key=lambda it: it["beat"])
    return document({"endBeat": story.end * 10, "beatMillis": 100}, objects, events, [{"name": "a", "up": False}, {"name": "b", "up": False}])


def happened_here(trace):
    """Instants in ms, by the words of what happened."""
    found = [(beat * 100, "lead") for beat, _, deed in trace if deed[0] == "lead"]
    tainted = set()
    for beat, _, deed in trace:
        if deed[0] in MARKS and is_accepted(deed):
            word = "stamped anew" if deed[0] == "taint" and deed[1] in tainted else MARKS[deed[0]]
            found.append((beat * 100, f"{word} {deed[1]}"))
            tainted = tainted - {deed[1]} if deed[0] == "untaint" else tainted | {deed[1]} if deed[0] == "taint" else tainted
        elif deed[0] == "evict":
            found.append((beat * 100, "evict " + deed[1].split("/")[1]))
    return found


def happened_there(lines):
    found, before = [], {}
    for line in lines:
        words = line["what"].split()
        if words[0] in ("lead", "evict"):
            found.append((line["at_ms"], line["what"]))
        elif words[0] == "node":
            now = words[2].split("/")[0], [it for it in words[3:] if it.startswith("NoExecute")]
            found += [(line["at_ms"], f"{it} {words[1]}") for it in changes(before.get(words[1], ("True", [])), now)]
            before[words[1]] = now
    return found


def changes(old, new):
    """What a write of a node did, by Ready and the NoExecute taints before and after it."""
    if new[0] == "Unknown" and old[0] != "Unknown":
        yield "mark"
    if new[1] and not old[1]:
        yield "taint"
    elif new[1] and new[1] != old[1]:
        yield "stamped anew"
    elif old[1] and not new[1]:
        yield "untaint"


def matched(lines, program, name):
    """Each event there with the next one here of the same words, or without one; then those that are here alone."""
    has_failover = sum(it["what"] == "lead" for it in lines) > 1
    return paired(happened_there(lines), happened_here(program.replay(document_of(STORIES[name], has_failover))))


def paired(events, rest):
    pairs = []
    for there, what in events:
        at = next((at for at, it in enumerate(rest) if it[1] == what), None)
        pairs.append((what, None if at is None else rest.pop(at)[0], there))
    return pairs + [(what, here, None) for here, what in rest]


def verdict_of(what, here, there):
    word = what.split()[0]
    if there is None:
        return unnamed(f"{word} here alone")
    if here is None:
        return WHY_ALONE.get(word, unnamed(f"{word} there alone"))
    if here == there:
        return EXACT
    if abs(here - there) <= 100 or word == "lead":
        return NEAR
    return WHY_LATER.get(word, unnamed(f"{word} at another instant"))


RACE = differs("queued once", "a look and a taint of one instant, whose order is a race there")
TAKES = ("taint", "stamped anew")


def is_take(what):
    return what.startswith(TAKES)


def queue_of(what, story):
    return int(what.rsplit("n", 1)[1]) % story.zones


def takes(events, zone, story):
    """By the second, which node of a zone's queue is tainted, or stamped anew."""
    return {instant / 1000: what for instant, what in events if is_take(what) and queue_of(what, story) == zone}


def take_verdicts(here, there):
    """Which node of a queue is the next is a map's order there, where several were queued at one instant; so the instant counts."""
    for seen, told in aligned(sorted(there), sorted(here)):
        if None in (seen, told) or round(abs(seen - told), 3) > 0.1:
            yield RACE
        else:
            yield EXACT if (seen, there[seen]) == (told, here[told]) else NEAR


def run_by_rules(lines, program, name):
    story, has_failover = STORIES[name], sum(it["what"] == "lead" for it in lines) > 1
    here, there = happened_here(program.replay(document_of(story, has_failover))), happened_there(lines)
    rest = [it for it in here if not is_take(it[1])]
    verdicts = [verdict_of(*it) for it in paired([it for it in there if not is_take(it[1])], rest)]
    return verdicts + [it for zone in range(story.zones) for it in take_verdicts(takes(here, zone, story), takes(there, zone, story))]


def runs_by_rules(recorded, program):
    judged = program.each(lambda name: run_by_rules(recorded[name], program, name), recorded)
    return [it for verdicts in judged for it in verdicts]


def runs(recorded, program):
    judged = program.each(lambda name: [verdict_of(*it) for it in matched(recorded[name], program, name)], recorded)
    return [it for verdicts in judged for it in verdicts]
