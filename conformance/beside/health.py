"""Whole runs of the monitor of node health: marks, taints and zones of many nodes, looked at every fifth second."""
from collections import Counter, namedtuple

from .documents import LEADS, document, lease, micro_stamp, node, put, removed_node, stamp, taint
from .stored_nodes import by_beat
from .tally import EXACT, NEAR, differs, left

Look = namedtuple("Look", "beat after nodes zone_of")
NEVER_SEEN = {"ready": "", "reason": "", "heartbeat_s": None, "taints": []}
REASONS = {"True": "KubeletReady", "False": "KubeletNotReady"}
SWAPPED_LATER = differs("one pass later", "swapped here, a pass later there")
SAME_TAINT = differs("queued once", "the same taint with another time")
TOKENS_HERE = differs("queued once", "tainted here, more than a pass later there")
TOKENS_THERE = differs("bucket at first", "tainted there, not yet here")
ORDER = differs("order of names", "another node of those queued at one instant")
IN_THE_MODE = differs("swap into the mode", "a taint stands there while all zones are down")
BESIDE_A_MARK = differs("probe", "taints, in a pass in which a mark differs too")
CREATED = differs("first sight", "marked there, not yet here: probed from its creation there")
REMOVED = differs("probe", "marked here, later there: the health of a removed node is remembered there")
RETURNED = differs("probe", "marked here, later there: a Ready that returns, or has no heartbeat, refreshes the probe there")
LEASE_SEEN = differs("no renew time", "marked here, later there: the Lease's being there counts there")
FORGOTTEN = differs("kept renew time", "marked here, a pass later there")


def taints_of(look):
    """The recorded taints, `key@second`, with seconds as they are in the document."""
    parts = (it.split("@") for it in look["taints"])
    return tuple((key, int(added) + LEADS) for key, added in parts)


def manifest(name, look, zone):
    heartbeat = None if look["heartbeat_s"] is None else stamp(look["heartbeat_s"] + LEADS)
    taints = [taint(key, added=stamp(added)) for key, added in taints_of(look)]
    return node(name, zone, look["ready"] or None, look["reason"], heartbeat, taints)


class Script:
    """A recorded case as events in beats of a second; beat LEADS is its time 0, and each fifth beat has a pass, here as there."""

    def __init__(self, operations):
        self.known, self.zone_of, self.events, self.looks = {}, {}, [], []
        self.did, self.did_by_beat = {}, {}
        for operation in operations:
            beat = LEADS + operation["at_us"] // 10**6
            self.remember(beat, operation)
            if operation["op"] in ("tick", "taint"):
                self.known.update({name: dict(it) for name, it in (operation.get("nodes") or {}).items()})
                if operation.get("panic"):
                    break
                nodes = {name: dict(it) for name, it in self.known.items()}
                self.looks.append(Look(beat, operation["op"], nodes, dict(self.zone_of)))
            else:
                self.change(beat, operation)

    def remember(self, beat, operation):
        word = operation["op"]
        if word == "ready" and operation.get("heartbeat_s") is None:
            word = "ready without heartbeat"
        if word == "lease" and operation.get("renew_us") is None:
            word = "lease without renew time"
        self.did.setdefault(operation.get("node"), set()).add(word)
        self.did_by_beat[beat] = {name: frozenset(words) for name, words in self.did.items()}

    def change(self, beat, operation):
        word, name = operation["op"], operation["node"]
        if word == "add":
            self.zone_of[name] = operation["zone"]
            self.known[name] = dict(NEVER_SEEN)
            self.events.append(put(beat, manifest(name, self.known[name], self.zone_of[name])))
        elif word == "remove":
            self.known.pop(name, None)
            self.events.append(removed_node(beat, name))
        elif word in ("ready", "noready") and name in self.known:
            status = operation.get("status", "") if word == "ready" else ""
            heartbeat = operation.get("heartbeat_s") if status else None
            self.known[name] = dict(self.known[name], ready=status, reason=REASONS.get(status, ""), heartbeat_s=heartbeat)
            self.events.append(put(beat, manifest(name, self.known[name], self.zone_of[name])))
        elif word == "lease":
            renewed = operation.get("renew_us")
            spec = {} if renewed is None else {"renewTime": micro_stamp(renewed + LEADS * 10**6)}
            self.events.append(put(beat, lease("kube-node-lease", name, **spec)))
        elif word == "nolease":
            self.events.append({"beat": beat, "type": "remove", "kind": "Lease", "namespace": "kube-node-lease", "name": name})


class Comparison:
    """Where what is stored differs after a look, upstream's node is put in its place, so that what comes later is judged by itself."""

    def __init__(self, case, program):
        self.script, self.program, self.verdicts = Script(case["ops"]), program, []
        self.settings = {"beatMillis": 1000, "gracePeriodMillis": case["grace_ms"], "startupGraceMillis": case["startup_ms"]}
        self.mended, self.early = [], {}
        looks = Counter(it.beat for it in self.script.looks)
        self.twice = {beat for beat, number in looks.items() if number > 1}

    def run(self):
        looks = self.script.looks
        stored = self.replayed() if looks else {}
        for at, look in enumerate(looks):
            if look.beat in self.twice and at + 1 < len(looks) and looks[at + 1].beat == look.beat:
                self.verdicts += [left("a second pass at the same instant")] * len(look.nodes)
                continue
            wrong = self.judge(look, *stored[look.beat])
            self.mended += [put(look.beat + 1, manifest(name, look.nodes[name], look.zone_of[name])) for name in wrong]
            if wrong:
                stored = self.replayed()
        return self.verdicts

    def replayed(self):
        end = self.script.looks[-1].beat
        events = [it for it in self.mended + self.script.events if it["beat"] <= end]
        events.sort(key=lambda it: it["beat"])
        made = document(dict(self.settings, endBeat=end), (), events)
        return by_beat(events, self.program.replay(made), end)

    def judge(self, look, nodes, zones):
        """Adds a verdict for each node, and returns the names of those to be mended."""
        has_other_mark = look.after == "tick" and any(nodes[name][0] != it["ready"] for name, it in look.nodes.items())
        wrong = []
        for name, it in look.nodes.items():
            here, there = nodes[name], (it["ready"], it["reason"], taints_of(it))
            if here == there:
                self.verdicts.append(EXACT)
            elif here[:2] == there[:2] and is_same_taint_soon(here[2], there[2]):
                self.verdicts.append(NEAR)
                wrong.append(name)
            elif here[:2] == there[:2] and here[2] and not there[2]:
                self.verdicts.append(self.tainted_early(name, look.beat, here[2][-1][1]))
            else:
                wrong.append(name)
                did = self.script.did_by_beat[look.beat].get(name, ())
                self.verdicts.append(self.why(here, there, did, has_other_mark, zones))
        return wrong

    def tainted_early(self, name, beat, added):
        """It stays: taken off, the node would have to wait for another token."""
        if beat - added <= 5:
            return NEAR
        if self.early.get(name) == added:
            return left("a taint that is early here, looked at again")
        self.early[name] = added
        return TOKENS_HERE

    def why(self, here, there, did, has_other_mark, zones):
        if has_other_mark and here[0] == there[0]:
            return BESIDE_A_MARK
        if zones.get("mode") == "on" and there[2]:
            return IN_THE_MODE
        return why_state(here, there, did)


def is_same_taint_soon(here, there):
    keys_are_same = [key for key, _ in here] == [key for key, _ in there]
    return keys_are_same and len(there) == 1 and abs(here[0][1] - there[0][1]) <= 5


def why_state(here, there, did):
    """`did` has what the script did to the node so far: by that alone it is told why a probe differs."""
    if here[0] != there[0]:
        if here[0] != "Unknown":
            return CREATED
        if "remove" in did:
            return REMOVED
        if "ready without heartbeat" in did or "noready" in did:
            return RETURNED
        if "lease without renew time" in did or "nolease" in did:
            return LEASE_SEEN
        return FORGOTTEN
    if [key for key, _ in here[2]] == [key for key, _ in there[2]]:
        return SAME_TAINT
    return SWAPPED_LATER if here[2] else TOKENS_THERE


def health(cases, program):
    judged = program.each(lambda case: Comparison(case, program).run(), cases)
    return [it for verdicts in judged for it in verdicts]


def health_by_rules(cases, program):
    """What differs in the taints alone is then another node of a queue: the order of those queued at one instant is a map's there."""
    return [ORDER if it in (SAME_TAINT, TOKENS_HERE, TOKENS_THERE) else it for it in health(cases, program)]
