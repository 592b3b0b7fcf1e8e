"""The rate limited queue of nodes to taint: which node is taken, and when."""
from .documents import CALM, NOT_READY, WELL, document, node, put, removed_node, stamp, taint
from .program import is_accepted
from .tally import EXACT, differs, left, unnamed

BEFORE = 1300  # beats of 100 ms before the story: by then there is a token at each rate
FEW = [f"x{at:02}" for at in range(12)]
MANY = [f"y{at:02}" for at in range(12)]
ORDER = differs("order of names", "another order of nodes added at one instant")
RESTART = differs("bucket at first", "a change of rate restarts the bucket empty here, and there as drained or full")
IGNORED = differs("rate 0", "a change from rate 0 to 1 in a second is ignored there")


def queue(cases, program):
    return list(program.each(lambda case: sequence_verdict(case, program), cases))


def rate_of(operation):
    return round(operation.get("rate", 0) * 1000)


def beat_of(operation):
    return BEFORE + (operation["at_ms"] + 50) // 100


class Zone:
    """A rate is a state of the nodes' zone, made by its other nodes: all ready, or all but one tainted, and few or many."""

    def __init__(self, primary, secondary):
        self.primary, self.secondary = primary, secondary

    def others(self, rate):
        """The other nodes for that rate, and the names of those that are gone."""
        if rate == self.primary:
            return [node(it, ready="True") for it in FEW + MANY], []
        gone = [] if rate == self.secondary and rate else MANY
        tainted = [taint(NOT_READY, added=stamp(0))]
        stay = FEW if gone else FEW + MANY
        return [node(it, ready="False", taints=tainted) if it != FEW[0] else node(it, ready="True") for it in stay], gone


def sequence_verdict(case, program):
    swaps = [it for it in case["ops"] if it["op"] == "swap"]
    real = sorted({rate_of(case), *map(rate_of, swaps)} - {0}, reverse=True)
    if len(real) > 2:
        return left("more than two rates that aren't 0")
    trace = program.replay(story(case, Zone(real[0], real[1] if len(real) > 1 else 0)))
    here = [((beat - BEFORE) * 100, deed[1]) for beat, _, deed in trace if deed[0] == "taint" and is_accepted(deed)]
    there = [(it["at_ms"], it["node"]) for it in case["done"] or []]
    first = next((at for at in range(max(len(here), len(there))) if here[at:at + 1] != there[at:at + 1]), None)
    return EXACT if first is None else why(case, here[first:first + 1], there[first:first + 1])


def story(case, zone):
    """A node is added by becoming not ready, and leaves the queue by becoming ready."""
    now = rate_of(case)
    objects = [WELL] + [node(it, ready="True") for it in "abcdefgh"] + zone.others(now)[0]
    events = []
    for operation in case["ops"]:
        beat = beat_of(operation)
        if operation["op"] in ("add", "remove"):
            events.append(put(beat, node(operation["node"], ready="False" if operation["op"] == "add" else "True")))
        elif operation["op"] == "swap" and rate_of(operation) != now:
            now = rate_of(operation)
            stay, gone = zone.others(now)
            events += [put(beat, it) for it in stay] + [removed_node(beat, it) for it in gone]
    events.sort(key=lambda it: it["beat"])
    settings = dict(CALM, endBeat=beat_of(case["ops"][-1]), primaryRate=zone.primary, secondaryRate=zone.secondary, largeZone=24,
                    monitorPeriodMillis=100)
    return document(settings, objects, events)


def why(case, here, there):
    until = max(at for at, _ in here + there)
    rates = [rate_of(case)] + [rate_of(it) for it in case["ops"] if it["op"] == "swap" and it["at_ms"] <= until]
    changes = [(old, new) for old, new in zip(rates, rates[1:]) if old != new]
    if (0, 1000) in changes:
        return IGNORED
    if changes:
        return RESTART
    is_tie = bool(here and there) and here[0][0] == there[0][0]
    return ORDER if is_tie else unnamed("another time in the queue without a change of rate")
