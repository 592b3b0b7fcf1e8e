"""Leader election: accepted settings, instants of attempts and ends, failovers, two leaders at once. `more` are settings of a document for
a newer client-go."""
from .documents import LEADS, document
from .elector import Elector
from .tally import EXACT, differs, left, unnamed

DAY_SECONDS = 86_400
LATER_ATTEMPT = differs("retry grid", "another instant of the third attempt after a failure, or of a later one")
MORE_ATTEMPTS = differs("retry grid", "one attempt more or less before the deadline")
OTHER_END = differs("retry grid", "another end, after attempts on the grid")
CUT = left("an end: what was recorded stops before it, with its last plan")
LONGER = differs("jitter", "longer without a leader than the longest here")
SHORTER = differs("jitter", "shorter without a leader than the shortest here")


def election_config(cases, program):
    return [it for verdicts in program.each(lambda case: config_verdicts(case, program), cases) for it in verdicts]


def config_verdicts(case, program):
    """As the document's settings, and as a controller's own timings."""
    timings = {"leaseDurationSeconds": case["lease_seconds"], "renewDeadlineMillis": case["renew_ms"], "retryPeriodMillis": case["retry_ms"]}
    if case["lease_seconds"] > DAY_SECONDS or max(case["renew_ms"], case["retry_ms"]) > DAY_SECONDS * 1000:
        return [left("longer than a day")] * 2
    own = document({"endBeat": 0}, controllers=[dict(timings, name="c")], version=2)
    answers = ((program.answer("check", document(dict(timings, endBeat=0))), "/settings"), (program.answer("check", own), "/controllers/0"))
    same = (answer.startswith("ok ") if case["ok"] else answer == f"refused 7 {place}" for answer, place in answers)
    return [EXACT if it else unnamed("accepted here and not there, or the reverse") for it in same]


def election_timeouts(cases, program):
    return instants(cases, program, Elector, lambda case, number: LATER_ATTEMPT)


def instants(cases, program, elector_of, why_later):
    """`why_later` tells the verdict on the attempt of that number, where it is the first that starts at another instant."""
    judged = program.each(lambda case: instants_verdicts(case, program, elector_of(case), why_later), cases)
    return [it for verdicts in judged for it in verdicts]


def instants_verdicts(case, program, elector, why_later):
    """The start of each attempt up to the first that differs, and the end; in ms from the lead on."""
    if not elector.is_as_foreseen(program.replay(elector.document())):
        return [unnamed("the trace isn't as foreseen")]
    lead = case["lead_us"] // 1000
    there_stop = -1 if case["stop_us"] < 0 else case["stop_us"] // 1000 - lead
    here_stop = elector.stop if elector.stop < 0 else elector.stop - LEADS
    here = [it - LEADS for it in elector.starts]
    # An attempt at the deadline itself is a race upstream.
    there = [it for it in (call["at_us"] // 1000 - lead for call in case["calls"]) if it != there_stop]
    equal = next((at for at, (a, b) in enumerate(zip(here, there)) if a != b), min(len(here), len(there)))
    verdicts = [EXACT] * equal
    is_same = len(here) == len(there) == equal
    if equal < min(len(here), len(there)):
        verdicts.append(why_later(case, equal))
    elif not is_same:
        verdicts.append(MORE_ATTEMPTS)
    if here_stop == there_stop:
        return verdicts + [EXACT]
    if is_same and there_stop < 0 and len(elector.starts) == len(case["plans"]):
        return verdicts + [CUT]
    return verdicts + [unnamed("another end") if is_same else OTHER_END]


class Crash:
    """The documents of a recorded crash of `a`, whose rivals start when it leads, without waits or with them."""

    def __init__(self, case, more):
        self.case, self.more, self.beat = case, more, min(case["one_way_ms"], 1000)
        self.crash = LEADS + case["crash_ms"] // self.beat
        self.names = ["abc"[at] for at in range(case["candidates"] + 1)]

    def document(self, waits=None):
        lease = self.case["lease_ms"]
        settings = {"beatMillis": self.beat, "endBeat": self.crash + (lease + 20_000) // self.beat, "leaseDurationSeconds": lease // 1000}
        events = [{"beat": LEADS, "type": "start", "process": it} for it in self.names[1:]]
        events.append({"beat": self.crash, "type": "crash", "process": "a"})
        if waits is None:
            return document({**settings, **self.more}, (), events, [{"name": it, "up": it == "a"} for it in self.names])
        controllers = [{"name": it, "up": it == "a", "waits": waits} for it in self.names]
        return document({**settings, **self.more}, (), events, controllers, version=4)

    def gap(self, trace):
        """For how many ms nobody leads."""
        return ([at for at, _, deed in trace if deed[0] == "lead"][1] - self.crash) * self.beat


def gap_here(case, program, more):
    crash = Crash(case, more)
    return crash.gap(program.replay(crash.document()))


def failovers(cases, program, more):
    """Gaps here and there, in ms, by lease, beat and number of rivals."""
    groups = {}
    for case, here in zip(cases, program.each(lambda it: gap_here(it, program, more), cases)):
        key = case["lease_ms"], min(case["one_way_ms"], 1000), case["candidates"]
        groups.setdefault(key, []).append((here, case["gap_ms"]))
    return groups


def election_failover(cases, program, more=()):
    """Rivals have jitter there, so a gap is compared with the span of those here."""
    verdicts = []
    for gaps in failovers(cases, program, dict(more)).values():
        low, high = min(it for it, _ in gaps), max(it for it, _ in gaps)
        verdicts += [LONGER if it > high else SHORTER if it < low else EXACT for _, it in gaps]
    return verdicts


def premise_of(lease_ms, timeout_ms, program, more=()):
    """What the first line says of a lease and a call timeout."""
    settings = {"endBeat": 0, "leaseDurationSeconds": lease_ms // 1000, "callTimeoutMillis": timeout_ms, **dict(more)}
    return program.answer("check", document(settings)).rsplit("=", 1)[1]


def overlaps(cases, program, more=()):
    """What the first line says of each setting, beside for how many ms two led at once in each run there."""
    groups = {}
    for case in cases:
        groups.setdefault((case["lease_ms"], case["timeout_ms"]), []).append(case["overlap_ms"])
    return {key: (premise_of(*key, program, more), runs) for key, runs in groups.items()}


def election_two_leaders(cases, program, more=()):
    same = ((premise == "yes") == (max(runs) <= 0) for premise, runs in overlaps(cases, program, more).values())
    wrong = unnamed("two leaders and the premise holds, or none and it doesn't")
    return [EXACT if it else wrong for it in same]
