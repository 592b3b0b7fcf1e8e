"""The tables of docs/upstream.md on a real control plane."""
from statistics import median

from .causes import is_over, rows_of
from .plane import FITTED, foretold, pairs
from .scenario_document import ScenarioDocument
from .stalls import faults as faults_of_stall, foretold_of, stall_of
from .tables import table
from .verdicts import WAYS, verdict

WORDS = {
    "a": "a leader renews, while two more planes start", "a2": "a leader renews", "b": "five kills of the leader",
    "b2": "twelve kills, lease 6 s, renew deadline 4 s, retry period 1 s", "c": "the leader is stopped for 19 s and goes on",
    "c2": "for 45 s", "c3": "for 25 s", "c4": "for 20 s", "c6": "for 45 s, lease 23 s", "d": "two nodes die and come back",
    "d2": "Ready False, then silence, a late pod; the store stands still", "d3": "the same, and the store doesn't",
    "d4": "two nodes die, grace 42 s", "e": "zones go down and come back; the store stands still", "e2": "the same, and the store doesn't",
    "f": "the leader is killed 20 s after a taint", "f2": "the leader is killed at once after a taint", "g": "SIGTERM of the leader",
    "h": "one reply to the leader is 9.5 s late, then none", "h2": "the same, lease 23 s",
    "n1": "a node with 500 Ready pods dies, all due at once", "n3": "one with 200, tolerating 20, 40 and 60 s; the leader is killed 5 s after the taint",
    "n5": "the API server is stopped for 12 s, twice", "n7": "a kubelet renews for 20 s and is silent for 50 s, thrice",
    "ea2": "a leader renews", "eb": "eight kills of the leader", "ec4": "the leader is stopped for 22.5 s and goes on",
    "ec6r": "for 45.5 s, lease 23 s, `ReleaseOnCancel`", "ed": "two kills; leases of 15 s and of 30 s beside each other",
    "eg": "three SIGTERM of the leader, `ReleaseOnCancel`", "egz": "frozen till a rival leads, then SIGTERM, thrice; two electors, `ReleaseOnCancel`",
    "egz4": "the same six times, three electors", "eh": "one reply to the leader is 4.7 s late, then none", "eh10": "one is 9.5 s late, call timeout 10 s",
    "en6": "four kills; one clock is 30 s ahead", "ax": "a kill, a SIGTERM with `ReleaseOnCancel` and a freeze, on an API server of 0.36.4",
    "er18_1": "lease 18 s, `ReleaseOnCancel`, three electors: one reply is 4.7 s late, then calls are held until a rival leads", "er18_3": "the same",
    "er18b_2": "the same", "er18l_1": "the same, and no call comes through again", "er23_1": "as er18_1, lease 23 s",
}
OWN_END = 255  # the status of a process that lost its Lease
FEW = 5  # so many pods of a group are named


def at(second):
    return "" if second is None else f"{second:.2f}"


def scenarios(found):
    """`found` has the pairs of each scenario, None where no document says it."""
    rows = []
    for name, it in found.items():
        if it is None:
            rows.append((name, WORDS[name], "no document of versions 1 and 2 says it", "", ""))
        else:
            over = sum(map(is_over, it))
            rows.append((name, WORDS[name], len(it), len(it) - over, over))
    return table(("Scenario", "What was done", "Events compared", "Within 0.5 s", "Over 0.5 s, or on one side alone"), rows)


def differences(found):
    rows = []
    for name, it in found.items():
        for words, pair, causes in grouped_by([one for one in it or [] if is_over(one)], lambda one, name=name: rows_of(name, one)):
            both = None not in (pair.observed, pair.foretold)
            rows.append((name, words, at(pair.observed), at(pair.foretold), f"{pair.observed - pair.foretold:+.2f}" if both else "", ", ".join(causes)))
    return table(("Scenario", "Event", "Observed", "Foretold", "Difference", "Rows of the profile"), rows)


def grouped_by(over, causes_of):
    """Evictions of one node that are foretold for one instant, with the same causes, are one line, which has the first one's times."""
    groups = []
    for pair in over:
        key = key_of_group(pair, causes_of(pair))
        if groups and groups[-1][0] == key:
            groups[-1][1].append(pair)
        else:
            groups.append((key, [pair]))
    for _, group in groups:
        yield words_of(group), group[0], causes_of(group[0])


def words_of(group):
    if len(group) > FEW:
        return f"{group[0].what} and {len(group) - 1} more, the last at {group[-1].observed:.2f}"
    return group[0].what + "".join(", " + it.what.split()[1] for it in group[1:])


def key_of_group(pair, causes):
    if not pair.what.startswith("evict"):
        return object()
    return pair.what.split("-")[0], pair.observed is None, pair.foretold, *causes


def takeovers(pairs, scenario):
    """Each signal that ended a leader, with when the next led, there and here."""
    leads = [pair for pair in pairs if pair.what.startswith("lead")]
    for signal in ending_signals(scenario):
        there = next((pair.observed for pair in leads if pair.observed is not None and pair.observed > signal["at"]), None)
        here = next((pair.foretold for pair in leads if pair.foretold is not None and pair.foretold > signal["at"]), None)
        if None not in (there, here):
            yield signal, there, here


def kills(found, scenario_of):
    """How long nobody led after each signal that ended a leader."""
    rows = []
    for name, it in found.items():
        for signal, there, here in takeovers(it, scenario_of(name)) if it else []:
            rows.append((name, signal["sig"], gap(there, signal), "fitted" if name in FITTED else gap(here, signal)))
    return table(("Scenario", "Signal", "Nobody led, observed", "Foretold"), rows)


def late_reply(found, scenario_of, program):
    """Whether two act at once where one reply to a renewal comes late, and then none."""
    rows = []
    for name, it in found.items():
        if not scenario_of(name).of("proxy") or scenario_of(name).is_releasing():
            continue
        premise = program.answer("check", ScenarioDocument(scenario_of(name), False).made()).rsplit("=", 1)[1]
        end = next(pair for pair in it if pair.what == "end")
        lead = [pair for pair in it if pair.what.startswith("lead")][1]
        both = [f"{max(0, old - new):.2f} s" for old, new in ((end.observed, lead.observed), (end.foretold, lead.foretold))]
        rows.append((name, f"`premise={premise}`", at(end.observed), at(end.foretold), at(lead.observed), *both))
    head = ("Scenario", "First line", "Old leader ends, observed", "Foretold", "Rival leads (fitted)", "Both act, observed", "Foretold")
    return table(head, rows)


def gap(second, signal):
    return f"{second - signal['at']:.1f} s"


def ending_signals(scenario):
    """Those to processes that ran and hadn't ended by themselves."""
    exits = scenario.of("kcm-exit")
    return [signal for signal in scenario.signals("SIGKILL", "SIGTERM") if not is_frozen(scenario, signal)
            and next(it["rc"] for it in exits if it["who"] == signal["who"] and it["at"] >= signal["at"]) != OWN_END]


def is_frozen(scenario, signal):
    """Whether the process stood still when it was sent."""
    earlier = [it for it in scenario.signals("SIGSTOP", "SIGCONT") if it["who"] == signal["who"] and it["at"] < signal["at"]]
    return bool(earlier) and earlier[-1]["sig"] == "SIGSTOP"


def renewals(scenario_of, names, program):
    rows = []
    for name in names:
        scenario = scenario_of(name)
        leader = scenario.renewals()[0].user
        there = [it.ended for it in scenario.renewals() if it.user == leader and it.verb == "update"]
        asks = sorted(it.received for it in scenario.elections if it.user != leader and it.verb == "get")
        here = [second for second, actor, deed in foretold(scenario, program) if actor.startswith(leader) and deed[:2] == ["update", "election"]]
        rows.append((name, "between renewals", *map(spread, (gaps(there), gaps(here)))))
        rows.append((name, "between the rival's Gets", spread(gaps(asks)), "no line"))
    return table(("Scenario", "Seconds", "Observed", "Foretold"), rows)


def gaps(instants):
    return [after - before for before, after in zip(instants, instants[1:])]


def spread(found):
    return f"{min(found):.3f} to {max(found):.3f}, median {median(found):.3f}"


def stalls(stalled):
    """`stalled` has by scenario what the stopped leader did, and what is foretold of it."""
    rows = []
    for name, (there, here) in stalled.items():
        told = here if name in FITTED else here._replace(rival=None, exit=None, both=None)
        rows.append((name, f"{there.lease} s", f"{there.seconds:.0f} s", at(there.rival) or "never", at(there.woke),
                     later(there.first_write), later(told.first_write), at(there.exit) or "never", at(told.exit),
                     lasts(there.both), lasts(told.both), there.writes if there.both else ""))
    head = ("Scenario", "Lease", "Stopped for", "Rival leads at", "Goes on at", "First write", "Foretold", "Exits at", "Foretold",
            "Both acted for", "Foretold", "Its accepted writes of nodes and pods then")
    return table(head, rows)


def later(seconds):
    return "" if seconds is None else f"{seconds * 1000:.0f} ms later"


def lasts(seconds):
    return "" if seconds is None else f"{seconds:.2f} s"


def stalled(scenario_of, names, program):
    """Of each scenario in which a leader was stopped: what it did, and what its document foretells."""
    said = [name for name in names if is_one_stall(scenario_of(name)) and scenario_of(name).is_said()]
    traces = program.each(lambda name: foretold(scenario_of(name), program), said)
    return {name: (stall_of(scenario_of(name)), foretold_of(scenario_of(name), trace)) for name, trace in zip(said, traces)}


def is_one_stall(scenario):
    """Whether one stop is all that was done to processes."""
    return len(scenario.signals("SIGSTOP")) == 1 and not scenario.signals("SIGKILL", "SIGTERM")


def stall_faults(found):
    for name, pair in found.items():
        if name in FITTED:
            yield from faults_of_stall(name, *pair)


def verdicts(scenario_of, names, program):
    asked = [(name, way) for name in names for way in WAYS]
    told = dict(zip(asked, program.each(lambda it: verdict(scenario_of(it[0]), it[1], program), asked)))
    rows = [(name, *(told[name, way] for way in WAYS)) for name in names]
    return table(("Scenario", *(f"`--terms {it}`" for it in WAYS)), rows)


def faults(found, profile):
    """Differences that no row of the profile names with their scenario."""
    for name, it in found.items():
        for pair in it or []:
            causes = rows_of(name, pair) if is_over(pair) else [None]
            if not causes or any(row and not profile.names_scenario(row, name) for row in causes):
                yield f"scenario {name}: no rule of docs/profile.md known by 'plane: {name}' for: {pair.what} ({', '.join(causes)})"


def compared(scenario_of, names, program):
    said = [name for name in names if scenario_of(name).is_said()]
    found = dict(zip(said, program.each(lambda name: pairs(scenario_of(name), program), said)))
    return {name: found.get(name) for name in names}
