"""Scenarios of a real control plane by upstream's rules, in documents of version 4, beside the same by the own rules.

What a candidate of there drew is random, and how long each call took can't be foretold, so both are said as they were recorded; who leads and from
when on follows from them. A pod that is deleted already and hasn't gone is deleted again there, and here it is gone: its first delete alone is
compared."""
import json
import os
from collections import defaultdict

from . import plane
from .acts import emptied
from .alignment import aligned
from .causes import Rule, fits, is_over
from .held_looks import with_look
from .plane import Pair, by_key, ends, foretold, is_pod_of_wave
from .plane_tables import at, grouped_by
from .recorded import TOP
from .recorded_elections import user_of, with_elections
from .scenario_document import ScenarioDocument, with_late_reply
from .tables import table
from .upstream_rules import RELEASES_OF_0_36, RULES_OF_0_36, RULES_OF_1_20

NAMES = (*plane.NAMES, *plane.NEW_NAMES)
# Looks at nodes come some ms later each time there: 5.002 to 5.010 s after each other in these logs.
BETWEEN_LOOKS = {"monitorPeriodMillis": 5004}
NEAR_SECONDS, FAR_SECONDS = 0.5, 2
WAVES = ("n1", "n3")
# What was done in n5, with the waits of its candidates and the two stalls: an example.
EXAMPLES = {"n5": "store-stalls"}
WHY = [
    Rule("egz4", "lead", "any", ["emptied lease"]),
    Rule("er18_3", "lead", "there", ["emptied lease"]),
    Rule("er18_1 er18_3 er18b_2 er18l_1 er23_1", "end", "later", ["releasing"]),
    # The API server stood still for some seconds before.
    Rule("er18b_2", "lead", "any", ["store"]),
    Rule("er23_1", "lead", "later", ["store"]),
    Rule("d2", "(taint|evict) n2.*", "later", ["store"]),
    # The election's calls alone were held, which no document says.
    Rule("h", ".*", "any", ["messages"]),
    Rule("e e2", "(taint|evict).*", "any", ["order of names"], 360),
    Rule("n1", "evict n1-(none|slow)", "sooner", ["order of names"]),
    # A phase of the looks, which slide by another span each time.
    Rule("e", "unknown n3", "later", ["passes slide"]),
    Rule("f2", "(taint|untaint|evict).*", "any", ["passes slide"]),
    Rule("n7", "(unknown|taint) n1", "sooner", ["passes slide"]),
    Rule("d d4 e e2", "taint n[26]", "there", ["passes slide"]),
    Rule("c3", "taint", "here", ["one update"]),
    Rule("f", "evict n1-s120", "later", ["due time"]),
]


def document_of(scenario):
    releases = RELEASES_OF_0_36 if scenario.is_releasing() else {}
    rules = {**RULES_OF_0_36, **releases} if scenario.is_elector() else {**RULES_OF_1_20, **BETWEEN_LOOKS}
    if scenario.name in EXAMPLES:
        with open(os.path.join(os.path.dirname(TOP), "examples", EXAMPLES[scenario.name], "document.json"), encoding="utf-8") as file:
            made = json.load(file)
        return dict(made, settings={**made["settings"], **rules})
    made = ScenarioDocument(scenario, False, bool(releases)).made()
    return with_elections(dict(made, version=4, settings={**made["settings"], **rules}), scenario)


def by_rules(scenario, program):
    """The events that the document foretells, by the processes of the scenario."""
    made = document_of(scenario)
    trace = program.replay(made)
    if scenario.of("proxy"):
        made = with_late_reply(made, scenario, trace)
        trace = program.replay(with_look(made, scenario, program) if scenario.is_releasing() else made)
    millis = made["settings"]["beatMillis"]
    return [(beat * millis / 1000, actor if is_other(actor) else user_of(actor) + "_1", deed) for beat, actor, deed in trace]


def is_other(actor):
    return actor == "script" or actor.startswith("kubelet")


def kind_of(key):
    """Which of the pods that are due at once goes first is a map's order there, so pods of a wave count by what they tolerate."""
    if not (key.startswith("evict") and is_pod_of_wave(key)):
        return key
    node, _, tolerated = key.split()[1].split("-")
    return f"evict pods of {node} that tolerate {'nothing' if tolerated == 'none' else tolerated[1:] + ' s'}"


def by_kind(events):
    found = defaultdict(list)
    for key, seconds in by_key(events).items():
        found[kind_of(key)] += seconds
    return defaultdict(list, {kind: sorted(seconds) for kind, seconds in found.items()})


def first_deletes(events):
    """The events without deletes of a pod that is deleted already, and how many these are."""
    gone, first = set(), []
    for second, actor, deed in events:
        pod = deed[1] if deed[0] == "evict" and deed[-1].startswith("v=") else None
        if pod not in gone:
            first.append((second, actor, deed))
        if pod:
            gone.add(pod)
    return first, len(events) - len(first)


def rows_of_kind(there, here):
    """A wave is compared one by one in its order, all else as it fits best."""
    if len(there) == len(here):
        return list(zip(there, here))
    return aligned(there, here)


class Compared:
    """The events of a scenario, by kind, as they were observed and as they are foretold by both rules."""

    def __init__(self, scenario, program):
        self.name = scenario.name
        told = {"own": foretold(scenario, program), "upstream's": by_rules(scenario, program)}
        observed, self.again = first_deletes([(second, actor, text.split()) for second, actor, text in scenario.observed()])
        self.there = by_kind(observed)
        self.here = {rules: by_kind(events) for rules, events in told.items()}
        for rules, events in told.items():
            exits, self.here[rules]["end"] = ends(scenario, events)
            self.there["end"] = sorted(exits + [it.until for it in emptied(scenario) if it.until is not None])
        if not self.there["end"]:
            for found in self.here.values():
                found["end"] = []  # nobody waited for an exit

    def pairs(self, rules):
        kinds = {**self.there, **self.here[rules]}
        found = [Pair(kind, *both) for kind in kinds for both in rows_of_kind(self.there[kind], self.here[rules][kind])]
        return sorted(found, key=lambda it: it.foretold if it.observed is None else it.observed)

    def tally(self, rules):
        """How many events are within half a second, within two, and further off or on one side alone."""
        gaps = [gap_of(it) for it in self.pairs(rules)]
        near, far = (sum(it <= most for it in gaps) for most in (NEAR_SECONDS, FAR_SECONDS))
        return len(gaps), near, far - near, len(gaps) - far

    def rows(self):
        """Kinds of the scenario's own events: those that both rules foretell, in the order in which they were seen."""
        for kind, seen in sorted(self.there.items(), key=lambda it: it[1][:1]):
            told = [self.here[rules][kind] for rules in ("own", "upstream's")]
            if seen and all(told):
                yield self.name, kind, len(seen), *(it for each in (seen, *told) for it in (at(each[0]), at(each[-1]) if each[1:] else ""))


def gap_of(pair):
    return float("inf") if None in (pair.observed, pair.foretold) else abs(pair.observed - pair.foretold)


def causes_of(name, pair):
    """The rules of the profile by which an event differs under upstream's rules, none where no rule fits."""
    return next((rule.rows for rule in WHY if fits(rule, name, pair)), [])


def tallies(found):
    rows = [(it.name, *it.tally("own"), *it.tally("upstream's"), it.again) for it in found]
    for words, some in (("all", found), (f"all but {' and '.join(WAVES)}", [it for it in found if it.name not in WAVES])):
        own, upstream = ([sum(numbers) for numbers in zip(*(it.tally(rules) for it in some))] for rules in ("own", "upstream's"))
        rows.append((words, *own, *upstream, sum(it.again for it in some)))
    return table(("Scenario", "Events, own rules", "Within 0.5 s", "Within 2 s", "Over", "Events, upstream's", "Within 0.5 s", "Within 2 s", "Over",
                  "Deleted again there"), rows)


def differences(found):
    rows = []
    for it in found:
        over = [pair for pair in it.pairs("upstream's") if is_over(pair)]
        for words, pair, causes in grouped_by(over, lambda one, name=it.name: causes_of(name, one)):
            rows.append((it.name, words, at(pair.observed), at(pair.foretold), signed(pair), ", ".join(causes)))
    return table(("Scenario", "Event", "Observed", "Foretold", "Difference", "Rows of the profile"), rows)


def signed(pair):
    return "" if None in (pair.observed, pair.foretold) else f"{pair.observed - pair.foretold:+.2f}"


def faults(found, profile):
    for it in found:
        for pair in it.pairs("upstream's"):
            causes = causes_of(it.name, pair) if is_over(pair) else [None]
            if not causes or any(row and not profile.names_scenario(row, it.name) for row in causes):
                yield f"scenario {it.name}, by upstream's rules: no rule of docs/profile.md known by 'plane: {it.name}' for: {pair.what} ({', '.join(causes)})"


def told(found):
    """The sum of the events, and of those of a new leader."""
    count, near, far, over = (sum(numbers) for numbers in zip(*(it.tally("upstream's") for it in found)))
    leads = [gap_of(pair) for it in found for pair in it.pairs("upstream's") if pair.what.startswith("lead")]
    return f"{count} events, {near} within 0.5 s, {far} within 2, {over} over; {sum(it <= NEAR_SECONDS for it in leads)} of {len(leads)} leads within 0.5 s"


def compared(scenario_of, program):
    return list(program.each(lambda name: Compared(scenario_of(name), program), NAMES))


def tables(found):
    waves = [it for it in found if it.name in (*WAVES, "n5")]
    events = table(("Scenario", "Event", "Number", "First, observed", "Last", "First by own rules", "Last", "First by upstream's", "Last"),
                   [row for it in waves for row in it.rows()])
    return {"scenarios by rules": tallies(found), "events by rules": events, "scenario differences by rules": differences(found)}
