"""The events of a real control plane beside those that its document foretells."""
from collections import defaultdict, namedtuple

from .acts import last_act
from .alignment import aligned
from .program import is_accepted
from .scenario_document import ScenarioDocument, with_late_reply
from .scenarios import Scenario

# Seconds; None where an event is on one side alone.
Pair = namedtuple("Pair", "what observed foretold")
# In these the rival's attempts are fitted to its real takeover, so that what follows it can be compared.
FITTED = ("c2", "c3", "c4", "c6", "d2", "e", "f", "f2", "h", "h2", "n3", "ec4", "ec6r", "eh", "eh10",
          "er18_1", "er18_3", "er18b_2", "er18l_1", "er23_1")
NAMES = ("a", "a2", "b", "b2", "c", "c2", "c3", "c4", "c6", "d", "d2", "d3", "d4", "e", "e2", "f", "f2", "g", "h", "h2", "n1", "n3", "n5", "n7")
# Of client-go 0.36.4.
NEW_NAMES = ("ea2", "eb", "ec4", "ec6r", "ed", "eg", "egz", "egz4", "eh", "eh10", "en6", "er18_1", "er18_3", "er18b_2", "er18l_1", "er23_1", "ax")
LOOKED_LATE = ("n5",)  # the driver looked for exits some seconds after them


def is_pod_of_wave(name):
    """Whether it is one of the many pods that were put on a node beside the few that each has."""
    return "-m" in name


def key_of(actor, deed):
    """What an event is matched by, None where it isn't compared."""
    if actor.startswith("kubelet") or actor == "script":
        return None
    if deed[0] == "lead":
        return f"lead {actor.rsplit('_', 1)[0]}"
    if deed[0] in ("unknown", "untaint") and is_accepted(deed):
        return f"{deed[0]} {deed[1]}"
    if deed[0] in ("taint", "swap") and is_accepted(deed):
        return f"taint {deed[1]}"
    return f"evict {deed[1].split('/')[1]}" if deed[0] == "evict" and is_accepted(deed) else None


def foretold(scenario, program):
    made = ScenarioDocument(scenario, scenario.name in FITTED).made()
    trace = program.replay(made)
    if scenario.of("proxy"):
        trace = program.replay(with_late_reply(made, scenario, trace))
    millis = scenario.settings["beatMillis"]
    return [(beat * millis / 1000, actor, deed) for beat, actor, deed in trace]


def foretold_ends(name, program):
    """The seconds at which terms end by themselves."""
    return [second for second, actor, deed in foretold(Scenario(name), program) if deed[0] == "end" and not actor.startswith("kubelet")]


def by_key(events):
    found = defaultdict(list)
    for second, actor, deed in events:
        if key_of(actor, deed):
            found[key_of(actor, deed)].append(second)
    return found


def ends(scenario, events):
    """When leaders ended by themselves: there the process exits before anybody kills it, or acts for the last time where nobody looked at
    that, and here it has the line `end`."""
    killed = [(it["who"], it["at"]) for it in scenario.signals("SIGKILL", "SIGTERM")]
    late = scenario.late_ends()
    own = [it for it in scenario.of("kcm-exit") if it["rc"] == 255 and not any(it["who"] == who and at <= it["at"] for who, at in killed)]
    exits = [last_act(scenario, f"kcm-{it['who']}") if it in late else it["at"] for it in own if scenario.name not in LOOKED_LATE]
    return exits, [second for second, actor, deed in events if deed[0] == "end" and not actor.startswith("kubelet")]


def pairs(scenario, program):
    events = foretold(scenario, program)
    there = by_key((second, actor, text.split()) for second, actor, text in scenario.observed())
    here = by_key(events)
    there["end"], here["end"] = ends(scenario, events)
    if not there["end"]:
        here["end"] = []  # nobody waited for an exit
    found = [Pair(key, *both) for key in {**there, **here} for both in aligned(there[key], here[key])]
    return sorted(found, key=lambda it: it.foretold if it.observed is None else it.observed)


def compared(name, program):
    return pairs(Scenario(name), program)
