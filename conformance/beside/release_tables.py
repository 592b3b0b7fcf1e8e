"""The tables of docs/upstream.md on releases of the Lease: recorded runs, and electors on a real API server."""
from . import elections
from .acts import acts_beside, emptied, last_act
from .emptied_rounds import CALL_TIMEOUT, rounds_by_lease
from .fast_elections import SETTINGS
from .plane_tables import at
from .recorded import NEW, cases_of
from .releases import runs_by_settings
from .scenario_document import ScenarioDocument
from .tables import seconds, table

SETS = ("election_two_release", f"{NEW}election_two_release", f"{NEW}election_two_release_long")


def two_leaders(program):
    """Where `premise=yes` doesn't carry over, by set and settings."""
    rows = []
    for name in SETS:
        for it in runs_by_settings(cases_of(name), program, SETTINGS if name.startswith(NEW) else {}):
            both = [ms for ms in it.overlaps if ms > 0]
            carries = "" if it.premise == "no" else "**no**" if both else "yes"
            rows.append((f"`{name}`", f"{it.lease // 1000} s", f"{it.timeout // 1000} s", "on" if it.is_releasing else "off", f"`premise={it.premise}`",
                         f"{len(both)} of {len(it.overlaps)}", f"{seconds(max(both))} s" if both else "", carries))
    head = ("Set", "Lease", "Call timeout", "`ReleaseOnCancel`", "First line here", "Runs with two leaders there", "For at most", "`premise=yes` carries over")
    return table(head, rows)


def emptied_rounds(program):
    rows = []
    groups = [(name, *it) for name in ("election_emptied", f"{NEW}election_emptied") for it in rounds_by_lease(cases_of(name)).items()]
    for name, lease, found in groups:
        premise, both = elections.premise_of(lease, CALL_TIMEOUT, program, SETTINGS), [it["both_ms"] for it in found if it["both_ms"] > 0]
        rows.append((f"`{name}`", f"{lease // 1000} s", f"`premise={premise}`", len(found), sum(it["emptied_ms"] >= 0 for it in found), len(both),
                     f"{seconds(min(both))} to {seconds(max(both))} s" if both else ""))
    return table(("Set", "Lease", "First line here", "Rounds", "The next leader's Lease emptied", "Two led", "For"), rows)


def premise_of(scenario, program):
    return f"`premise={program.answer('check', ScenarioDocument(scenario, False).made()).rsplit('=', 1)[1]}`"


def acted(seconds, acts):
    return f"{seconds:.2f} s, {len(acts)} {'act' if len(acts) == 1 else 'acts'}"


def emptied_leases(scenario_of, names, program):
    """Each release by one that wasn't the holder any more, and what came of it. No such write is foretold."""
    rows = []
    for scenario in (scenario_of(name) for name in names if scenario_of(name).is_releasing()):
        for it in emptied(scenario):
            beside = "" if it.until is None else acted(it.until - it.leads, it.both)
            rows.append((scenario.name, premise_of(scenario, program), at(it.at), it.by, it.holder, f"{it.following} at {at(it.leads)}", beside))
    return table(("Scenario", "First line", "Emptied at", "By", "Whose Lease", "Who holds it next", "The one before acted beside it for"), rows)


def releasing(found, scenario_of, program):
    """Electors whose last calls were held or lost, and who release at their deadline: how long each acted."""
    rows = []
    for name, pairs in found.items():
        scenario = scenario_of(name)
        if not scenario.of("proxy") or not scenario.is_releasing():
            continue
        end = next(it for it in pairs if it.what == "end")
        leader, rival = f"kcm-{scenario.of('proxy')[0]['leader']}", scenario.takeover()
        leads = rival.ended - scenario.base
        beside = acts_beside(scenario, leader, leads)
        rows.append((name, premise_of(scenario, program), at(end.foretold), at(last_act(scenario, leader)), "" if scenario.late_ends() else at(end.observed),
                     at(leads), acted(beside[-1] - leads, beside) if beside else "no"))
    head = ("Scenario", "First line", "End of the term, foretold", "Last act", "Exit", "Rival leads (fitted)", "Acted beside it")
    return table(head, rows)
