"""The tables of docs/upstream.md on releases by client-go's own rules: electors on a real API server beside what their documents foretell."""
from collections import namedtuple

from .acts import acts_beside, emptied, last_act
from .scenarios_by_rules import by_rules, document_of
from .tables import table

# Seconds: when the Lease of `holder` is emptied by another, who leads next and when, and until when the holder acts.
Foretold = namedtuple("Foretold", "at holder following leads until")


def is_election_write(deed):
    return deed[:2] == ["update", "election"] and deed[2].startswith("v=")


def foretold_emptied(events):
    """Each accepted update by one that doesn't lead, and doesn't come to lead by it."""
    found, holder = [], None
    leads = {(actor, deed[1]) for _, actor, deed in events if deed[0] == "lead"}
    for place, (second, actor, deed) in enumerate(events):
        if deed[0] == "lead":
            holder = actor
        elif is_election_write(deed) and holder not in (None, actor) and (actor, deed[2]) not in leads:
            found.append(foretold_of(second, holder, events[place + 1:]))
    return found


def foretold_of(second, holder, later):
    following, leads = next(((actor, at) for at, actor, deed in later if is_election_write(deed)), (holder, None))
    until = next((at for at, actor, deed in later if actor == holder and deed[0] == "end"), None)
    return Foretold(second, holder, following, leads, None if following == holder else until)


def taker_of(there, here):
    names = [who.removesuffix("_1") for who in (there.following, here.following)]
    return names[0] if names[0] == names[1] else ", ".join(names)


def in_seconds(*numbers):
    return ", ".join("" if it is None else f"{it:.2f}" for it in numbers)


def both_act(leads, until):
    return 0 if leads is None or until is None else until - leads


def emptied_leases(scenario_of, names, program):
    rows = []
    for scenario in (scenario_of(name) for name in names if scenario_of(name).is_releasing()):
        for there, here in zip(emptied(scenario), foretold_emptied(by_rules(scenario, program))):
            rows.append((scenario.name, in_seconds(there.at, here.at), in_seconds(there.leads, here.leads), taker_of(there, here),
                         in_seconds(there.until, here.until),
                         in_seconds(both_act(there.leads, there.until), both_act(here.leads, here.until))))
    return table(("Scenario", "A rival's Lease is emptied: seen, foretold", "It is taken", "By", "Whose Lease it was acts until", "Both act for"), rows)


def acting_on(scenario_of, names, program):
    """Electors whose calls were held at their deadline: how long each acts in its release."""
    rows = []
    for scenario in (scenario_of(name) for name in names if scenario_of(name).of("proxy") and scenario_of(name).is_releasing()):
        leader, rival = f"kcm-{scenario.of('proxy')[0]['leader']}", scenario.takeover()
        events, leads = by_rules(scenario, program), rival.ended - scenario.base
        end, rises = (next((at for at, actor, deed in events if actor.startswith(f"{who}_") and deed[0] == what), None)
                      for who, what in ((leader, "end"), (rival.user, "lead")))
        acts = acts_beside(scenario, leader, leads)
        seen = acts[-1] - leads if acts else 0
        rows.append((scenario.name, f"`premise={premise_of(scenario, program)}`", in_seconds(last_act(scenario, leader)), in_seconds(end),
                     in_seconds(leads, rises), in_seconds(seen, max(0, both_act(rises, end)))))
    return table(("Scenario", "First line", "Last act, seen", "Acts until, foretold", "The next one leads: seen, foretold", "Both act for"), rows)


def premise_of(scenario, program):
    return program.answer("check", document_of(scenario)).rsplit("=", 1)[1]


def tables(scenario_of, names, program):
    return {"emptied leases by rules": emptied_leases(scenario_of, names, program), "releasing by rules": acting_on(scenario_of, names, program)}
