"""The recorded sets by upstream's rules: the same answers beside documents of version 4 that say these rules."""
from collections import namedtuple

from . import elections, emptied_rounds, ends, fitted_waits, health, releases, stories, tolerations
from .documents import document
from .elector import GridElector, TicksElector
from .fast_elections import SETTINGS
from .recorded import NEW, SETS, cases_of
from .tables import seconds, table
from .tally import Tally, row_of, unnamed
from .upstream_rules import RELEASES_OF_0_36, RELEASES_OF_1_20, RULES_OF_0_36, RULES_OF_1_20, RuledProgram

OTHER_ATTEMPT = unnamed("another instant of an attempt, by upstream's own rule")
# A set's own way to judge its cases, None for the same as by the own rules; keys that its documents have in place of those of the rules; and what
# else they have.
Set = namedtuple("Set", "judge keys said", defaults=(None, {}, ""))
AT_ONCE = {"firstSyncMillis": 0}  # caches were full at the lead
ALONE = {**AT_ONCE, "firstSight": "keep", "evictBurst": 0}  # each case was one call, with no looks at nodes
OWN, REREAD = (f"`release` `{it['release']}` and `inRelease` `{it['inRelease']}` where the Lease is released" for it in (RELEASES_OF_1_20, RELEASES_OF_0_36))


def two_release(cases, program):
    return releases.two_leaders_by_rules(cases, program, SETTINGS, RELEASES_OF_0_36)


OF_ITS_OWN = {
    "election_timeouts": Set(lambda cases, program: elections.instants(cases, program, GridElector, lambda case, number: OTHER_ATTEMPT)),
    "election_failover": Set(lambda cases, program: fitted_waits.election_failover(cases, program, {}), said="`waits` fitted"),
    "election_two_release": Set(lambda cases, program: releases.two_leaders_by_rules(cases, program, {}, RELEASES_OF_1_20), said=OWN),
    "election_emptied": Set(lambda cases, program: emptied_rounds.by_rules(cases, program, "own"), said="`release` `own`"),
    "election_ends": Set(lambda cases, program: ends.election_ends(cases, program, {}, RELEASES_OF_1_20), said=OWN),
    "tolerates": Set(keys=ALONE),
    "matching": Set(tolerations.matching_at_sight, ALONE),
    "zones": Set(keys=AT_ONCE),
    "rates": Set(keys=AT_ONCE),
    "queue": Set(keys={**AT_ONCE, "queue": "once", "firstSight": "keep"}),  # the queue was asked alone, with no looks at nodes
    "health": Set(health.health_by_rules, AT_ONCE),
    "runs": Set(stories.runs_by_rules, AT_ONCE, "`waits` [1000]"),
    f"{NEW}election_timeouts": Set(lambda cases, program: elections.instants(cases, program, TicksElector, lambda case, number: OTHER_ATTEMPT)),
    f"{NEW}election_failover": Set(lambda cases, program: fitted_waits.election_failover(cases, program, SETTINGS), said="`waits` fitted"),
    f"{NEW}election_two_release": Set(two_release, said=REREAD),
    f"{NEW}election_two_release_long": Set(two_release, said=REREAD),
    f"{NEW}election_emptied": Set(lambda cases, program: emptied_rounds.by_rules(cases, program, "reread"), said="`release` `reread`"),
    f"{NEW}election_ends": Set(lambda cases, program: ends.election_ends(cases, program, SETTINGS, RELEASES_OF_0_36), said=REREAD),
}
WAITS = {"runs": [1000]}  # by which the second leader leads when it did there


def rules_of(name):
    return RULES_OF_0_36 if name.startswith(NEW) else RULES_OF_1_20


def are_built(program):
    """Whether the program runs all these rules, or refuses one as of a version to come."""
    asked = (document({"endBeat": 0, **rules}, controllers=[{"name": "c", "waits": [1000]}], version=4) for rules in (RULES_OF_1_20, RULES_OF_0_36))
    return not any(program.answer("check", each).startswith(("refused 99 ", "refused 2 ")) for each in asked)


def tally(name, program):
    it = OF_ITS_OWN.get(name, Set())
    ruled = RuledProgram(program, {**rules_of(name), **it.keys}, WAITS.get(name))
    return Tally((it.judge or SETS[name][0])(cases_of(name), ruled)).as_json()


def shown(name):
    it = OF_ITS_OWN.get(name, Set())
    return ", ".join([*(f"`{key}` `{value}`" for key, value in it.keys.items()), *([it.said] if it.said else [])])


def counted(it):
    return it["exact"], it["near"], sum(it["differ"].values())


def both(own, upstream):
    """The table of both tallies, of sets that are in both and of which documents say something."""
    rows = [(f"`{name}`", *counted(own[name]), *counted(it), shown(name)) for name, it in upstream.items() if any(counted(it))]
    return table(("Set", "By own rules: exact", "Near", "Differ", "By upstream's: exact", "Near", "Differ", "In the documents besides"), [*rows, *sums(rows)])


def sums(rows):
    for words, is_new in (("all of 1.20.2", False), ("all of client-go 0.36.4", True)):
        some = [row for row in rows if row[0].startswith(f"`{NEW}") == is_new]
        yield words, *(sum(row[at] for row in some) for at in range(1, 7)), ""


def differences(upstream):
    rows = [(f"`{name}`", number, row_of(kind), kind.split(": ", 1)[1]) for name, it in upstream.items() for kind, number in it["differ"].items()]
    return table(("Set", "Cases", "Row of the profile", "What differs"), rows)


def evictions(program):
    """When pods of the recorded stories are evicted."""
    recorded, ruled, rows = cases_of("runs"), RuledProgram(program, {**RULES_OF_1_20, **AT_ONCE}, WAITS["runs"]), []
    for name in recorded:
        told = {what: here for what, here, _ in stories.matched(recorded[name], ruled, name)}
        for what, here, there in stories.matched(recorded[name], program, name):
            if what.startswith("evict"):
                rows.append((f"`{name}`", what.split()[1], *("" if it is None else f"{seconds(it)} s" for it in (here, told.get(what), there))))
    return table(("Story", "Pod", "By own rules", "By upstream's", "There"), rows)
