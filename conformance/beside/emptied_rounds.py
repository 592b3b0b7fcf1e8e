"""Rounds in which a leader's release comes late and meets the Lease of the next one, beside what the first line says of the settings."""
from .elections import premise_of
from .fast_elections import SETTINGS
from .tally import EXACT, differs, unnamed
from .upstream_rules import NO_RELEASES

CALL_TIMEOUT = 5_000
EMPTIES = differs("emptied lease", "premise=yes here, and there the next leader's Lease is emptied, and a third one leads beside it")


def rounds_by_lease(cases):
    groups = {}
    for case in cases:
        groups.setdefault(case["lease_ms"], []).append(case)
    return groups


def election_emptied(cases, program):
    return [verdict_of(premise_of(lease, CALL_TIMEOUT, program, SETTINGS), found) for lease, found in rounds_by_lease(cases).items()]


def by_rules(cases, program, release):
    """A lease for which the first line says yes is long enough for every release to find the leader's own Lease."""
    keys = {**SETTINGS, **NO_RELEASES, "release": release}
    verdicts = {("yes", False): EXACT, ("no", True): EXACT}
    judged = ((premise_of(lease, CALL_TIMEOUT, program, keys), any(it["emptied_ms"] >= 0 for it in found)) for lease, found in rounds_by_lease(cases).items())
    return [verdicts.get(it, unnamed("a release that meets another's Lease and premise=yes, or none and premise=no")) for it in judged]


def verdict_of(premise, rounds):
    has_two = any(it["both_ms"] > 0 for it in rounds)
    if premise != "yes":
        return unnamed("settings without premise=yes")
    return EMPTIES if has_two else EXACT
