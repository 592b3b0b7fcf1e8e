"""Two leaders where a leader releases its Lease at the end of its term (`ReleaseOnCancel`), beside what the first line says of the settings."""
from collections import namedtuple

from .elections import premise_of
from .tally import EXACT, differs, left, unnamed

ACTS_ON = differs("release", "premise=yes here, and with ReleaseOnCancel two leaders there")
NO_PROMISE = left("`premise=no`, which says of no run that it has two leaders, and none had")
# `overlaps` are ms for which two led at once in each run, by whether a leader releases.
Runs = namedtuple("Runs", "lease timeout is_releasing premise overlaps")


def runs_by_settings(cases, program, more=(), releases=()):
    """`releases` are the keys of a document that say how a leader releases its Lease."""
    groups = {}
    for case in cases:
        groups.setdefault((case["lease_ms"], case["timeout_ms"], case["release_on_cancel"]), []).append(case["overlap_ms"])
    return [Runs(lease, timeout, is_releasing, premise_of(lease, timeout, program, {**dict(more), **(releases if is_releasing and releases else {})}), found)
            for (lease, timeout, is_releasing), found in sorted(groups.items())]


def verdict_of(runs):
    has_two = max(runs.overlaps) > 0
    if (runs.premise == "yes") != has_two:
        return EXACT
    return ACTS_ON if runs.is_releasing and has_two else unnamed("two leaders and the premise holds, or none and it doesn't")


def two_leaders(cases, program, more=()):
    return [verdict_of(it) for it in runs_by_settings(cases, program, more)]


def two_leaders_by_rules(cases, program, more, releases):
    """Where the first line says yes, no run may have two."""
    verdicts = {("yes", False): EXACT, ("no", True): EXACT, ("no", False): NO_PROMISE, ("yes", True): unnamed("premise=yes, and two leaders there")}
    return [verdicts[it.premise, max(it.overlaps) > 0] for it in runs_by_settings(cases, program, more, releases)]
