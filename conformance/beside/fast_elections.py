"""Leader election as client-go 0.36 has it: a leader that renews without a Get, in documents with `fastRenew`."""
from . import elections, ends, releases
from .elector import FastElector
from .tally import differs, left

SETTINGS = {"fastRenew": True}
AT_ONCE = differs("retry grid", "after an attempt longer than a retry period the next one comes at once there")
ON_GRID = differs("retry grid", "the next attempt stands on the grid of the renewal's beginning there")
COORDINATED = left("coordinated election")


def election_timeouts(cases, program):
    return elections.instants(cases, program, FastElector, why_later)


def why_later(case, number):
    calls = case["calls"][number - 1]["made"]
    return AT_ONCE if calls[-1]["end_us"] - calls[0]["at_us"] > case["RetryMs"] * 1000 else ON_GRID


def election_failover(cases, program):
    return elections.election_failover(cases, program, SETTINGS)


def election_two_leaders(cases, program):
    return elections.election_two_leaders(cases, program, SETTINGS)


def election_coordinated(cases, program):
    return [COORDINATED] * len(cases)


def two_release(cases, program):
    return releases.two_leaders(cases, program, SETTINGS)


def election_ends(cases, program):
    return ends.election_ends(cases, program, SETTINGS)
