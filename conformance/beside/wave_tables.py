"""The tables of docs/upstream.md on many pods of one node, and on an API server that stands still."""
from .plane import is_pod_of_wave
from .plane_tables import at
from .tables import table

SCENARIOS = ("n1", "n3")
READY, DELETED = "pods set not ready", "pods deleted"


def waves(found, scenario_of):
    """How fast a controller manager sets the pods of a dead node not ready, and deletes them: one row for each of its processes."""
    rows = [row for name in SCENARIOS for row in (*nodes_rows(name, found[name]), *pods_rows(name, found[name], scenario_of(name)))]
    return table(("Scenario", "What", "Number", "First", "Last", "In a second", "First, foretold"), rows)


def nodes_rows(name, pairs):
    for what, key in (("n1 marked", "unknown n1"), ("n1 tainted", "taint n1")):
        pair = next(it for it in pairs if it.what == key)
        yield name, what, 1, at(pair.observed), "", "", at(pair.foretold)


def pods_rows(name, pairs, scenario):
    foretold = min(it.foretold for it in pairs if it.what.startswith("evict") and is_pod_of_wave(it.what))
    for user in sorted({it.user for it in scenario.log.entries if it.user.startswith("kcm-")}):
        for what, seconds, told in ((READY, ready_writes(scenario, user), ""), (DELETED, pod_deletes(scenario, user), at(foretold))):
            if seconds:
                yield name, f"{what} by {user}", len(seconds), at(seconds[0]), at(seconds[-1]), rate(seconds), told


def rate(seconds):
    return f"{(len(seconds) - 1) / (seconds[-1] - seconds[0]):.1f}"


def ready_writes(scenario, user):
    return [it.ended - scenario.base for it in scenario.log.entries
            if it.user == user and it.resource == "pods" and it.subresource == "status" and it.is_ok() and is_pod_of_wave(it.name)]


def pod_deletes(scenario, user):
    return [it.ended - scenario.base for it in scenario.log.entries
            if it.user == user and it.resource == "pods" and it.verb == "delete" and it.is_ok() and is_pod_of_wave(it.name)]


def server_stalls(found, ends):
    """`ends` are those of the leaders' terms as they are foretold."""
    rows = []
    leads = [it for it in found["n5"] if it.what.startswith("lead")][1:]
    for end, lead in zip(ends, leads):
        rows.append((at(end), lead.what.split()[1], at(lead.observed), at(lead.foretold), f"{lead.observed - end:.1f} s", f"{lead.foretold - end:.1f} s"))
    return table(("The leader ends, foretold", "Next leader", "Leads at", "Foretold", "Nobody led for", "Foretold"), rows)
