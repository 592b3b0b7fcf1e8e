"""The recorded answers, set by set. Sets of client-go 0.36.4 stand in a folder of that name; the others are of Kubernetes 1.20.2."""
import gzip
import json
import os

from . import elections, emptied_rounds, ends, evictions, fast_elections, foreign_lease, health, kubelet_lease, queue, releases, stories, tolerations, zones
from .tally import Tally

TOP = os.path.dirname(os.path.dirname(os.path.abspath(__file__)))
NEW = "0.36/"
# By set: what makes verdicts of its cases, and what one verdict is on.
SETS = {
    "election_config": (elections.election_config, "settings, as a document's and as a controller's own"),
    "election_timeouts": (elections.election_timeouts, "instants of electors: attempts and ends"),
    "election_failover": (elections.election_failover, "times without a leader after a crash"),
    "election_two_leaders": (elections.election_two_leaders, "settings, whether two ever lead at once"),
    "election_two_release": (releases.two_leaders, "settings, whether two ever lead at once, with `ReleaseOnCancel` and without"),
    "election_emptied": (emptied_rounds.election_emptied, "settings, whether a release meets the next leader's Lease"),
    "election_ends": (ends.election_ends, "ends of terms, and releases"),
    "kubelet_lease": (kubelet_lease.kubelet_lease, "waits of a kubelet between two renewals"),
    "tolerates": (tolerations.tolerates, "pairs of a toleration and a taint"),
    "matching": (tolerations.matching, "due times of pods"),
    "zones": (zones.zones, "states of zones"),
    "rates": (zones.rates, "rates of zones"),
    "taint_manager": (evictions.taint_manager, "pods on a node whose taints change"),
    "taint_more": (evictions.taint_more, "pods that come late, nodes that go"),
    "queue": (queue.queue, "sequences of the queue of nodes to taint"),
    "health": (health.health, "looks at a node"),
    "runs": (stories.runs, "events of four stories"),
    f"{NEW}election_config": (elections.election_config, "settings, as a document's and as a controller's own"),
    f"{NEW}election_steps": (foreign_lease.election_steps, "attempts on a Lease that another wrote"),
    f"{NEW}election_timeouts": (fast_elections.election_timeouts, "instants of electors: attempts and ends"),
    f"{NEW}election_failover": (fast_elections.election_failover, "times without a leader after a crash"),
    f"{NEW}election_two_leaders": (fast_elections.election_two_leaders, "settings, whether two ever lead at once"),
    f"{NEW}election_two_release": (fast_elections.two_release, "settings, whether two ever lead at once, with `ReleaseOnCancel` and without"),
    f"{NEW}election_two_release_long": (fast_elections.two_release, "the same, with longer leases"),
    f"{NEW}election_ends": (fast_elections.election_ends, "ends of terms, and releases"),
    f"{NEW}election_emptied": (emptied_rounds.election_emptied, "settings, whether a release meets the next leader's Lease"),
    f"{NEW}election_coordinated": (fast_elections.election_coordinated, "runs of coordinated election"),
    f"{NEW}kubelet_lease": (kubelet_lease.kubelet_lease, "waits of a kubelet between two renewals"),
    f"{NEW}tolerates": (tolerations.tolerates, "pairs of a toleration and a taint"),
    f"{NEW}matching": (tolerations.all_tolerated, "pods, whether all taints are tolerated"),
    f"{NEW}lt_gt": (tolerations.comparisons, "tolerations that compare numbers"),
}


def cases_of(name):
    with gzip.open(f"{TOP}/answers/{name}.json.gz") as file:
        return json.load(file)


def tally_of(name, program):
    return Tally(SETS[name][0](cases_of(name), program))
