"""What an entry is to the tool: a write of the election Lease, a kubelet's request, a controller's act."""
import functools
import re

WRITES = ("create", "update", "patch", "delete", "deletecollection")


@functools.lru_cache(maxsize=4096)
def matches(pattern, text):
    return bool(re.search(pattern, text))


class Roles:
    def __init__(self, options):
        self.options = options

    def is_election(self, entry):
        return entry.resource == "leases" and f"{entry.namespace}/{entry.name}" == self.options.lease

    def is_election_write(self, entry):
        return self.is_election(entry) and entry.verb in ("create", "update", "patch")

    def holder_of(self, entry):
        """Whom a write of the election Lease names as its holder, empty where it names nobody; None for whatever can't be read."""
        spec = entry.lease_spec() if self.is_election_write(entry) else None
        return None if spec is None else spec.get("holderIdentity") or ""

    def is_kubelet(self, entry):
        return matches(self.options.kubelets, entry.user)

    def is_controller(self, entry):
        return matches(self.options.controllers, entry.agent) and not self.is_kubelet(entry)

    def is_node_controller(self, entry):
        """Whether it is the part of a controller manager that taints and evicts: others delete pods too, as a ReplicaSet's does."""
        return self.is_controller(entry) and matches(self.options.evictors, entry.agent)

    def is_act(self, entry):
        """A leader's doing, whether or not a trace has a line for it, and whether or not the store took it."""
        is_answered = entry.is_ok() or entry.code in (404, 409)
        return is_answered and entry.resource in ("nodes", "pods") and entry.verb in WRITES and self.is_controller(entry)
