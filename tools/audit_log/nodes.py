"""What is written on nodes and on their Leases, as lines of a trace."""
from .cluster import condition_taints, ready_of
from .entries import version_of
from .telling import answer

REASONS = ("NodeStatusUnknown", "NodeStatusNeverUpdated")


class Nodes:
    def __init__(self, identities, cluster, telling):
        self.identities, self.cluster, self.telling = identities, cluster, telling

    def take_lease(self, entry):
        if entry.namespace != "kube-node-lease" or not self.identities.is_kubelet(entry) or entry.verb == "delete":
            self.telling.leave_out("write of another Lease")
        elif entry.verb == "create":
            self.tell_kubelet_line(entry, f"create nodelease {entry.name} " + (f"v={entry.version}" if entry.is_ok() else "exists"))
        elif not entry.is_ok():
            self.tell_kubelet_line(entry, f"update nodelease {entry.name} " + ("conflict v=0" if entry.code == 409 else "absent"))

    def tell_kubelet_line(self, entry, text):
        self.telling.tell(entry, f"kubelet/{entry.name}_1", text)

    def take(self, entry, actor):
        """Whether what the zones are made from may have changed."""
        old = self.cluster.nodes.get(entry.name)
        answered = answer(entry, version_of(old))
        if answered is None:
            self.telling.leave_out(f"write of a node answered {entry.code}")
            return False
        if entry.verb == "delete":
            if entry.is_ok():
                self.cluster.nodes.pop(entry.name, None)
                self.telling.tell(entry, "script", f"remove node/{entry.name} {answered}")
            return False
        if actor:
            self.tell_controller(entry, actor, old, answered)
        elif self.identities.is_kubelet(entry):
            self.tell_kubelet(entry, answered)
        elif entry.is_ok():
            self.telling.tell(entry, "script", f"put node/{entry.name} {answered}")
        if entry.is_ok() and entry.response.get("kind") == "Node":
            self.cluster.nodes[entry.name] = entry.response
        return True

    def tell_kubelet(self, entry, answered):
        status = ready_of(entry.response if entry.is_ok() else entry.request).get("status")
        if entry.subresource == "status" and status in ("True", "False"):
            self.tell_kubelet_line(entry, f"status {entry.name} {status} " + (answered if entry.is_ok() else "absent"))
        elif entry.verb == "create" and entry.is_ok():
            self.telling.tell(entry, "script", f"put node/{entry.name} {answered}")

    def tell_controller(self, entry, actor, old, answered):
        if entry.verb in ("update", "patch") and entry.subresource == "status":
            ready = ready_of(entry.request)
            if ready.get("status") == "Unknown" and (not entry.is_ok() or ready_of(old).get("status") != "Unknown"):
                reason = ready.get("reason") if ready.get("reason") in REASONS else REASONS[0]
                self.telling.tell(entry, actor, f"unknown {entry.name} {reason} {answered}")
            else:
                self.telling.leave_out("status of a node, by a controller")
        elif entry.verb in ("update", "patch") and not entry.subresource:
            self.tell_taints(entry, actor, old, answered)
        else:
            self.telling.leave_out(f"{entry.verb} of a node, by a controller")

    def tell_taints(self, entry, actor, old, answered):
        """A taint is added, or stamped with another time, or all are taken off."""
        if not entry.is_ok():
            words = list(condition_taints(entry.request))
            self.telling.tell(entry, actor, f"taint {entry.name} {words[0]} {answered}" if words else f"untaint {entry.name} {answered}")
            return
        before, now = condition_taints(old), condition_taints(entry.response)
        added = [it for it in now if now[it] != before.get(it)]
        for word in added:
            is_swap = word not in before and bool(before)
            self.telling.tell(entry, actor, f"{'swap' if is_swap else 'taint'} {entry.name} {word} {answered}")
        if before and not now:
            self.telling.tell(entry, actor, f"untaint {entry.name} {answered}")
        elif not added:
            self.telling.leave_out("patch of a node without a line (NoSchedule taints, labels)")
