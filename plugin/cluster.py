"""What of a cluster may be read for a command: its items, and sentences on what may not."""
from lists import LEASES, NODES, PODS, SYSTEM, Forbidden
from manager import Manager

WITHOUT = {
    NODES: 'no node is in the answer, and --controller NAME names the hosts of the control plane',
    PODS: 'no eviction is in the answer; -n NAME lists the pods of one namespace',
    LEASES: 'who leads at first is a guess',
}
NO_FLAGS = "the flags of kube-controller-manager can't be read in its pods"
NEEDS_NODES = ('kill-node', 'kill-zone')


class Cluster:
    """The items of a cluster, and the flags of its kube-controller-manager."""

    def __init__(self, lists, given):
        self.lists, self.given, self.told = lists, given, []
        nodes = self.listed(NODES)
        if given.command == 'margin':
            pods, leases = [], self.listed(LEASES, SYSTEM)
        else:
            pods, leases = self.listed(PODS, given.namespace), self.listed(LEASES)
        self.items = nodes + pods + leases
        self.manager = None if given.from_manifest else Manager(self.system_pods(pods), leases)

    def tell_manager(self):
        """What is told of the pods of kube-controller-manager, if they were looked at."""
        if not self.manager:
            return []
        nodes = [item for item in self.items if item['kind'] == NODES.kind]
        return self.manager.tell() + ([] if self.given.kubernetes else self.manager.tell_version(nodes))

    def listed(self, resource, namespace=None, without=None):
        """A list, or none and a sentence where it may not be read and there is an answer without it."""
        try:
            return self.lists.read(resource, namespace)
        except Forbidden as fault:
            if resource is NODES and self.given.command in NEEDS_NODES:
                raise Forbidden('%s; there is no %s without them' % (fault, self.given.command)) from fault
            self.told.append('%s. So %s' % (fault, without or WITHOUT[resource]))
            return []

    def system_pods(self, pods):
        """The pods of kube-system, which have kube-controller-manager: of the list where it has them, else of one of their own."""
        if self.given.command != 'margin' and self.given.namespace in (None, SYSTEM):
            return pods
        return self.listed(PODS, SYSTEM, NO_FLAGS)
