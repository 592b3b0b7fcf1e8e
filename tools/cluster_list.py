"""What a list that kubectl wrote tells of a cluster."""
from cluster_told import counted, few
from cluster_sets import sets_of

NODE_LEASES = 'kube-node-lease'
ELECTION = ('kube-system', 'kube-controller-manager')
CONTROL_PLANE = ('node-role.kubernetes.io/control-plane', 'node-role.kubernetes.io/master')
CONDITION_TAINTS = ('node.kubernetes.io/not-ready', 'node.kubernetes.io/unreachable')
COMPARE = ('Lt', 'Gt')
ZONE, REGION = 'topology.kubernetes.io/zone', 'topology.kubernetes.io/region'


def part(item, *keys):
    for key in keys:
        item = (item or {}).get(key)
    return item


def only(item, *keys):
    return {key: item[key] for key in keys if (item or {}).get(key) is not None}


def ready_of(node):
    return next((each for each in part(node, 'status', 'conditions') or [] if each.get('type') == 'Ready'), None)


def is_lease(item, namespace=None):
    return item.get('kind') == 'Lease' and namespace in (None, part(item, 'metadata', 'namespace'))


def is_election(item):
    return is_lease(item) and (part(item, 'metadata', 'namespace'), part(item, 'metadata', 'name')) == ELECTION


class Found:
    """Nodes with their zones and versions, the hosts of the control plane, the holder of the election Lease, kubelets, and what is kept of the list."""

    def __init__(self, items):
        self.items = items
        self.nodes = [item for item in items if item.get('kind') == 'Node']
        self.zones = {node['metadata']['name']: zones_of(node) for node in self.nodes}
        self.versions = [part(node, 'status', 'nodeInfo', 'kubeletVersion') for node in self.nodes]
        election = next((item for item in items if is_election(item)), None)
        self.holder, self.election_lease = part(election, 'spec', 'holderIdentity'), part(election, 'spec', 'leaseDurationSeconds') or 0
        self.control_plane = [node['metadata']['name'] for node in self.nodes if is_control_plane(node)]
        durations = {part(item, 'spec', 'leaseDurationSeconds') for item in items if is_lease(item, NODE_LEASES)} - {None}
        self.node_lease = durations.pop() if len(durations) == 1 else None

    def kubelets(self, offsets):
        """A kubelet for each node; of some the clock is so many milliseconds ahead."""
        kubelets = [kubelet_of(node) for node in self.nodes]
        return [{**each, 'offsetMillis': offsets[each['node']]} if each['node'] in offsets else each for each in kubelets]

    def tainted(self):
        """The nodes that have one of the taints by which a silent node's pods are evicted."""
        return [node['metadata']['name'] for node in self.nodes
                if any(taint.get('key') in CONDITION_TAINTS and taint.get('effect') == 'NoExecute' for taint in part(node, 'spec', 'taints') or [])]

    def pods(self):
        return [item for item in self.items if item.get('kind') == 'Pod']

    def counts(self):
        """How many Nodes, Pods and Leases a document of the list has."""
        leases = [item for item in self.items if is_lease(item, NODE_LEASES) or is_election(item)]
        return {'Node': len(self.nodes), 'Pod': len(self.pods()), 'Lease': len(leases)}

    def pod_sets(self):
        """The sets of pods, and the pods that are in none, with the fields that are read."""
        return sets_of((kept_pod(pod), owner_of(pod)) for pod in self.pods())

    def kept(self, holder, has_pods):
        """The Nodes, Pods, Leases of nodes and the election Lease, with the fields that are read, or all but the Pods. The present leader, a
        controller, leads on."""
        out = []
        for item in self.items:
            if item.get('kind') == 'Node':
                out.append(kept_node(item))
            elif item.get('kind') == 'Pod':
                out += [kept_pod(item)] * has_pods
            elif is_lease(item, NODE_LEASES):
                out.append(kept_lease(item))
            elif is_election(item):
                out.append(kept_lease(item))
                if holder:
                    out[-1]['spec']['holderIdentity'] = holder + '_1'
        return out

    def tell(self, told):
        silent = [kubelet['node'] for kubelet in self.kubelets({}) if kubelet.get('up') is False]
        why = 'down where Ready is Unknown%s' % (': ' + few(silent) if silent else '')
        told.row('kubelets', '%d, of these %d down' % (len(self.nodes), len(silent)), why, 'list')
        left = [len(left_out(pod)) for pod in self.pods() if left_out(pod)]
        if left:
            told.row('tolerations left out', sum(left), 'operators Lt and Gt are not in a document', 'list')
            told.say('%s of %s left out: the operator is Lt or Gt, which a document does not have, so such a pod is judged without it' % (
                counted(sum(left), 'toleration'), counted(len(left), 'pod')))


def is_control_plane(node):
    return any(label in (part(node, 'metadata', 'labels') or {}) for label in CONTROL_PLANE)


def zones_of(node):
    """The names by which a node's zone is found: the zone, and region and zone."""
    labels = part(node, 'metadata', 'labels') or {}
    return labels.get(ZONE, ''), labels.get(REGION, '') + '/' + labels.get(ZONE, '')


def kubelet_of(node):
    """A kubelet is up where its node is Ready or says that it isn't, and down where nothing is heard of it."""
    status = part(ready_of(node), 'status')
    more = {'up': False} if status == 'Unknown' else {'ready': 'False'} if status == 'False' else {}
    return {'node': node['metadata']['name'], **more}


def kept_node(item):
    ready = ready_of(item)
    labels = only(part(item, 'metadata', 'labels') or {}, REGION, ZONE)
    taints = [only(taint, 'key', 'value', 'effect', 'timeAdded') for taint in part(item, 'spec', 'taints') or []]
    conditions = [only(ready, 'type', 'status', 'reason', 'lastHeartbeatTime', 'lastTransitionTime')] if ready else []
    return {'apiVersion': 'v1', 'kind': 'Node', 'metadata': {'name': item['metadata']['name'], 'labels': labels},
            'spec': {'taints': taints}, 'status': {'conditions': conditions}}


def owner_of(pod):
    """Kind and name of the controller that owns a pod, or nothing."""
    owner = next(iter(part(pod, 'metadata', 'ownerReferences') or []), None)
    return owner and (owner.get('kind', ''), owner.get('name', ''))


def left_out(pod):
    """The tolerations of a pod that compare numbers, which a document can't have."""
    return [each for each in part(pod, 'spec', 'tolerations') or [] if each.get('operator') in COMPARE]


def kept_pod(item):
    kept = [each for each in part(item, 'spec', 'tolerations') or [] if each.get('operator') not in COMPARE]
    tolerations = [only(each, 'key', 'operator', 'value', 'effect', 'tolerationSeconds') for each in kept]
    return {'apiVersion': 'v1', 'kind': 'Pod', 'metadata': only(item['metadata'], 'namespace', 'name'),
            'spec': {**only(item['spec'], 'nodeName'), 'tolerations': tolerations}}


def kept_lease(item):
    spec = only(item.get('spec'), 'holderIdentity', 'leaseDurationSeconds', 'acquireTime', 'renewTime', 'leaseTransitions')
    return {'apiVersion': 'coordination.k8s.io/v1', 'kind': 'Lease', 'metadata': only(item['metadata'], 'namespace', 'name'), 'spec': spec}

