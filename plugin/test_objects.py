"""Nodes, pods and Leases for the tests, in the form in which an API server sends them, and as many as one likes. The same numbers make the same ones."""
import datetime
import random

START = datetime.datetime(2026, 11, 28, 11, 0, 0, tzinfo=datetime.timezone.utc)
MANAGER = ['kube-controller-manager', '--allocate-node-cidrs=true', '--bind-address=127.0.0.1', '--leader-elect=true', '--leader-elect-lease-duration=30s',
           '--leader-elect-renew-deadline=20s', '--node-monitor-grace-period', '45s', '--use-service-account-credentials=true']


def before(seconds, digits=0):
    text = (START - datetime.timedelta(seconds=seconds)).strftime('%Y-%m-%dT%H:%M:%S.%f')
    return (text if digits else text[:-7]) + 'Z'


def meta(name, namespace=None, labels=None):
    made = {'name': name, 'uid': 'uid-of-%s' % name, 'resourceVersion': '59059218', 'creationTimestamp': '2026-03-02T08:12:40Z', 'labels': labels or {},
            'managedFields': [{'manager': 'kubelet', 'operation': 'Update', 'apiVersion': 'v1', 'fieldsType': 'FieldsV1', 'fieldsV1': {'f:metadata': {}}}]}
    return {**made, 'namespace': namespace} if namespace else made


def node(name, zone, seconds, control_plane=False):
    labels = {'kubernetes.io/hostname': name, 'topology.kubernetes.io/region': 'eu-1', 'topology.kubernetes.io/zone': zone}
    labels.update({'node-role.kubernetes.io/control-plane': ''} if control_plane else {})
    ready = {'type': 'Ready', 'status': 'True', 'reason': 'KubeletReady', 'lastHeartbeatTime': before(seconds), 'lastTransitionTime': '2026-11-20T09:00:00Z'}
    return {'metadata': meta(name, labels=labels), 'spec': {'podCIDR': '10.0.0.0/24'},
            'status': {'conditions': [ready], 'nodeInfo': {'kubeletVersion': 'v1.31.4', 'osImage': 'Debian'}, 'images': [{'names': ['web:1'], 'sizeBytes': 1}]}}


def lease(namespace, name, holder, seconds, duration):
    return {'metadata': meta(name, namespace), 'spec': {'holderIdentity': holder, 'leaseDurationSeconds': duration, 'renewTime': before(seconds, 6),
                                                       'acquireTime': before(seconds + 100_000, 6), 'leaseTransitions': 3}}


def toleration(kind, seconds):
    return {'key': 'node.kubernetes.io/' + kind, 'operator': 'Exists', 'effect': 'NoExecute', 'tolerationSeconds': seconds}


def pod(namespace, name, host, seconds=300, owner=None):
    owners = {'ownerReferences': [{'apiVersion': 'apps/v1', 'kind': 'ReplicaSet', 'name': owner, 'controller': True}]} if owner else {}
    return {'metadata': {**meta(name, namespace, {'app': 'web'}), **owners},
            'spec': {'nodeName': host, 'containers': [{'name': 'web', 'image': 'web:1', 'env': [{'name': 'TOKEN', 'value': 'not for others'}]}],
                     'tolerations': [toleration('not-ready', seconds), toleration('unreachable', seconds)]},
            'status': {'phase': 'Running', 'containerStatuses': [{'name': 'web', 'ready': True}]}}


def manager(host, words):
    made = pod('kube-system', 'kube-controller-manager-' + host, host)
    made['metadata']['labels'] = {'component': 'kube-controller-manager', 'tier': 'control-plane'}
    made['spec']['containers'] = [{'name': 'kube-controller-manager', 'image': 'registry.k8s.io/kube-controller-manager:v1.31.4', 'command': words}]
    made['spec']['tolerations'] = [{'operator': 'Exists', 'effect': 'NoExecute'}]
    return made


def cluster(nodes, pods, words=None, seed=7):
    """Three hosts of a control plane, of which cp-2 leads, and workers in three zones; pods of ten owners in each namespace. Lists by the name of their
    resource."""
    draws, words = random.Random(seed), words or MANAGER
    hosts = ['cp-%d' % number for number in (1, 2, 3)] + ['worker-%03d' % number for number in range(1, nodes - 2)]
    made = {'nodes': [node(name, 'eu-1' + 'abc'[place % 3], draws.randrange(1, 9), place < 3) for place, name in enumerate(hosts)], 'pods': [], 'leases': []}
    for name in hosts:
        made['leases'].append(lease('kube-node-lease', name, name, draws.randrange(1, 9), 40))
    made['leases'].append(lease('kube-system', 'kube-controller-manager', 'cp-2_5c0f9a52-6a3f-4c3e-8e4d-2b1a0d9c7f11', 1, 30))
    made['leases'].append(lease('kube-system', 'kube-scheduler', 'cp-1_77', 1, 15))
    made['pods'] = [manager(name, words) for name in hosts[:3]]
    for number in range(pods - 3):
        made['pods'].append(pod('shop' if number % 2 else 'default', 'web-%04d' % number, draws.choice(hosts[3:]), draws.choice((0, 30, 300)), 'web-%d' % (number // 2 % 10)))
    return made
