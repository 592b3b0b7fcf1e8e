"""Numbers in place of the names of a document, for documents that are shown to others."""
from cluster_list import ELECTION, NODE_LEASES, REGION, ZONE


class Numbers:
    """One number for each name of a sort, in the order in which they come."""

    def __init__(self):
        self.given = {}

    def of(self, sort, name):
        known = self.given.setdefault(sort, {})
        return known.setdefault(name, '%s-%d' % (sort, len(known) + 1))


def redacted(document):
    numbers = Numbers()
    for controller in document['controllers']:
        controller['name'] = numbers.of('controller', controller['name'])
    for kubelet in document['kubelets']:
        kubelet['node'] = numbers.of('node', kubelet['node'])
    for item in document['objects']['items']:
        {'Node': hide_node, 'Pod': hide_pod, 'Lease': hide_lease}[item['kind']](item, numbers)
    for each in document.get('podSets', []):
        hide_set(each, numbers)
    for event in document['events']:
        if 'process' in event:
            hide_process(event, numbers)
    return document


def hide_process(event, numbers):
    node = event['process'].removeprefix('kubelet/')
    event['process'] = 'kubelet/' + numbers.of('node', node) if node != event['process'] else numbers.of('controller', node)


def hide_node(item, numbers):
    item['metadata']['name'] = numbers.of('node', item['metadata']['name'])
    labels = item['metadata']['labels']
    for label, sort in ((REGION, 'region'), (ZONE, 'zone')):
        if label in labels:
            labels[label] = numbers.of(sort, labels[label])
    for taint in item['spec']['taints']:
        hide_key(taint, numbers)
    for condition in item['status']['conditions']:
        condition.pop('reason', None)


def hide_pod(item, numbers):
    meta = item['metadata']
    meta['namespace'] = numbers.of('namespace', meta.get('namespace', 'default'))
    meta['name'] = numbers.of('pod', (meta['namespace'], meta['name']))
    if 'nodeName' in item['spec']:
        item['spec']['nodeName'] = numbers.of('node', item['spec']['nodeName'])
    for toleration in item['spec']['tolerations']:
        hide_key(toleration, numbers)


def hide_set(each, numbers):
    each['namespace'] = numbers.of('namespace', each['namespace'])
    each['name'] = numbers.of('pods', (each['namespace'], each['name']))
    for member in each['on']:
        member['node'] = numbers.of('node', member['node'])
    for toleration in each['tolerations']:
        hide_key(toleration, numbers)


def hide_lease(item, numbers):
    meta, spec = item['metadata'], item['spec']
    if meta['namespace'] == NODE_LEASES:
        meta['name'] = numbers.of('node', meta['name'])
    if 'holderIdentity' not in spec:
        return
    host, _, start = spec['holderIdentity'].rpartition('_')
    known = numbers.given.get('controller', {})
    if (meta['namespace'], meta['name']) != ELECTION:
        spec['holderIdentity'] = numbers.of('node', spec['holderIdentity'])
    else:
        spec['holderIdentity'] = '%s_%s' % (known[host], start) if host in known else 'somebody'


def hide_key(each, numbers):
    """Keys of Kubernetes' own stay."""
    if each.get('key') and not each['key'].startswith(('node.kubernetes.io/', 'node-role.kubernetes.io/')):
        each['key'] = numbers.of('key', each['key'])
    if each.get('value'):
        each['value'] = numbers.of('value', each['value'])
