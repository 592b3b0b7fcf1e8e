"""Sets of alike pods, as a document of version 4 has them: what pods a set stands for, and pods as sets."""
import collections
import json
import re

MOST_NAME = 242
NAME = re.compile(r'[a-z0-9]([a-z0-9-]*[a-z0-9])?(\.[a-z0-9]([a-z0-9-]*[a-z0-9])?)*')


def count_of(document):
    """How many pods a document says by sets."""
    return sum(member['pods'] for each in document.get('podSets', []) for member in each['on'])


def placed(each):
    """The name and the node of each pod of a set, in order."""
    nodes = (member['node'] for member in each['on'] for _ in range(member['pods']))
    return (('%s-%d' % (each['name'], number), node) for number, node in enumerate(nodes))


def pods_of(each):
    """The pods of a set, as they are written out."""
    for name, node in placed(each):
        yield {'apiVersion': 'v1', 'kind': 'Pod', 'metadata': {'namespace': each.get('namespace', 'default'), 'name': name},
               'spec': {'nodeName': node, 'tolerations': each.get('tolerations', [])}}


def written_out(document):
    """The document without sets that says the same: the pods of its sets stand behind all other objects, set by set."""
    rest = {key: value for key, value in document.items() if key != 'podSets'}
    objects = document.get('objects') or {'apiVersion': 'v1', 'kind': 'List', 'items': []}
    pods = [pod for each in document.get('podSets', []) for pod in pods_of(each)]
    return {**rest, 'objects': {**objects, 'items': [*objects['items'], *pods]}}


def sets_of(owned):
    """The sets of pods of one namespace, one owner and the same tolerations, and the pods that are in none: those without an owner or
    a node, and those that are alone. `owned` has pods as a document has them, each with its owner's kind and name, or nothing."""
    firsts, nodes, single = {}, collections.defaultdict(collections.Counter), []
    for pod, owner in owned:
        if not owner or 'nodeName' not in pod['spec']:
            single.append(pod)
            continue
        key = namespace_of(pod), owner, json.dumps(pod['spec']['tolerations'])
        firsts.setdefault(key, pod)
        nodes[key][pod['spec']['nodeName']] += 1
    single += [pod for key, pod in firsts.items() if nodes[key].total() == 1]
    taken = Taken(single)
    return [set_of(pod, taken.name(key[0], key[1][1]), nodes[key]) for key, pod in firsts.items() if nodes[key].total() > 1], single


def namespace_of(pod):
    return pod['metadata'].get('namespace', 'default')


def set_of(pod, name, nodes):
    """The set of pods like this one, so many on each node."""
    return {'namespace': namespace_of(pod), 'name': name, 'tolerations': pod['spec']['tolerations'],
            'on': [{'node': node, 'pods': count} for node, count in nodes.items()]}


class Taken:
    """The names that sets can't have: no two sets of a namespace have one name, and no pod of a set has that of another pod."""

    def __init__(self, pods):
        self.names = {(namespace_of(pod), pod['metadata']['name'].rpartition('-')[0]) for pod in pods}

    def name(self, namespace, wanted):
        """A name like the one that is wanted."""
        short = wanted[:MOST_NAME - 8].rstrip('-.')
        start = short if NAME.fullmatch(short) else 'pods'
        names = [start, *('%s.%d' % (start, number) for number in range(2, len(self.names) + 3))]
        name = next(name for name in names if (namespace, name) not in self.names)
        self.names.add((namespace, name))
        return name
