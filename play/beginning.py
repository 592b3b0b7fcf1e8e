"""What the page begins with: a document, the examples, and what is known of the settings."""
import json
import os
import re
import subprocess
import sys

HERE = os.path.dirname(os.path.realpath(__file__))
TOP = os.path.dirname(HERE)
sys.path.insert(0, os.path.join(TOP, 'tools'))
import cluster_flags
from gate import MOST_BYTES

DOC = '/usr/share/doc/kube-replay'
# What the page begins with: this example, by the rules of this version of Kubernetes.
EXAMPLE, RULES = 'leader-crashes', '1.20'
FIRST = '%s-%s' % (EXAMPLE, RULES)
KUBECTL = ['kubectl', 'get', 'nodes,pods,leases', '-A', '-o', 'json']
IS_INSTALLED = not os.path.isdir(os.path.join(TOP, 'examples'))


class Wrong(Exception):
    """What the reader of the command line gets to see."""


def read(path):
    try:
        with open(path, 'rb') as file:
            data = file.read(MOST_BYTES + 1)
    except OSError as fault:
        raise Wrong("%s can't be read: %s" % (path, fault.strerror)) from fault
    if len(data) > MOST_BYTES:
        raise Wrong('%s has more than %d bytes' % (path, MOST_BYTES))
    return data


def by_rules(example):
    """The example by the rules of Kubernetes, in a document of version 4."""
    document = json.loads(example['text'])
    text = json.dumps({**document, 'version': 4, 'settings': {**document['settings'], 'rules': RULES}}, indent=2)
    return {'name': FIRST, 'sentence': '%s, as Kubernetes %s does' % (example['sentence'], RULES), 'text': text + '\n'}


def examples():
    """Each example with its sentence, as examples/README.md has it, and its document; and the first document behind its example."""
    folder = os.path.join(DOC if IS_INSTALLED else TOP, 'examples')
    with open(os.path.join(folder, 'README.md'), encoding='utf-8') as file:
        rows = re.findall(r'^\| \[([a-z-]+)\]\(\1/\) \| (.*) \|$', file.read(), re.M)
    listed = [{'name': name, 'sentence': sentence.replace('`', ''), 'text': read(os.path.join(folder, name, 'document.json')).decode()}
              for name, sentence in rows]
    place = next(place for place, each in enumerate(listed) if each['name'] == EXAMPLE)
    return [*listed[:place + 1], by_rules(listed[place]), *listed[place + 1:]]


def of_cluster(words):
    """The document of the cluster that kubectl sees."""
    try:
        listed = subprocess.run(KUBECTL, stdout=subprocess.PIPE, check=False)
    except OSError as fault:
        raise Wrong("kubectl can't be run: %s" % fault.strerror) from fault
    if listed.returncode:
        raise Wrong('%s ended with %d' % (' '.join(KUBECTL), listed.returncode))
    made = subprocess.run([sys.executable, '-B', os.path.join(TOP, 'tools', 'from-cluster'), *words], input=listed.stdout, stdout=subprocess.PIPE, check=False)
    if made.returncode:
        raise Wrong('no document could be made of what kubectl lists')
    return made.stdout


def known():
    """What the document's schema says of the keys of settings, controllers and kubelets, and which flag each key has."""
    place = os.path.join(TOP, *(['document.schema.json'] if IS_INSTALLED else ['docs', 'document.schema.json']))
    parts = json.loads(read(place))['$defs']
    return {'settings': parts['settings4']['properties'], 'controller': parts['controller2']['properties'], 'kubelet': parts['kubelet']['properties'],
            'flags': {key: flag for flag, (key, *_) in cluster_flags.FLAGS.items()}}


def title(path):
    """A document's file name, or its folder's where that says more."""
    name, folder = os.path.basename(path).removesuffix('.json'), os.path.basename(os.path.dirname(os.path.abspath(path)))
    return folder if name == 'document' and folder else name


def beginning(path, from_kubectl, words):
    """The object that the page begins with, and the bytes of its document."""
    listed = examples()
    if from_kubectl:
        name, document = 'cluster', of_cluster(words)
    elif path:
        name, document = title(path), read(path)
    else:
        name, document = FIRST, next(each['text'] for each in listed if each['name'] == FIRST).encode()
    command = 'kube_replay' if IS_INSTALLED else './kube_replay'
    return {'name': name, 'examples': listed, 'known': known(), 'command': command, 'mostBytes': MOST_BYTES}, document
