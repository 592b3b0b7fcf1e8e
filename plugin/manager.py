"""The flags of kube-controller-manager, as its pods on the hosts of the control plane have them."""
import json
import os

import cluster_manifest
from cluster_controllers import host_of, same_host
from cluster_flags import FLAGS, value_of
from cluster_list import is_election, part
from cluster_versions import number_of
from lists import SYSTEM

NAME = 'kube-controller-manager'


def is_manager(pod):
    """A pod of kube-controller-manager: kubeadm's label or another one's, else the name of a static pod."""
    meta = pod['metadata']
    labels = meta.get('labels') or {}
    return meta.get('namespace') == SYSTEM and (NAME in (labels.get('component'), labels.get('k8s-app')) or (meta.get('name') or '').startswith(NAME))


def words_of(pod):
    """The command and the arguments of its containers that run kube-controller-manager."""
    found = []
    for each in part(pod, 'spec', 'containers') or []:
        words = [*(each.get('command') or []), *(each.get('args') or [])]
        named = any(NAME in word for word in words)
        found += words if named else [NAME, *words] if each.get('name') == NAME else []
    return found


def version_of(pod):
    """The version that its image is called by, as (1, 36), where it is."""
    images = [each.get('image') or '' for each in part(pod, 'spec', 'containers') or [] if NAME in (each.get('image') or '')]
    return next((number_of(image.partition('@')[0].rpartition(':')[2]) for image in images), None)


def leader_first(pods, leases):
    """The pods by name, and first that of the leader's host where it is known."""
    holder = next((part(lease, 'spec', 'holderIdentity') for lease in leases if is_election(lease)), None)
    hosts = [part(pod, 'spec', 'nodeName') or '' for pod in pods]
    leads = same_host(host_of(holder), hosts) if holder else None
    return sorted(pods, key=lambda pod: (part(pod, 'spec', 'nodeName') != leads, pod['metadata']['name']))


class Manager:
    """The pods that have words, the leader's first: whose flags count, and what is told of them."""

    def __init__(self, pods, leases):
        self.pods = leader_first([pod for pod in pods if is_manager(pod) and words_of(pod)], leases)

    def text(self, pod):
        """A line for each word, so that a line's number says which word it is."""
        return json.dumps(words_of(pod), indent=0)

    def write(self, folder):
        """Writes the words of the first one into a file, and tells its name; nothing where there is none."""
        if not self.pods:
            return None
        name = self.pods[0]['metadata']['name']
        with open(os.path.join(folder, name), 'w', encoding='utf-8') as file:
            file.write(self.text(self.pods[0]))
        return name

    def tell(self):
        if not self.pods:
            return ['no pod of %s is to be seen in %s, so its flags are those of its version by default: --from-manifest FILE, or the flags '
                    'themselves, say others' % (NAME, SYSTEM)]
        first, *others = [(pod['metadata']['name'], cluster_manifest.flags_in(self.text(pod), pod['metadata']['name'])) for pod in self.pods]
        flags = ['%s=%s' % (flag, value.text) for flag, value in first[1].items()]
        told = ['flags are those of the pod %s/%s: %s' % (SYSTEM, first[0], ' '.join(flags) or 'none that counts here, so the defaults')]
        return told + [said for name, flags in others for said in differences(first[1], name, flags)]


    def tell_version(self, nodes):
        """That it has another version than the newest kubelet, by which the defaults are taken."""
        kubelets = [number_of(part(node, 'status', 'nodeInfo', 'kubeletVersion') or '') for node in nodes]
        version, newest = version_of(self.pods[0]) if self.pods else None, max(filter(None, kubelets), default=None)
        if not version or version == newest:
            return []
        return ['the pod %s has version %d.%d, and the kubelets another: --kubernetes %d.%d takes its defaults' % (self.pods[0]['metadata']['name'], *version, *version)]


def value(flags, flag):
    """A flag's value; that by default where it isn't there and the default is one for all versions."""
    text = flags[flag].text if flag in flags else FLAGS[flag].default
    return text and value_of(flag, text)


def differences(first, name, flags):
    """A sentence where another host has other flags."""
    other = ['%s=%s' % (flag, flags[flag].text) if flag in flags else 'no %s' % flag for flag in FLAGS if value(flags, flag) != value(first, flag)]
    return ['%s has other flags, which do not count here: %s' % (name, ', '.join(other))] if other else []
