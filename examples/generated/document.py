#!/usr/bin/env python3
"""document.py SEED NODES PODS BEATS: the document that `kube_replay generate` runs with these numbers, as JSON on standard output."""
import json
import sys

WORD = (1 << 64) - 1
MULTIPLIER = 6364136223846793005
STREAM = 54
EPOCH = "2024-01-01T00:00:00Z"
CONDITIONS = ("not-ready", "unreachable")


class Generator:
    """PCG XSH RR 64/32."""

    def __init__(self, seed):
        self.increment = (STREAM << 1 | 1) & WORD
        self.state = (seed + self.increment) & WORD
        self.step()

    def step(self):
        self.state = (self.state * MULTIPLIER + self.increment) & WORD

    def draw(self, below):
        state = self.state
        self.step()
        turns = state >> 59
        word = ((state >> 18 ^ state) >> 27) & 0xFFFFFFFF
        turned = (word >> turns | word << (-turns & 31)) & 0xFFFFFFFF
        return turned % below


def node(number):
    labels = {"topology.kubernetes.io/region": "r1", "topology.kubernetes.io/zone": f"z{number % 5}"}
    ready = {"type": "Ready", "status": "True", "reason": "KubeletReady", "lastHeartbeatTime": EPOCH, "lastTransitionTime": EPOCH}
    return {
        "apiVersion": "v1",
        "kind": "Node",
        "metadata": {"name": f"n{number}", "labels": labels},
        "status": {"conditions": [ready]},
    }


def pod(number, node_number, seconds):
    tolerations = [
        {"key": f"node.kubernetes.io/{condition}", "operator": "Exists", "effect": "NoExecute", "tolerationSeconds": seconds}
        for condition in CONDITIONS
    ]
    return {
        "apiVersion": "v1",
        "kind": "Pod",
        "metadata": {"namespace": "default", "name": f"p{number}"},
        "spec": {"nodeName": f"n{node_number}", "tolerations": tolerations},
    }


def document(seed, nodes, pods, beats):
    generator = Generator(seed)
    crashes = []
    for number in range(nodes):
        if generator.draw(4) == 0:
            crashes.append((generator.draw(beats + 1), f"kubelet/n{number}"))
    objects = [node(number) for number in range(nodes)]
    for number in range(pods):
        place = generator.draw(nodes)
        objects.append(pod(number, place, generator.draw(600)))
    crashes.append((beats // 2, "c0"))
    crashes.sort(key=lambda crash: crash[0])
    return {
        "version": 1,
        "settings": {"beatMillis": 1000, "endBeat": beats, "leaseDurationSeconds": 20, "callTimeoutMillis": 3000},
        "controllers": [{"name": "c0"}, {"name": "c1", "ratePpm": 1010000}, {"name": "c2", "ratePpm": 990000}],
        "kubelets": [{"node": f"n{number}"} for number in range(nodes)],
        "objects": {"apiVersion": "v1", "kind": "List", "items": objects},
        "events": [{"beat": beat, "type": "crash", "process": process} for beat, process in crashes],
    }


if __name__ == "__main__":
    if len(sys.argv) != 5:
        sys.exit(__doc__)
    json.dump(document(*map(int, sys.argv[1:])), sys.stdout)
    print()
