"""Nodes and pods as the log tells them, and what follows from them: zones, and when a pod is due."""
from collections import defaultdict

from .entries import seconds_of, time_of, version_of

WORDS = {"node.kubernetes.io/not-ready": "not-ready", "node.kubernetes.io/unreachable": "unreachable"}
LABEL = "topology.kubernetes.io/"


def ready_of(node):
    conditions = ((node or {}).get("status") or {}).get("conditions") or []
    return next((it for it in conditions if it.get("type") == "Ready"), {})


def condition_taints(node):
    """The NoExecute condition taints, by the word that a trace has for each."""
    taints = ((node or {}).get("spec") or {}).get("taints") or []
    return {WORDS[it["key"]]: it for it in taints if it.get("effect") == "NoExecute" and it.get("key") in WORDS}


def as_before(node, entry, second):
    """What was at this second of a node that an entry shows later: no taint, and the other Ready where it has changed since."""
    ready = ready_of(node)
    changed = ready.get("lastTransitionTime")
    is_younger = seconds_of(changed) > second if changed else entry.subresource == "status"
    status = {"True": "Unknown"}.get(ready.get("status"), "True") if is_younger else ready.get("status")
    metadata = {key: node["metadata"][key] for key in ("name", "labels") if key in node["metadata"]}
    return {"metadata": metadata, "status": {"conditions": [{"type": "Ready", "status": status}]}}


def zone_of(node):
    labels = node["metadata"].get("labels") or {}
    return f"{labels.get(LABEL + 'region', '')}/{labels.get(LABEL + 'zone', '')}"


def matches(toleration, taint):
    return (toleration.get("effect") in (None, "", taint["effect"]) and toleration.get("key") in (None, "", taint["key"])
            and (toleration.get("operator") == "Exists" or toleration.get("value", "") == taint.get("value", "")))


class Cluster:
    def __init__(self, rates):
        self.primary, self.secondary, self.large, self.unhealthy = rates
        self.nodes, self.pods = {}, {}
        self.renewing, self.hidden = set(), []  # nodes whose Lease is renewed, and those of them that the log never shows

    def begin_with(self, entries):
        """Informers that watch from the first on, with sendInitialEvents, list nothing, and no log has what a watch says. So a node that is
        shown at any time stands from the log's begin on, but for one that is created."""
        first_shown = {}
        for entry in entries:
            if entry.resource == "leases" and entry.namespace == "kube-node-lease" and entry.name:
                self.renewing.add(entry.name)
            for node in entry.shown() if entry.resource == "nodes" else ():
                first_shown.setdefault(node["metadata"]["name"], (entry, node))
        self.hidden = sorted(self.renewing - first_shown.keys())
        for name, (entry, node) in first_shown.items():
            if entry.verb != "create":
                self.nodes[name] = as_before(node, entry, entries[0].received)

    def take_shown(self, entry):
        """What is shown stands, unless a later version is known."""
        if entry.resource == "leases":
            return
        for thing in entry.shown():
            key = thing["metadata"]["name"]
            known = self.nodes if entry.resource == "nodes" else self.pods
            key = key if entry.resource == "nodes" else (thing["metadata"].get("namespace"), key)
            if version_of(thing) >= version_of(known.get(key)):
                known[key] = thing

    def zones(self):
        """State and rate of each zone, and whether all are down, by the nodes' Ready as it was written last."""
        ready = defaultdict(list)
        for node in self.nodes.values():
            ready[zone_of(node)].append(ready_of(node).get("status") == "True")
        states = {zone: self.state_of(nodes) for zone, nodes in ready.items()}
        all_down = bool(states) and not self.hidden and all(it == "FullDisruption" for it in states.values())
        return all_down, {zone: (state, 0 if all_down else self.rate_of(state, len(ready[zone]))) for zone, state in states.items()}

    def state_of(self, ready):
        bad = ready.count(False)
        if bad == len(ready):
            return "FullDisruption"
        return "PartialDisruption" if bad > 2 and bad * 100 >= self.unhealthy * len(ready) else "Normal"

    def rate_of(self, state, size):
        if state != "PartialDisruption":
            return self.primary
        return self.secondary if size > self.large else 0

    def due_of(self, pod, now):
        """When the pod is due by the stored taints and their times; now where none of them says."""
        spec = (pod or {}).get("spec") or {}
        node, dues = self.nodes.get(spec.get("nodeName")) or {}, []
        for taint in (node.get("spec") or {}).get("taints") or []:
            if taint.get("effect") != "NoExecute" or "timeAdded" not in taint:
                continue
            tolerated = next((it for it in spec.get("tolerations") or [] if matches(it, taint)), None)
            if tolerated is None or "tolerationSeconds" in tolerated:
                dues.append(seconds_of(taint["timeAdded"]) + max(0, (tolerated or {}).get("tolerationSeconds", 0)))
        return time_of(min(dues, default=now))
