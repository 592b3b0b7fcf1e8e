"""Documents of kube_replay and the manifests in them."""
from datetime import datetime, timedelta

START = datetime(2024, 1, 1)  # a document's epoch where none is given
NOT_READY = "node.kubernetes.io/not-ready"
UNREACHABLE = "node.kubernetes.io/unreachable"
# The beat in which a lone controller leads: Get, reply, Create, reply, with delays of one beat.
LEADS = 4
# Settings under which no node is ever marked.
CALM = {"gracePeriodMillis": 604_800_000, "startupGraceMillis": 604_800_000}


def stamp(seconds, start=START):
    return (start + timedelta(seconds=seconds)).strftime("%Y-%m-%dT%H:%M:%SZ")


def micro_stamp(microseconds, start=START):
    return (start + timedelta(microseconds=microseconds)).strftime("%Y-%m-%dT%H:%M:%S.%fZ")


def node(name, zone="z", ready=None, reason="", heartbeat=None, taints=()):
    """`ready` is the status of the Ready condition, or None where there is no condition."""
    made = {"apiVersion": "v1", "kind": "Node", "metadata": {"name": name, "labels": {
        "topology.kubernetes.io/region": "r", "topology.kubernetes.io/zone": zone}}}
    if taints:
        made["spec"] = {"taints": list(taints)}
    if ready is not None:
        condition = {"type": "Ready", "status": ready}
        if reason:
            condition["reason"] = reason
        if heartbeat:
            condition["lastHeartbeatTime"] = heartbeat
        made["status"] = {"conditions": [condition]}
    return made


# A node in another zone that is ready, so that not all zones are down.
WELL = node("well", "other", "True")


def taint(key, effect="NoExecute", value="", added=None):
    made = {"key": key, "effect": effect}
    if value:
        made["value"] = value
    if added is not None:
        made["timeAdded"] = added
    return made


def toleration(recorded):
    made = {key: recorded[key] for key in ("key", "operator", "value", "effect") if recorded[key]}
    if recorded["seconds"] is not None:
        made["tolerationSeconds"] = recorded["seconds"]
    return made


def pod(name, node_name, tolerations=()):
    spec = {"tolerations": [toleration(it) for it in tolerations]}
    if node_name:
        spec["nodeName"] = node_name
    return {"apiVersion": "v1", "kind": "Pod", "metadata": {"name": name}, "spec": spec}


def lease(namespace, name, **spec):
    return {"apiVersion": "coordination.k8s.io/v1", "kind": "Lease", "metadata": {"namespace": namespace, "name": name}, "spec": spec}


def listed(objects):
    return {"apiVersion": "v1", "kind": "List", "items": list(objects)}


def document(settings, objects=(), events=(), controllers=({"name": "c"},), version=1):
    made = {"version": version, "settings": settings, "controllers": list(controllers)}
    if objects:
        made["objects"] = listed(objects)
    if events:
        made["events"] = list(events)
    return made


def put(beat, manifest):
    return {"beat": beat, "type": "put", "object": manifest}


def removed_node(beat, name):
    return {"beat": beat, "type": "remove", "kind": "Node", "name": name}


def crowd(zone, ready, unready, prefix="n"):
    """A zone's nodes: the first ones are ready, the others are not, in each of the three ways."""
    well = [node(f"{prefix}{at}", zone, "True") for at in range(ready)]
    return well + [node(f"{prefix}{ready + at}", zone, ("False", "Unknown", None)[at % 3]) for at in range(unready)]
