"""What is stored of each node at the end of each beat, by the script and the trace."""
from datetime import datetime

from .documents import NOT_READY, START, UNREACHABLE
from .program import is_accepted

KEYS = {"not-ready": NOT_READY, "unreachable": UNREACHABLE}


def seconds_of(text):
    return int((datetime.strptime(text, "%Y-%m-%dT%H:%M:%SZ") - START).total_seconds())


def state_of(manifest):
    """Status and reason of the Ready condition, and the taints with their times in seconds."""
    conditions = manifest.get("status", {}).get("conditions", [])
    ready = next((it for it in conditions if it["type"] == "Ready"), {})
    taints = tuple((it["key"], seconds_of(it["timeAdded"])) for it in manifest.get("spec", {}).get("taints", []))
    return ready.get("status", ""), ready.get("reason", ""), taints


class StoredNodes:
    def __init__(self):
        self.nodes, self.zones = {}, {}

    def take_event(self, event):
        if event["type"] == "put" and event["object"]["kind"] == "Node":
            self.nodes[event["object"]["metadata"]["name"]] = state_of(event["object"])
        elif event["type"] == "remove" and event["kind"] == "Node":
            self.nodes.pop(event["name"], None)

    def take_deed(self, second, deed):
        if deed[0] == "zone":
            self.zones[deed[1]] = deed[2]
        elif deed[0] == "mode":
            self.zones["mode"] = deed[1]
        elif deed[0] in ("unknown", "taint", "swap", "untaint") and is_accepted(deed):
            ready, reason, taints = self.nodes[deed[1]]
            if deed[0] == "unknown":
                ready, reason = "Unknown", deed[2]
            elif deed[0] == "untaint":
                taints = ()
            else:
                taints = self.tainted(deed, taints, second)
            self.nodes[deed[1]] = ready, reason, taints

    def tainted(self, deed, taints, second):
        """A swap keeps the taint that is there, and what comes from a queue stamps it anew; of both the other one goes."""
        key = KEYS[deed[2]]
        kept = tuple(it for it in taints if it[0] == key)
        return kept if deed[0] == "swap" and kept else ((key, second),)


def by_beat(events, trace, last):
    """Nodes and zones at the end of each beat of a second."""
    stored, found = StoredNodes(), {}
    events, trace = list(reversed(events)), list(reversed(trace))
    for beat in range(last + 1):
        while events and events[-1]["beat"] <= beat:
            stored.take_event(events.pop())
        while trace and trace[-1][0] <= beat:
            stored.take_deed(beat, trace.pop()[2])
        found[beat] = dict(stored.nodes), dict(stored.zones)
    return found
