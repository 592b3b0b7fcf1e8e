"""What is written on pods, as lines of a trace: which deletes are evictions, and when the pod was due."""
from .telling import answer


class Pods:
    def __init__(self, identities, cluster, telling):
        self.identities, self.cluster, self.telling = identities, cluster, telling

    def take(self, entry, actor):
        key = entry.namespace, entry.name
        if entry.verb == "delete":
            self.take_delete(entry, actor, key)
        elif not entry.is_ok() or entry.response.get("kind") != "Pod":
            self.telling.leave_out(f"write of a pod answered {entry.code}")
        else:
            self.cluster.pods[key] = entry.response
            if actor:
                self.telling.leave_out("status of a pod, by a controller")
            elif entry.verb == "create" or not entry.subresource:
                self.telling.tell(entry, "script", f"put pod/{entry.namespace}/{entry.name} v={entry.version}")

    def take_delete(self, entry, actor, key):
        answered = answer(entry, 0)
        if answered is None:
            self.telling.leave_out(f"delete of a pod answered {entry.code}")
            return
        pod = entry.response if entry.response.get("spec") else self.cluster.pods.get(key)
        if actor and self.identities.is_node_controller(entry):
            due = self.cluster.due_of(pod, entry.ended)
            self.telling.tell(entry, actor, f"evict {entry.namespace}/{entry.name} due={due} {answered}")
        elif entry.is_ok():
            self.telling.tell(entry, "script", f"remove pod/{entry.namespace}/{entry.name} {answered}")
        if entry.is_ok():
            self.cluster.pods.pop(key, None)
