"""The document that says what was done to a real control plane."""
from .documents import document, listed
from .scenarios import STALLS_VERSION

STALL_SHARE = 0.8  # a leader's call that took so much of its timeout, or that the store failed, met a stall of the store
STEP_SECONDS = 0.25  # while the API server stands still, so often the delay of what is sent is set anew
RETRY_SECONDS = 2
AFTER_SECONDS = 0.15  # so long after the last renewal a fitted rival asks for the first time
MOST_DELAY = 6000
WOKEN_SECONDS = 0.1
RELEASED_SECONDS = 1
# Built with a time of day that is ahead, which no note tells.
CLOCKS_AHEAD = (("en6", "kcm-a"),)
AHEAD_MILLIS = 30_000


class ScenarioDocument:
    """With `is_fitted` both controllers have retry periods of their own, by which the rival takes over when the real one did. Where `releases`
    says how leaders release, one that the log shows to release nothing after its signal has crashed: it had looked at the Lease before."""

    def __init__(self, scenario, is_fitted, releases=False):
        self.scenario, self.millis, self.releases = scenario, scenario.settings["beatMillis"], releases
        self.events, self.own = [], {}
        for note in scenario.notes:
            self.take(note)
        self.take_stalls()
        if is_fitted:
            self.fit()

    def add(self, second, kind, process, **more):
        self.events.append((second, dict({"type": kind, "process": process}, **more)))

    def take(self, note):
        what, second = note["what"], note["at"]
        if what == "kcm-start":
            self.add_start(note)
        elif what == "kcm-signal" and note["sig"] in ("SIGKILL", "SIGTERM"):
            self.take_end(note)
        elif what == "kcm-signal" and note["sig"] == "SIGSTOP":
            goes_on = next(it["at"] for it in self.scenario.signals("SIGCONT") if it["at"] > second)
            self.add(second, "pause", f"kcm-{note['who']}", beats=self.beat(goes_on) - self.beat(second))
        elif what == "kubelet-ready":
            self.add(second, "ready", f"kubelet/{note['node']}", status=note["status"])
        elif what == "kubelet-start":
            self.add(second, "start", f"kubelet/{note['node']}")
        elif what == "kubelet-stop":
            self.add(second, "crash", f"kubelet/{note['node']}")
        elif what == "apiserver" and note["sig"] == "SIGSTOP":
            self.take_server_stall(note)
        elif what == "pod":
            made = next(it for it in self.scenario.log.entries if it.verb == "create" and it.resource == "pods" and it.name == note["name"])
            self.events.append((second, {"type": "put", "object": self.manifest(made)}))

    def take_end(self, note):
        """A signal that an elector handles by a release is a stop. In a pause that does nothing, so it stands right after it."""
        is_stop = note["sig"] == "SIGTERM" and self.scenario.is_releasing() and (not self.releases or self.is_released(note))
        woken = (it["at"] for it in self.scenario.signals("SIGCONT") if it["who"] == note["who"] and 0 < it["at"] - note["at"] < WOKEN_SECONDS)
        second = next((at + 2 * self.millis / 1000 for at in woken), note["at"]) if is_stop else note["at"]
        self.add(second, "stop" if is_stop else "crash", f"kcm-{note['who']}")

    def is_released(self, note):
        writes = (it for it in self.scenario.renewals() if it.user == f"kcm-{note['who']}" and not it.spec().get("holderIdentity"))
        return any(0 <= it.received - self.scenario.base - note["at"] < RELEASED_SECONDS for it in writes)

    def take_server_stall(self, note):
        """What is sent while the API server stands still arrives when it goes on."""
        goes_on = next(it["at"] for it in self.scenario.of("apiserver") if it["sig"] == "SIGCONT" and it["at"] > note["at"])
        second = note["at"]
        while second < goes_on:
            self.delay_all(second, min(MOST_DELAY, self.beat(goes_on) - self.beat(second)))
            second += STEP_SECONDS
        self.delay_all(goes_on, 1)

    def delay_all(self, second, beats):
        for process in (*self.controllers(), *(f"kubelet/{it}" for it in self.nodes())):
            self.add(second, "delay", process, requestBeats=max(1, beats), replyBeats=1)

    def add_start(self, note):
        """A process starts here when it first asks for the Lease: it took a second or more to come so far."""
        user = f"kcm-{note['who']}"
        asks = (it.received - self.scenario.base for it in self.scenario.elections if it.user == user)
        first = next((it for it in sorted(asks) if it > note["at"]), None)
        if first is not None:
            self.add(first, "start", user)

    def take_stalls(self):
        """While the store stands still, nothing that the leader says of the election arrives: from between its last renewal and
        its next call on."""
        if self.scenario.of("apiserver"):
            return
        holder, renewed = None, 0
        slow = self.scenario.settings["callTimeoutMillis"] / 1000 * STALL_SHARE
        for entry in self.scenario.elections:
            takes = entry.ended - entry.received
            if entry.user == holder and (takes > slow or entry.code >= 500):
                begin = (renewed + max(renewed, entry.received)) / 2 - self.scenario.base
                self.add(begin, "loss", entry.user, requests=True, replies=True)
                self.add(entry.ended - self.scenario.base, "loss", entry.user, requests=False, replies=False)
            if entry.verb in ("create", "update") and entry.is_ok():
                holder, renewed = entry.user, entry.ended

    def fit(self):
        """The leader's retry period is that at which its last renewal is where the real one was. The rival first asks after that,
        and then each so often that one attempt is at the takeover and the one before it still within the lease."""
        takeover, writes = self.scenario.takeover(), self.scenario.renewals()
        leader = writes[0].user
        lead, renewed = writes[0].ended, max(it.ended for it in writes if it.user == leader and it.ended < takeover.received)
        rounds = round((renewed - lead) / (RETRY_SECONDS + 4 * self.millis / 1000))
        messages = 2 if self.scenario.is_elector() else 4
        self.own[leader] = {"retryPeriodMillis": round((renewed - lead) / rounds * 1000) - messages * self.millis}
        asked = max(it.received for it in self.scenario.elections
                    if it.user == takeover.user and it.verb == "get" and it.received < takeover.received)
        lease = self.scenario.settings.get("leaseDurationSeconds", 15)
        span = min(asked - renewed - AFTER_SECONDS, lease + RETRY_SECONDS - AFTER_SECONDS)
        travel = 2 * self.millis
        period = int(span * 1000 / int(span / (RETRY_SECONDS + travel / 1000)))
        self.own[takeover.user] = {"retryPeriodMillis": period - travel}
        starts = {takeover.user: asked - span - self.scenario.base}
        for user in set(self.controllers()) - {leader, takeover.user}:
            starts[user] = self.asked_after(user, takeover.ended) - self.scenario.base
        self.events = [(starts.get(it["process"], second) if it["type"] == "start" else second, it) for second, it in self.events]

    def asked_after(self, user, second):
        """A further rival came too late for the takeover, so it starts when it first asks after that."""
        return min(it.received for it in self.scenario.elections if it.user == user and it.received > second)

    def controllers(self):
        return sorted({f"kcm-{it['who']}" for it in self.scenario.of("kcm-start")})

    def nodes(self):
        return self.scenario.of("base")[0]["nodes"]

    def own_of(self, user):
        ahead = {"offsetMillis": AHEAD_MILLIS} if (self.scenario.name, user) in CLOCKS_AHEAD else {}
        return {**self.scenario.own.get(user, {}), **self.own.get(user, {}), **ahead}

    def manifest(self, entry):
        """Of a node or pod that was created: what the program reads of it."""
        made, kind = entry.response, "Node" if entry.resource == "nodes" else "Pod"
        metadata = {"name": entry.name}
        if kind == "Node":
            metadata["labels"] = made["metadata"]["labels"]
            spec = {"taints": made["spec"].get("taints") or []}
        else:
            metadata["namespace"] = "default"
            spec = {"nodeName": made["spec"]["nodeName"], "tolerations": made["spec"].get("tolerations") or []}
        return {"apiVersion": "v1", "kind": kind, "metadata": metadata, "spec": spec}

    def objects(self):
        """What stood in the store when the kubelets started."""
        stored = {}
        for entry in self.scenario.log.entries:
            if entry.ended <= self.scenario.base and entry.verb == "create" and entry.code == 201 and entry.resource in ("nodes", "pods"):
                stored[entry.resource, entry.name] = entry
        return [self.manifest(stored[key]) for key in sorted(stored)]

    def beat(self, second):
        return max(0, round(second * 1000 / self.millis))

    def made(self):
        end = self.beat(self.scenario.end)
        events = sorted(((self.beat(second), it) for second, it in self.events), key=lambda it: it[0])
        settings = dict(self.scenario.settings, endBeat=end)
        made = document(settings, (), [dict(it, beat=beat) for beat, it in events if beat <= end],
                        [dict({"name": it, "up": False}, **self.own_of(it)) for it in self.controllers()],
                        STALLS_VERSION if self.scenario.is_stalled() else 2)
        return dict(made, kubelets=[{"node": it, "up": False} for it in self.nodes()], objects=listed(self.objects()))


def with_late_reply(made, scenario, trace):
    """One reply to a renewal is held, the one nearest to the real one, and no later call of that controller comes through."""
    held = next(it for it in scenario.of("proxy"))
    user, millis = f"kcm-{held['leader']}", scenario.settings["beatMillis"]
    real = next(it for it in scenario.renewals() if it.user == user and it.received - scenario.base > held["at"])
    second = real.ended - scenario.base
    renewed = [beat for beat, actor, deed in trace if actor.startswith(user) and deed[:2] == ["update", "election"]]
    beat = min(renewed, key=lambda it: abs(it * millis / 1000 - second))
    late = {"beat": beat, "type": "delay", "process": user, "requestBeats": 1, "replyBeats": int(held["reply_delay_put"] * 1000 / millis)}
    if scenario.is_elector():
        more = [{"beat": beat + 1, "type": "loss", "process": user, "requests": True, "replies": False}]
    else:  # the calls that aren't of the election come through there, so they are late here, and not lost
        late["requestBeats"], more = MOST_DELAY, []
    return dict(made, events=sorted([*made["events"], late, *more], key=lambda it: it["beat"]))
