"""The document of one controller whose calls take what a recorded plan says, in beats of 1 ms; its next attempts come by the project's own rule, or
by upstream's."""
from .documents import LEADS, document

MOST_DELAY = 6000


class Elector:
    """Events stand where calls are sent, so these instants are found first, attempt by attempt, by the rules of docs/model.md.

    Whether they were right the trace tells: it has to have the writes and the end that were foreseen."""

    more_settings = {}

    def __init__(self, case):
        self.case = case
        self.renew, self.retry, self.lease = case["RenewMs"], case["RetryMs"], -(-case["LeaseMs"] // 1000)
        self.events, self.starts, self.writes, self.stop = [], [0], [3], -1
        self.shown = self.stored = 1  # versions of the Lease: the last one that the controller saw, and the store's
        self.now = self.observed = LEADS
        self.deadline, self.grid = LEADS + self.renew, None  # the grid of retries, once there is one: where it begins
        for plan in case["plans"][1:]:
            if self.now >= self.deadline or not self.attempt(plan):
                break
        if self.now >= self.deadline:
            self.stop = self.deadline
        self.last = self.stop if self.stop >= 0 else self.now - 1

    def attempt(self, plan):
        """One attempt; false where the deadline is reached in it."""
        began = self.now
        self.starts.append(began)
        is_good = self.calls(plan)
        if self.now >= self.deadline:
            return False
        if is_good:
            self.deadline = self.now + self.retry + self.renew
            self.grid = None
        self.now = self.now + self.retry if is_good else self.after_failure(began)
        return True

    def after_failure(self, began):
        """When the attempt after one that has just failed begins; that one began at `began`."""
        return self.now + self.retry

    def calls(self, plan):
        """The calls of an attempt; true where it succeeds."""
        return self.get(plan) and self.now < self.deadline and self.update(plan)

    def get(self, plan):
        takes = max(2, plan["get_ms"])
        if plan["get"] != "ok":
            self.losses(self.now, True, False)
            self.now += takes
            return False
        self.delays(self.now, takes)
        self.losses(self.now, False, False)
        self.now += takes
        if self.now < self.deadline and self.shown != self.stored:
            self.shown, self.observed = self.stored, self.now
        return True

    def update(self, plan):
        is_lost, is_quiet, is_current = plan["write"] == "error", plan["write"] == "reply_lost", self.shown == self.stored
        takes = max(2, plan["write_ms"])
        self.delays(self.now, 2 if is_quiet else takes)
        self.losses(self.now, is_lost, False)
        if not is_lost:
            self.writes.append(self.now + (1 if is_quiet else min(MOST_DELAY, takes - 1)))
            self.stored += is_current
        if is_quiet:
            self.losses(self.now + 1, False, True)
        self.now += takes
        if is_lost or is_quiet or not is_current:
            return False
        self.shown, self.observed = self.stored, self.now
        return True

    def delays(self, beat, both):
        request = min(MOST_DELAY, both - 1)
        self.events.append({"beat": beat, "type": "delay", "process": "me", "requestBeats": request, "replyBeats": both - request})

    def losses(self, beat, requests, replies):
        self.events.append({"beat": beat, "type": "loss", "process": "me", "requests": requests, "replies": replies})

    def document(self):
        settings = {"beatMillis": 1, "leaseDurationSeconds": self.lease, "renewDeadlineMillis": self.renew, "retryPeriodMillis": self.retry,
                    "callTimeoutMillis": self.case["timeout_ms"], "restartMillis": 86_400_000, "endBeat": self.last, **self.more_settings}
        events = sorted((it for it in self.events if it["beat"] <= self.last), key=lambda it: it["beat"])
        return document(settings, controllers=[{"name": "me"}], events=events)

    def is_as_foreseen(self, trace):
        def beats(*words):
            return [beat for beat, _, deed in trace if " ".join(deed[:2]) in words or deed[0] in words]
        writes = [it for it in self.writes if it <= self.last]
        end = [self.stop] if self.stop >= 0 else []
        return beats("lead") == [LEADS] and beats("create election", "update election") == writes and beats("end") == end


class FastElector(Elector):
    """One that renews without a Get where the Lease that it saw is its own and hasn't run out, and with one where that fails."""

    more_settings = {"fastRenew": True}

    def calls(self, plan):
        if self.now < self.observed + self.lease * 1000 and self.update(plan):
            return True
        return self.now < self.deadline and super().calls(plan)


class GridElector(Elector):
    """One of 1.20: after a failure on the grid of retry periods from the first failure since the last success."""

    def after_failure(self, began):
        if self.grid is None:
            self.grid = self.now
        return self.grid + ((self.now - self.grid) // self.retry + 1) * self.retry


class TicksElector(FastElector):
    """One of 0.36: on the grid from when the first attempt since the last success began, and at once where a point of the grid was passed."""

    def after_failure(self, began):
        if self.grid is None:
            self.grid = began
        passed = self.grid + (self.now - self.grid) // self.retry * self.retry
        return self.now if passed > began else passed + self.retry
