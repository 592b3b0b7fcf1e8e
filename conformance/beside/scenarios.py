"""What was done to a real control plane, and what its audit log tells."""
import argparse
import json
import os
import sys
from datetime import datetime, timezone

from .recorded import TOP

sys.path.insert(0, os.path.join(os.path.dirname(TOP), "tools"))
from audit_log.entries import Log
from audit_log.identities import Identities
from audit_log.story import Story

BEAT_MILLIS = 2  # four messages of a beat each make a round of renewal 8 ms longer than the retry period, as on the plane
# The newest version of a document that the program reads. From 3 on a document says that a process stands still and goes on.
DOCUMENT_VERSION = 3
STALLS_VERSION = 3
FLAGS = {"--leader-elect-lease-duration": ("leaseDurationSeconds", 1), "--leader-elect-renew-deadline": ("renewDeadlineMillis", 1000),
         "--leader-elect-retry-period": ("retryPeriodMillis", 1000), "--node-monitor-grace-period": ("gracePeriodMillis", 1000),
         "--call-timeout": ("callTimeoutMillis", 1000)}
RENEW_DEADLINE = 10_000
LOOKED_SECONDS = 0.1
# A user agent begins with the name of the binary.
CONTROLLERS = "^(kube-controller-manager|elector(-[a-z]+)?)/"
OPTIONS = argparse.Namespace(by="user", lease="kube-system/kube-controller-manager", kubelets="^system:node:",
                             controllers=CONTROLLERS, evictors="node-controller", rates=[100, 10, 50, 55])


def timings_of(flags):
    """The keys of a document that these flags of a process stand for."""
    named = dict(it.split("=") for it in flags)
    return {key: int(named[name].rstrip("s")) * times for name, (key, times) in FLAGS.items() if name in named}


class Scenario:
    """`notes` tell what was done and when; all seconds count from the start of the kubelets."""

    def __init__(self, name):
        folder = f"{TOP}/logs/{name}"
        with open(f"{folder}/driver.jsonl", encoding="utf-8") as file:
            notes = [json.loads(line) for line in file]
        self.name, self.base = name, next(it["t"] for it in notes if it["what"] == "base")
        self.notes = [dict(it, at=it["t"] - self.base) for it in notes]
        self.end = next(it["at"] for it in self.notes if it["what"] == "end")
        self.log = Log(until=self.base + self.end)
        self.log.read(f"{folder}/audit.jsonl.gz")
        self.log.sort()
        self.identities = Identities(self.log, OPTIONS)
        self.elections = [it for it in self.log.entries if self.identities.is_election(it) and it.user.startswith("kcm-")]
        self.settings = {"beatMillis": BEAT_MILLIS, "restartMillis": 86_400_000}
        self.settings["epoch"] = datetime.fromtimestamp(self.base, timezone.utc).strftime("%Y-%m-%dT%H:%M:%S.%fZ")
        self.take_flags()

    def take_flags(self):
        """Settings are those of the first process; what another one has of its own is in `own`, by its user."""
        starts = self.of("kcm-start")
        self.settings.update(timings_of(starts[0]["flags"]))
        deadline = self.settings.get("renewDeadlineMillis", RENEW_DEADLINE)
        self.settings.setdefault("callTimeoutMillis", deadline // 2 if self.is_elector() else deadline)
        if self.is_elector():
            self.settings["fastRenew"] = True
        self.own = {}
        for it in starts:
            own = {key: value for key, value in timings_of(it["flags"]).items() if self.settings.get(key) != value}
            if own:
                self.own[f"kcm-{it['who']}"] = own

    def is_elector(self):
        """Whether electors of client-go 0.36 ran, and no controller managers."""
        return any(it.get("kind") == "elector" for it in self.of("kcm-start"))

    def is_releasing(self):
        return any("--release-on-cancel=true" in it["flags"] for it in self.of("kcm-start"))

    def of(self, *whats):
        return [it for it in self.notes if it["what"] in whats]

    def signals(self, *names):
        return [it for it in self.of("kcm-signal") if it["sig"] in names]

    def is_stalled(self):
        """Whether a process was stopped and went on."""
        return bool(self.signals("SIGSTOP"))

    def is_said(self):
        return DOCUMENT_VERSION >= STALLS_VERSION or not self.is_stalled()

    def observed(self):
        """Events from the kubelets' start on: seconds, actor and text."""
        story = Story(self.log, self.identities, OPTIONS)
        return [(it.second - self.base, it.actor, it.text) for it in story.events if it.second >= self.base]

    def renewals(self):
        return [it for it in self.elections if it.verb in ("create", "update") and it.is_ok()]

    def takeover(self):
        """The first successful write by another controller than the first leader, None where there is none."""
        writes = self.renewals()
        return next((it for it in writes if it.user != writes[0].user), None)

    def late_ends(self):
        """Exits that were noted when everything ended: nobody had looked before, so they tell no instant."""
        return [it for it in self.of("kcm-exit") if it["at"] > self.end - LOOKED_SECONDS]
