"""The entries of audit logs (audit.k8s.io/v1, a JSON object a line) that tell of leases, nodes and pods."""
import gzip
import json
import re
from collections import Counter
from datetime import datetime, timezone

RESOURCES = ("leases", "nodes", "pods")
OK = (200, 201)


def seconds_of(text):
    """Seconds since 1970 of an RFC 3339 time in UTC, to the microsecond."""
    found = re.fullmatch(r"(\d+)-(\d+)-(\d+)T(\d+):(\d+):(\d+)(?:\.(\d+))?Z", text)
    if not found:
        raise ValueError(f"{text} is no RFC 3339 time in UTC")
    whole = datetime(*(int(it) for it in found.groups()[:6]), tzinfo=timezone.utc).timestamp()
    return whole + int(((found[7] or "") + "000000")[:6]) / 1e6


def time_of(seconds):
    return datetime.fromtimestamp(int(seconds), timezone.utc).strftime("%Y-%m-%dT%H:%M:%SZ")


def version_of(thing):
    """A resource version as a number, 0 where there is none."""
    text = ((thing or {}).get("metadata") or {}).get("resourceVersion") or ""
    return int(text) if re.fullmatch(r"\d{1,19}", text) else 0


class Entry:
    """One answered request."""

    def __init__(self, event):
        reference = event["objectRef"]
        self.id = event.get("auditID"), event.get("stage")
        self.stage, self.verb = event.get("stage"), event.get("verb")
        self.resource, self.subresource = reference.get("resource"), reference.get("subresource")
        self.is_read = event.get("requestObject") is not None or event.get("responseObject") is not None
        self.request, self.response = (it if isinstance(it, dict) else {} for it in (event.get("requestObject"), event.get("responseObject")))
        names = (reference, self.request.get("metadata") or {}, self.response.get("metadata") or {})
        self.namespace = next((it["namespace"] for it in names if it.get("namespace")), None)
        self.name = next((it["name"] for it in names if it.get("name")), None)
        self.received = seconds_of(event["requestReceivedTimestamp"])
        self.ended = seconds_of(event["stageTimestamp"])
        self.code = (event.get("responseStatus") or {}).get("code", 0)
        self.user = (event.get("user") or {}).get("username", "")
        self.address = ",".join(event.get("sourceIPs") or [])
        self.agent = event.get("userAgent") or ""
        self.version = version_of(self.response)

    def is_ok(self):
        return self.code in OK

    def spec(self, of_response=False):
        return (self.response if of_response else self.request).get("spec") or {}

    def lease_spec(self):
        """The spec as it is stored, else as it was sent; None where the log has neither."""
        is_stored = self.is_ok() and "spec" in self.response
        return self.spec(is_stored) if is_stored or "spec" in self.request else None

    def shown(self):
        """The objects of its resource that the answer shows."""
        if not self.is_ok():
            return []
        if self.verb == "list":
            return self.response.get("items") or []
        return [self.response] if self.response.get("kind") in ("Node", "Pod") and not self.is_deletion() else []

    def is_deletion(self):
        return self.verb in ("delete", "deletecollection")


class Log:
    """The entries of all logs by the time of the answer, and what was passed over."""

    def __init__(self, since=None, until=None):
        self.entries, self.open_watches, self.passed, self.seen = [], [], Counter(), set()
        self.since, self.until = since, until

    def read(self, path):
        with gzip.open(path, "rt", encoding="utf-8") if path.endswith(".gz") else open(path, encoding="utf-8") as lines:
            for line in lines:
                self.take(line)

    def take(self, line):
        try:
            event = json.loads(line)
            if (event.get("objectRef") or {}).get("resource") not in RESOURCES:
                return
            entry = Entry(event)
        except (ValueError, KeyError, TypeError, AttributeError):
            self.passed["line that is no audit event"] += bool(line.strip())
            return
        if entry.id in self.seen:
            return
        self.seen.add(entry.id)
        if entry.stage == "ResponseStarted" and entry.verb == "watch":
            self.open_watches.append(entry)
        elif entry.stage == "ResponseComplete" and self.is_within(entry.ended):
            self.entries.append(entry)

    def is_within(self, second):
        return (self.since is None or second >= self.since) and (self.until is None or second <= self.until)

    def sort(self):
        self.entries.sort(key=lambda it: (it.ended, it.version))
