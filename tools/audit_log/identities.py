"""Who acts: holders of the election Lease, each under a name of a trace, and the client that each wrote by."""
import re
from collections import Counter

from .clients import WAYS, choose, doubts, host_of
from .roles import Roles


class Holder:
    def __init__(self, raw, entry, client):
        self.raw, self.client, self.first, self.name = raw, client, entry.received, None


class Identities(Roles):
    def __init__(self, log, options):
        super().__init__(options)
        self.by, self.against, self.doubts = (options.by, [], list(doubts(options.by, log, self))) if options.by else choose(log, self)
        self.by_raw = self.holders(log)
        starts = Counter()
        for holder in self.by_raw.values():
            name = self.name_of(holder)
            starts[name] += 1
            holder.name = f"{name}_{starts[name]}"

    def holders(self, log):
        """By identity, in the order of their first writes. Others write the Lease too, as an administrator does: a controller's own writes tell."""
        named = [it for it in log.entries if self.holder_of(it)]
        found = {}
        for entry in sorted(named, key=lambda it: not self.is_controller(it)):
            found.setdefault(self.holder_of(entry), Holder(self.holder_of(entry), entry, self.client_of(entry)))
        return dict(sorted(found.items(), key=lambda it: it[1].first))

    def name_of(self, holder):
        text = holder.client if self.by == "user" else host_of(holder.raw)
        return re.sub(r"[^a-z0-9]+", "-", text.lower()).strip("-") or "x"

    def client_of(self, entry):
        return WAYS[self.by](entry)

    def of_client(self, client):
        return [it for it in self.by_raw.values() if it.client == client]

    def holder_by(self, entry):
        """A request carries no identity: it is its client's latest one, or its first."""
        mine = self.of_client(self.client_of(entry))
        earlier = [it for it in mine if it.first <= entry.received]
        return (earlier or mine or [None])[-1 if earlier else 0]

    def actor_of(self, entry):
        holder = self.holder_by(entry)
        return holder.name if holder else None
