"""When a process was last heard of: its watches close when it dies, and else its last request tells."""
from collections import defaultdict, namedtuple

from .terms import NEVER

REOPENED_BEFORE, REOPENED_AFTER = 1, 5  # seconds around a watch's end in which another one of the same kind may take its place
Life = namedtuple("Life", "heard is_dead")


class Lifetimes:
    def __init__(self, log, identities):
        self.identities = identities
        self.requests, self.watches, self.opened = defaultdict(list), defaultdict(list), defaultdict(list)
        for entry in log.entries:
            if identities.is_controller(entry):
                self.requests[identities.client_of(entry)].append(entry)
                if entry.verb == "watch":
                    self.watches[identities.client_of(entry)].append(entry)
                    self.opened[identities.client_of(entry), entry.resource].append(entry.received)
        for entry in log.open_watches:
            self.opened[identities.client_of(entry), entry.resource].append(entry.received)

    def of(self, term, terms):
        """Until another process of its client writes the Lease, or it leads anew. Who renews later than a watch closes isn't dead."""
        holder = term.holder
        later = [it.first for it in self.identities.of_client(holder.client) if it.first > holder.first]
        until = min(later + [it.began for it in terms if it.holder is holder and it.began > term.began], default=NEVER)
        closed = [it.ended for it in self.watches[holder.client] if term.asked <= it.ended < until and not self.is_reopened(holder.client, it)]
        heard = [it.ended for it in self.requests[holder.client] if holder.first <= it.ended < until]
        return Life(max(closed or heard, default=holder.first), bool(closed))

    def is_reopened(self, client, watch):
        begins = self.opened[client, watch.resource]
        return any(watch.ended - REOPENED_BEFORE < it < watch.ended + REOPENED_AFTER and it > watch.received for it in begins)
