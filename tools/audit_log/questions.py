"""What a log can't answer, each as a sentence and as an exit status."""
from collections import Counter

UNANSWERED, NOT_TOLD_APART, NO_ELECTION = 3, 4, 5  # of these three the greatest is the exit status
SHOWN = 5  # names or user agents that a sentence has at most
ACTING = ("unknown", "taint", "swap", "untaint", "evict")


def listed(counts):
    """The most frequent ones, each with its number."""
    told = [f"{name or 'none'} ({number})" for name, number in counts.most_common(SHOWN)]
    return ", ".join(told) + (", .." if len(counts) > SHOWN else "")


class Questions:
    def __init__(self, log, identities, story, ends, options):
        self.log, self.identities, self.story, self.ends, self.options = log, identities, story, ends, options

    def unanswered(self):
        """Pairs of an exit status and a sentence."""
        for status, sentences in ((NO_ELECTION, self.who_leads()), (NOT_TOLD_APART, self.who_acts()), (UNANSWERED, self.what_they_did())):
            for sentence in sentences:
                yield status, sentence

    def who_leads(self):
        writes = [it for it in self.log.entries if self.identities.is_election_write(it)]
        unread = sum(not it.is_read for it in writes)
        if unread:
            yield (f"{unread} of {len(writes)} writes of the Lease {self.options.lease} can't be read: the audit level is Metadata, and has to be "
                   "RequestResponse")
        elif not self.story.terms:
            others = Counter(f"{it.namespace}/{it.name}" for it in self.log.entries
                             if it.resource == "leases" and it.verb in ("create", "update", "patch") and it.namespace != "kube-node-lease")
            others.pop(self.options.lease, None)
            found = f"; Leases that are written in it: {listed(others)} (--lease)" if others else ""
            yield f"nobody leads in this log: no accepted write of the Lease {self.options.lease} names a holder{found}"

    def who_acts(self):
        named = [(self.identities.holder_of(it), it) for it in self.log.entries]
        known = {holder for holder, it in named if holder and self.identities.is_controller(it)}
        strangers = Counter(it.agent for holder, it in named if holder and holder not in known)
        if strangers:
            yield f"user agents that write the Lease and don't match --controllers '{self.options.controllers}': {listed(strangers)}"
        for doubt in self.identities.doubts:
            yield f"controllers can't be told apart: {doubt}"

    def what_they_did(self):
        kept = {it.resource for it in self.log.entries}
        missing = [it for it in ("nodes", "pods") if it not in kept]
        if missing:
            yield (f"whether somebody acts who doesn't lead: the log has no entry of {' and '.join(missing)}. Then `audit ok` says that no two led "
                   "by their Leases and settings, and not that no two acted")
        guessed = [it.term.actor for it in self.ends if it.is_guessed]
        if guessed:
            yield (f"when the processes of {', '.join(guessed)} ended: the log has no watch of theirs that closed. Their ends are those of the last "
                   "requests of their clients, which may be another process's, and 41 may be wrong")
        for end in self.ends:
            if end.term.acted > end.second and not self.has_line_after(end):
                yield (f"whether {end.term.actor} acts outside its term: it does, {end.term.acted - end.second:.1f} s later, by writes that have no line in "
                       "a trace, so 42 isn't told. Take --terms evidence")

    def has_line_after(self, end):
        return any(it.actor == end.term.actor and it.second > end.second and it.text.split()[0] in ACTING for it in self.story.events)

    def notes(self):
        """What the lines of the trace leave open; no verdict but 43 hangs on it."""
        hidden = self.story.cluster.hidden
        if hidden:
            names = ", ".join(hidden[:SHOWN]) + (", .." if len(hidden) > SHOWN else "")
            yield f"{len(hidden)} nodes renew a Lease and the log never shows them, so zone lines leave them out: {names}"
        others = Counter(it.agent for it in self.log.entries if self.is_other_delete(it))
        if others:
            yield f"deletes of pods by user agents that don't match --evictors are no evictions: {listed(others)}"

    def is_other_delete(self, entry):
        return (entry.resource == "pods" and entry.verb == "delete" and entry.is_ok() and self.identities.is_controller(entry)
                and not self.identities.is_node_controller(entry))
