"""Terms: where each begins, and where it ends, which no log says: that is inferred, in one of three ways."""
from .telling import Event

NEVER = float("inf")
QUIET_PERIODS = 3  # a process that was silent for so many retry periods before the log's end has ended


class Term:
    def __init__(self, holder, entry):
        self.holder, self.actor, self.began = holder, holder.name, entry.ended
        self.released, self.acted, self.acts = None, entry.ended, 0
        self.renew(entry)

    def renew(self, entry):
        self.asked, self.renewed = entry.received, entry.ended

    def act(self, entry):
        self.acted, self.acts = entry.ended, self.acts + 1

    def gave_up(self):
        return NEVER if self.released is None else self.released


class End:
    """What is known of a term's end: when the process was last heard of, and whether its watches told that."""

    def __init__(self, term, life, options, log_end):
        self.term, self.heard = term, life.heard
        self.is_gone = life.is_dead or life.heard < log_end - QUIET_PERIODS * options.retry_period
        self.promised = term.renewed + options.retry_period + options.renew_deadline
        self.second = self.by(options.terms)
        self.is_guessed = options.terms == "death" and self.second < log_end and not life.is_dead and term.released is None

    def by(self, way):
        """`promise`: its own deadline, or its release or death before; `evidence`: the same, but not before its last act; `death`: its release,
        else as long as it was heard of."""
        heard = self.heard if self.is_gone else NEVER
        if way == "death":
            return heard if self.term.released is None else max(self.term.released, self.term.acted)
        first = min(self.promised, heard, self.term.gave_up())
        return first if way == "promise" else max(first, self.term.acted)

    def event(self):
        is_crash = self.term.released is None and self.is_gone and self.heard < self.promised
        return Event(self.second, self.term.actor, "crash" if is_crash else "end")


def ends_of(terms, lifetimes, options, log_end):
    return [End(term, lifetimes.of(term, terms), options, log_end) for term in terms]
