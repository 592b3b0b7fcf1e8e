"""The election by the writes of its Lease: who leads from when on, who renews, and who gives the Lease up."""
from .telling import answer
from .terms import Term


class Election:
    def __init__(self, identities, telling):
        self.identities, self.telling = identities, telling
        self.terms, self.by_actor = [], {}
        self.stored, self.stored_version = None, 0  # the term of whom the stored Lease names
        self.emptied = None  # the term of whom it named until somebody else took the name out, or the Lease away

    def take(self, entry):
        """Whether a term has begun."""
        raw, writer = self.identities.holder_of(entry), self.identities.holder_by(entry)
        if entry.verb == "delete":
            self.take_delete(entry)
        elif raw is None:
            self.telling.leave_out("election write that can't be read")
        elif writer is None or (raw and self.identities.by_raw[raw].client != writer.client):
            self.take_foreign(entry)
        elif raw:
            return self.take_own(entry, self.identities.by_raw[raw])
        else:
            self.take_release(entry, writer)
        return False

    def take_delete(self, entry):
        if entry.is_ok():
            self.stored_version += 1
            self.telling.tell(entry, "script", f"remove lease/{self.identities.options.lease} v={self.stored_version}")
            self.stored, self.emptied = None, self.stored

    def take_foreign(self, entry):
        """By somebody who is no controller, as an administrator: nobody renews by it or gives up."""
        if entry.is_ok():
            self.stored_version = entry.version
            self.telling.tell(entry, "script", f"put lease/{self.identities.options.lease} v={entry.version}")

    def take_own(self, entry, holder):
        if not entry.is_ok():
            self.tell_refusal(entry, holder.name)
            return False
        self.tell_update(entry, holder.name)
        known = self.by_actor.get(holder.name)
        if known is not None and known in (self.stored, self.emptied):
            known.renew(entry)
            self.stored, self.emptied = known, None
            return False
        if known is not None:
            self.telling.leave_out("a holder that takes the Lease again: it leads anew")
        self.stored, self.emptied = Term(holder, entry), None
        self.terms.append(self.stored)
        self.by_actor[holder.name] = self.stored
        self.telling.tell(entry, holder.name, f"lead v={entry.version}")
        return True

    def take_release(self, entry, writer):
        """An empty holder ends the term of whoever writes it. Of whose Lease that empties nothing follows: that one needn't know of it."""
        term = self.by_actor.get(writer.name)
        if term is not None:
            term.released = entry.ended
        if not entry.is_ok():
            self.tell_refusal(entry, writer.name)
            return
        self.tell_update(entry, writer.name)
        if self.stored is not term:
            self.emptied = self.stored
        self.stored = None

    def tell_update(self, entry, actor):
        self.stored_version = entry.version
        transitions = (entry.lease_spec() or {}).get("leaseTransitions") or 0
        self.telling.tell(entry, actor, f"{'create' if entry.verb == 'create' else 'update'} election v={entry.version} t={transitions}")

    def tell_refusal(self, entry, actor):
        if entry.verb == "create" and entry.code == 409:
            self.telling.tell(entry, actor, "create election exists")
        elif entry.verb != "create" and answer(entry, 0):
            self.telling.tell(entry, actor, f"update election {answer(entry, self.stored_version)}")
        else:
            self.telling.leave_out(f"election write answered {entry.code}")
