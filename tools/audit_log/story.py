"""What happened, as lines of a trace with exact seconds: each entry goes to the part that tells of its resource."""
from .cluster import Cluster
from .election import Election
from .nodes import Nodes
from .pods import Pods
from .telling import Telling
from .zones import Zones


class Story:
    def __init__(self, log, identities, options):
        self.identities, self.telling, self.cluster = identities, Telling(), Cluster(options.rates)
        self.election, self.zones = Election(identities, self.telling), Zones(self.cluster, self.telling)
        self.nodes, self.pods = Nodes(identities, self.cluster, self.telling), Pods(identities, self.cluster, self.telling)
        self.cluster.begin_with(log.entries)
        for entry in log.entries:
            self.take(entry)

    @property
    def events(self):
        return self.telling.events

    @property
    def passed(self):
        return self.telling.passed

    @property
    def terms(self):
        return self.election.terms

    def take(self, entry):
        if self.identities.is_act(entry):
            self.take_act(entry)
        if entry.verb in ("get", "watch", "list"):
            self.cluster.take_shown(entry)
        elif self.identities.is_election(entry):
            if self.election.take(entry):
                self.zones.tell(entry, self.leader())
        elif entry.resource == "leases":
            self.nodes.take_lease(entry)
        elif entry.verb == "deletecollection" or not entry.name:
            self.telling.leave_out(f"{entry.verb} of {entry.resource}")
        elif entry.resource == "nodes":
            self.take_node(entry)
        else:
            self.pods.take(entry, self.controller_of(entry))

    def take_act(self, entry):
        term = self.election.by_actor.get(self.identities.actor_of(entry))
        if term is not None:
            term.act(entry)

    def take_node(self, entry):
        actor = self.controller_of(entry)
        if self.nodes.take(entry, actor) and self.leader() and actor in (None, self.leader()):
            self.zones.tell(entry, self.leader())

    def leader(self):
        """Who began a term last."""
        return self.terms[-1].actor if self.terms else None

    def controller_of(self, entry):
        return self.identities.actor_of(entry) if self.identities.is_controller(entry) else None
