"""The moment of a list: what most of its nodes agree on.

Each node tells a time, the latest of its Lease's renewal and its heartbeat. The middle one of the nodes that are up is what most agree on; the moment
is the latest time in the list that is at most the duration of a node's Lease, 40 s, later. A node whose time is further off has another clock, or
is silent.
"""
import collections
import datetime
import statistics

from cluster_flags import Wrong
from cluster_list import ELECTION, NODE_LEASES, is_lease, part, ready_of
from cluster_told import counted

NODE_LEASE = 40
MOST_OFFSET = 31_536_000_000


def moment(text):
    read = datetime.datetime.fromisoformat(text.replace('Z', '+00:00'))
    return read if read.tzinfo else read.replace(tzinfo=datetime.timezone.utc)


def up_to_seconds(time):
    whole = time.astimezone(datetime.timezone.utc) + datetime.timedelta(microseconds=999_999)
    return whole.strftime('%Y-%m-%dT%H:%M:%SZ')


class Moment:
    def __init__(self, items, given, node_lease):
        self.nodes, self.leases = collections.defaultdict(list), {}
        self.apart = datetime.timedelta(seconds=node_lease or NODE_LEASE)
        self.silent, self.listed = set(), set()
        for item in items:
            self.take(item)
        self.latest = {node: max(times) for node, times in self.nodes.items()}
        up = {node: time for node, time in self.latest.items() if node not in self.silent and (node in self.listed or not self.listed)}
        self.middle, self.voters = statistics.median_low(up.values()) if up else None, len(up)
        self.ahead = {node: time for node, time in self.latest.items() if self.is_ahead(time)}
        self.leases_ahead = {name: time for name, time in self.leases.items() if self.is_ahead(time)}
        self.behind = [node for node, time in up.items() if time < self.middle - self.apart]
        self.given, self.epoch = given, given or self.agreed()
        try:
            self.start = moment(self.epoch)
        except ValueError:
            raise Wrong('--epoch %s: it is a time such as 2026-11-28T11:00:00Z' % given) from None

    def is_ahead(self, time):
        return self.middle is not None and time > self.middle + self.apart

    def take(self, item):
        name = part(item, 'metadata', 'name')
        time = part(item, 'spec', 'renewTime') if is_lease(item) else part(ready_of(item), 'lastHeartbeatTime') if item.get('kind') == 'Node' else None
        if item.get('kind') == 'Node':
            self.listed.add(name)
            self.silent.update([name] if part(ready_of(item), 'status') == 'Unknown' else [])
        if time and is_lease(item) and not is_lease(item, NODE_LEASES):
            self.leases['%s/%s' % (part(item, 'metadata', 'namespace'), name)] = moment(time)
        elif time:
            self.nodes[name].append(moment(time))

    def agreed(self):
        times = [*self.latest.values(), *self.leases.values()]
        return up_to_seconds(max((time for time in times if not self.is_ahead(time)), default=datetime.datetime.now(datetime.timezone.utc)))

    def since_election(self):
        """How many seconds before beat 0 the election Lease was renewed, or nothing where that isn't known."""
        renewed = self.leases.get('/'.join(ELECTION))
        return (self.start - renewed).total_seconds() if renewed else None

    def offset(self, time):
        """How far a clock is ahead at beat 0, in milliseconds, so that what it writes next is later than what it wrote last."""
        gap = (time - self.start) / datetime.timedelta(milliseconds=1)
        return min(MOST_OFFSET, max(0, int(gap) + 1))

    def offsets(self, controllers):
        """How far clocks are ahead: of kubelets by node, and of controllers by name, which have their node's clock, and whose leader renews the Lease."""
        kubelets = {node: self.offset(time) for node, time in self.ahead.items()}
        hosts = {name: kubelets[node] for name, node in controllers.node.items() if node in kubelets}
        election = self.leases_ahead.get('/'.join(ELECTION))
        if election and controllers.holder:
            hosts[controllers.holder] = self.offset(election)
        return kubelets, hosts

    def why(self):
        if self.given:
            return '--epoch'
        if self.middle is None:
            return 'no node is up: the latest renewal' if self.nodes or self.leases else 'no time is in the list: this moment'
        return 'the latest time up to %ds after the middle one, %s, of %s' % (
            self.apart.total_seconds(), self.middle.strftime('%H:%M:%S'), counted(self.voters, 'node'))

    def tell(self, told):
        told.row('epoch', self.epoch, self.why(), 'your words' if self.given else 'list' if self.nodes or self.leases else 'guess')
        for node, time in sorted(self.ahead.items()):
            why = 'what most nodes agree on is %ds earlier' % self.apart_from_most(time)
            told.row('clock of ' + node, '%d ms ahead' % self.offset(time), why, 'list')
        told.say_each(['the clock of %s is ahead of what most nodes agree on by %ds: that does not count for beat 0, and its kubelet has such a clock'
                       % (node, self.apart_from_most(time)) for node, time in sorted(self.ahead.items())])
        told.say_each(['the Lease %s was renewed later than most nodes agree on: that does not count for beat 0' % name
                       for name in sorted(self.leases_ahead)])
        told.say_each(['%s was last heard of %ds before most nodes: it is silent and not marked yet, or its clock is behind' % (
            node, self.apart_from_most(self.latest[node])) for node in sorted(self.behind)])

    def apart_from_most(self, time):
        return abs(time - self.middle).total_seconds()
