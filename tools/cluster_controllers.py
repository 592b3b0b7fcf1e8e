"""The controllers of a document: the hosts of the control plane, which of them leads, and on which node each runs."""
import re

from cluster_flags import Wrong
from cluster_told import few

MOST = 16
NAME = re.compile(r'(?=.{1,253}$)[a-z0-9]([a-z0-9-]*[a-z0-9])?(\.[a-z0-9]([a-z0-9-]*[a-z0-9])?)*')


def host_of(identity):
    """What stands before the last `_` of an identity, as a name."""
    return (identity.rpartition('_')[0] or identity).lower() if identity else None


def same_host(host, names):
    """The name that is this host's: the same one, else the only one that differs by a domain behind it."""
    if host in names:
        return host
    near = [name for name in names if name.startswith(host + '.') or host.startswith(name + '.')] if host else []
    return near[0] if len(near) == 1 else None


class Controllers:
    """The names, the leader first; who leads and why; and the node of each where it is known."""

    def __init__(self, named, found):
        self.identity, self.host, self.found = found.holder, host_of(found.holder), found
        self.named = bool(named)
        names = list(dict.fromkeys(named or found.control_plane))
        self.matched = same_host(self.host, names) if self.host else None
        self.added = bool(self.host) and not self.matched and not named
        names = [self.host] + names if self.added else names
        if not names:
            raise Wrong('no host of a control plane is in the list; name them: --controller NAME')
        self.holder = (self.matched or names[0]) if self.host else None
        self.all = sorted(names, key=lambda name: name != self.holder)
        self.names, self.leader = self.all[:MOST], self.all[0]
        wrong = [name for name in self.names if not NAME.fullmatch(name)]
        if wrong:
            raise Wrong('%s is no name that a controller of a document can have, which has lower-case letters, digits, - and .: '
                        '--controller NAME says another' % wrong[0])
        self.node = {name: same_host(name, list(found.zones)) for name in self.names}

    def leads_by(self):
        """Why the leader is taken for it, and how that is known."""
        if not self.host:
            return 'nobody holds the Lease of the list: the first one gets it', 'guess'
        if self.matched:
            also = '' if self.matched == self.host else ', by its name without the domain'
            return 'the Lease is held by %s%s' % (self.identity, also), 'list'
        if self.added:
            return 'the Lease is held by %s, whose host is no node of the control plane in the list' % self.identity, 'list'
        return 'the Lease is held by %s, which has none of these names: the first one was taken for it' % self.identity, 'guess'

    def tell(self, told, kills_leader):
        why, known = self.leads_by()
        found = 'nodes with the label of a control plane' + (', and the holder of the Lease' if self.added else '')
        told.row('controllers', ', '.join(self.names), *(('--controller', 'your words') if self.named else (found, 'list')))
        told.row('leader at first', self.leader, why, known)
        for name in self.names:
            known = ('the node of this name', 'guess') if self.node[name] else ('no node of the list has this name', 'list')
            told.row('node of ' + name, self.node[name] or 'not known', *known)
        told.row('clocks of controllers', 'exact', 'but for --clock; a list does not tell how fast they go', 'guess')
        if self.named and self.host:
            told.say('%s leads at first: %s' % (self.leader, why))
        if len(self.all) > MOST:
            told.say('a document has at most %d controllers: %s were left out' % (MOST, few(self.all[MOST:])))
        self.tell_alone(told, kills_leader)

    def tell_alone(self, told, kills_leader):
        """That nobody takes over from a controller, or that it isn't known who leads."""
        alone = len(self.names) == 1
        nobody = ', and with --kill-leader nobody takes over' if kills_leader else ''
        if alone and self.added:
            told.say('no node of the control plane is in the list, so the holder of the Lease, %s, is the one controller%s: '
                     'name the others too, --controller NAME' % (self.leader, nobody))
        elif alone and kills_leader:
            told.say('%s is the one controller%s' % (self.leader, nobody))
        elif kills_leader and not self.host:
            told.say('nobody holds the Lease of the list; --kill-leader kills %s, which gets it first' % self.leader)

    def tell_renewal(self, told, moment):
        """That the leader may be dead already, where its Lease wasn't renewed for longer than it lasts."""
        silent = moment.since_election()
        if self.host and silent is not None and silent > self.found.election_lease:
            told.say('the election Lease was last renewed %ds before the list and lasts %ds: %s leads on in the document, and may be dead; '
                     '--kill-leader @0s says that' % (silent, self.found.election_lease, self.leader))
