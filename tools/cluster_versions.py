"""What the version of a cluster changes in its document, and how that is known.

The two versions that were looked at are Kubernetes 1.20.2, whose own code was run, and client-go 0.36.4, which is that of Kubernetes 1.36.
"""
import collections
import re

from cluster_flags import Wrong, duration
from cluster_told import counted, few

OLD, LONGER_GRACE, NEW = (1, 20), (1, 32), (1, 36)
# What stands in a document in place of a flag, why, and how that is known.
Default = collections.namedtuple('Default', 'value why known')
BETWEEN = 'not verified for %s'


def number_of(text):
    """1.36 or v1.36.2, also with what a distribution adds, as (1, 36)."""
    found = re.fullmatch(r'v?(\d+)\.(\d+)(\.\d+)?([+-].*)?', text)
    return (int(found[1]), int(found[2])) if found else None


class Version:
    """The version of a cluster: the one that is named, else the newest of its kubelets, else 1.20."""

    def __init__(self, named, kubelets):
        self.kubelets = collections.Counter(text for text in kubelets if text and number_of(text))
        numbers = {number_of(text) for text in self.kubelets}
        self.mixed = not named and len(numbers) > 1
        self.number = number_of(named) if named else max(numbers, default=None)
        if named and not self.number:
            raise Wrong('--kubernetes %s: it is a version such as 1.36 or v1.36.2' % named)
        self.named, self.known = named, self.number is not None
        self.number = self.number or OLD

    def text(self):
        return '%d.%d' % self.number

    def why(self):
        if self.named:
            return '--kubernetes %s' % self.named
        if not self.known:
            return 'neither --kubernetes nor a version of a kubelet says it'
        each = few(['%s on %s' % (text, counted(count, 'node')) for text, count in self.kubelets.items()])
        return "kubelets: %s; %s" % (each, 'the newest, since a control plane is at least as new' if self.mixed else 'the control plane may be newer')

    def grace(self):
        if self.number >= LONGER_GRACE:
            return Default('50s', 'default from 1.32 on', 'changelog of 1.32' if self.number <= NEW else BETWEEN % self.text())
        known = 'read in 1.20.2' if self.number == OLD else 'changelog of 1.32' if self.number > OLD else BETWEEN % self.text()
        return Default('40s', 'default up to 1.31', known)

    def call_timeout(self, renew):
        """How long a call waits, in milliseconds, for a renew deadline."""
        if self.number >= NEW:
            known = 'read in client-go 0.36.4; its use: memory' if self.number == NEW else BETWEEN % self.text()
            return Default(max(1_000, (renew + 1) // 2), 'half the renew deadline, at least 1s (NewFromKubeconfig)', known)
        if self.number == OLD:
            return Default(renew, 'the renew deadline', 'run: 1.20.2')
        return Default(renew, 'the renew deadline as in 1.20; 1.36 waits half', BETWEEN % self.text())

    def fast_renew(self):
        if self.number >= NEW:
            return Default(True, 'a leader renews without a Get', 'run: client-go 0.36.4' if self.number == NEW else BETWEEN % self.text())
        if self.number == OLD:
            return Default(False, 'a leader renews by a Get and an Update', 'run: 1.20.2')
        return Default(False, 'a Get and an Update as in 1.20; 1.36 has no Get', BETWEEN % self.text())

    def unverified(self):
        if self.number in (OLD, NEW):
            return ''
        return ' not verified %s' % ('between 1.20 and 1.36' if OLD < self.number < NEW else 'for ' + self.text())

    def tell(self, told, settings, grace, rules):
        """`grace` is that of the flags, `rules` the word for those of the document, or nothing for the project's own."""
        told.row('Kubernetes', self.text(), self.why(), 'your words' if self.named else 'list' if self.known else 'guess')
        taken = ['grace %s' % duration(grace), 'calls wait %s' % duration(settings['callTimeoutMillis']),
                 'fastRenew %s' % ('on' if settings['fastRenew'] else 'off'), *(['rules %s' % rules] if rules else [])]
        unverified = self.unverified() and '; the last %s are%s' % ('three' if rules else 'two', self.unverified())
        told.say('Kubernetes %s (%s)%s: %s%s' % (self.text(), self.why(), '' if self.named else '; --kubernetes says another', ', '.join(taken), unverified))
        if self.mixed:
            told.say('the kubelets have several versions, and a list does not tell that of the control plane: the newest was taken')
