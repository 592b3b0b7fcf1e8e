"""Whose rules a document goes by: those of the cluster's version, as Kubernetes was seen to do, or the project's own."""
from cluster_flags import Wrong
from cluster_told import few
from cluster_versions import BETWEEN, NEW, OLD

OWN, UPSTREAM_OLD, UPSTREAM_NEW = 'own', '1.20', '1.36'
CHOICES = (OWN, UPSTREAM_OLD, UPSTREAM_NEW)
NO_RELEASE = {'release': 'stop', 'inRelease': 'still'}  # as kube-controller-manager has it, unless a gate of 1.36 is on
# Each without and with ReleaseOnCancel.
KEYS = {
    OWN: ({}, {}),
    UPSTREAM_OLD: ({'rules': '1.20'}, {'rules': '1.20', 'release': 'own', 'inRelease': 'acts'}),
    UPSTREAM_NEW: ({'rules': '1.36', **NO_RELEASE}, {'rules': '1.36'}),
}
FIRST_SYNC, WAITS = 700, [1_600]
# With beats of at most so many milliseconds it can be said that looks at nodes come so much later each time.
SHORT_BEAT, LATER = 2, 2


def are(names):
    return '%s %s' % (few(names), 'is' if len(names) == 1 else 'are')


class Rules:
    def __init__(self, named, version, is_releasing=False):
        self.named, self.version, self.is_releasing = named, version, is_releasing
        self.name = named or (UPSTREAM_NEW if version.number >= NEW else UPSTREAM_OLD)
        if is_releasing and self.is_own():
            raise Wrong('--release-on-cancel: by --rules own leaders release at a stop alone')

    def is_own(self):
        return self.name == OWN

    def keys(self):
        return KEYS[self.name][self.is_releasing]

    def looks(self, beat, monitor, graces):
        """The period of looks and the graces of a real controller, whose looks come some milliseconds later each time, so that a grace that is a multiple of
        the period is passed one look sooner."""
        if self.is_own():
            return monitor, graces
        if beat <= SHORT_BEAT:
            return monitor + LATER, graces
        return monitor, [grace - 1 if grace % monitor == 0 and grace > 1 else grace for grace in graces]

    def known(self):
        if self.name == UPSTREAM_NEW:
            return 'read and run: client-go 0.36.4; nodes and pods: memory'
        return 'run: 1.20.2' if self.version.number == OLD else BETWEEN % self.version.text()

    def tell_tainted(self, told, tainted):
        """That the leader begins anew in the document, while the present one has counted on."""
        if tainted and not self.is_own():
            told.say('%s tainted already: the leader begins anew in the document, takes the taint off and on, and counts tolerations from then; the '
                     'present one counts on, so pods there go sooner than this says. --rules own counts from the taint' % are(tainted))

    def tell(self, told):
        if self.is_own():
            told.row('rules', OWN, '--rules own: those of this project', 'your words')
            return
        why = '--rules %s' % self.name if self.named else 'as Kubernetes %s was seen to do; --rules own for those of this project' % self.name
        told.row('rules', self.name, why, 'your words' if self.named else self.known())
        told.row('firstSyncMillis', FIRST_SYNC, 'by these rules, on a small plane; a large cluster takes seconds', 'run: 1.20.2')
        told.row('waits', WAITS[0], 'by these rules: the middle of what a candidate draws, 1,000 to 2,200', 'read in 1.20.2 and 0.36.4')
        if self.is_releasing:
            told.row('release at an end', 'by ' + ('a Get and an Update' if self.name == UPSTREAM_NEW else 'an Update'), '--release-on-cancel', 'your words')
        elif self.name == UPSTREAM_NEW:
            told.row('release at an end', 'none', 'a gate of 1.36 can turn it on: --release-on-cancel', 'changelog of 1.36')
