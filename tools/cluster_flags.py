"""The flags of kube-controller-manager that have a key among a document's settings, and their values."""
import collections
import re


class Wrong(Exception):
    """What the reader of the command line gets to see."""


UNITS = {'h': 3_600_000, 'm': 60_000, 's': 1_000, 'ms': 1}


def millis(text, flag):
    """A duration as Go writes it, such as 15s or 1m30s, in milliseconds."""
    if not re.fullmatch(r'(\d+(\.\d+)?(h|ms|m|s))+', text):
        raise Wrong('%s: %s is no duration such as 15s or 1m30s' % (flag, text or 'nothing'))
    return round(sum(float(number) * UNITS[unit] for number, unit in re.findall(r'([\d.]+)(h|ms|m|s)', text)))


def seconds(text, flag):
    whole = millis(text, flag)
    if whole % 1_000:
        raise Wrong('%s: %s is no whole number of seconds' % (flag, text))
    return whole // 1_000


def duration(count):
    """Milliseconds as Go takes a duration: 90000 is 1m30s."""
    parts = []
    for unit, size in UNITS.items():
        whole, count = divmod(count, size)
        parts += ['%d%s' % (whole, unit)] if whole else []
    return ''.join(parts) or '0s'


def share(scale):
    """A number, as so many parts of one."""
    def read(text, flag):
        try:
            value = float(text) * scale
        except ValueError:
            raise Wrong('%s: %s is no number' % (flag, text)) from None
        if abs(value - round(value)) > 1e-6:
            raise Wrong('%s: %s is finer than 1/%d' % (flag, text, scale))
        return round(value)
    return read


# The key of the settings, how a value is read, the default where it is one for all versions, and the least and the most that a document has.
Flag = collections.namedtuple('Flag', 'key read default least most')
LEASE, RENEW, RETRY = '--leader-elect-lease-duration', '--leader-elect-renew-deadline', '--leader-elect-retry-period'
PRIMARY, SECONDARY, GRACE = '--node-eviction-rate', '--secondary-node-eviction-rate', '--node-monitor-grace-period'
MONITOR, STARTUP = '--node-monitor-period', '--node-startup-grace-period'
FLAGS = {
    LEASE: Flag('leaseDurationSeconds', seconds, '15s', 1, 86_400),
    RENEW: Flag('renewDeadlineMillis', millis, '10s', 1, 86_400_000),
    RETRY: Flag('retryPeriodMillis', millis, '2s', 1, 86_400_000),
    MONITOR: Flag('monitorPeriodMillis', millis, '5s', 1, 604_800_000),
    GRACE: Flag('gracePeriodMillis', millis, None, 1, 604_800_000),
    STARTUP: Flag('startupGraceMillis', millis, '1m', 1, 604_800_000),
    PRIMARY: Flag('primaryRate', share(1_000), '0.1', 0, 1_000_000),
    SECONDARY: Flag('secondaryRate', share(1_000), '0.01', 0, 1_000_000),
    '--large-cluster-size-threshold': Flag('largeZone', share(1), '50', 0, 1_000_000),
    '--unhealthy-zone-threshold': Flag('unhealthyPercent', share(100), '0.55', 0, 100),
}


def value_of(flag, text, shown=None):
    """The value of a flag as its key has it."""
    shown, known = shown or flag, FLAGS[flag]
    value = known.read(text, shown)
    if not known.least <= value <= known.most:
        raise Wrong('%s: %s is out of the range that a document has: its %s is %d to %d' % (shown, text, known.key, known.least, known.most))
    return value


def told():
    return [(flag, 'as of kube-controller-manager (%s)' % (known.default or '50s from 1.32 on, 40s before')) for flag, known in FLAGS.items()]
