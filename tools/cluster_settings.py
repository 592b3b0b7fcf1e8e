"""The settings of a document: of flags, of a manifest, of the list, and what the version of the cluster has by default."""
import cluster_flags
import cluster_manifest
from cluster_flags import FLAGS, GRACE, LEASE, MONITOR, PRIMARY, RENEW, RETRY, SECONDARY, STARTUP, Wrong, duration, millis, value_of
from cluster_versions import Default

MOST_CALL = 600_000


class Given:
    """A flag's value, as it stands there, and where it is from."""

    def __init__(self, flag, text, why, known):
        self.value, self.text, self.why, self.known = value_of(flag, text), text, why, known
        self.is_default = False

    @classmethod
    def by_default(cls, flag, default):
        made = cls(flag, default.value, default.why, default.known)
        made.is_default = True
        return made


def known_default(flag, version):
    """The default of a flag for a version."""
    if flag == GRACE:
        return version.grace()
    election = flag in (LEASE, RENEW, RETRY)
    return Default(FLAGS[flag].default, 'default', 'read in 1.20.2 and 0.36.4' if election else 'read in 1.20.2; later: memory')


def flags_of(given, version, told):
    """Each flag's value: of the line, else of the manifest, else by default."""
    path, flags = given.from_manifest, {}
    manifest = cluster_manifest.flags_told(path, told) if path else {}
    for flag in FLAGS:
        text = getattr(given, flag[2:].replace('-', '_'))
        if text is not None:
            flags[flag] = Given(flag, text, flag, 'your words')
        elif flag in manifest:
            flags[flag] = Given(flag, manifest[flag].text, '%s, line %d' % (path, manifest[flag].line), 'manifest')
        else:
            flags[flag] = Given.by_default(flag, known_default(flag, version))
    see_rules(flags)
    return flags


def shown(flag, flags):
    one = flags[flag]
    return '%s=%s%s' % (flag, one.text, ' (its default)' if one.is_default else '' if one.why == flag else ' (%s)' % one.why)


def see_rules(flags):
    """The three rules between settings, which the program would refuse too."""
    lease, renew, retry = flags[LEASE].value * 1_000, flags[RENEW].value, flags[RETRY].value
    if lease <= renew:
        more = '%s=%ds' % (LEASE, -(-renew * 3 // 2_000))
        less = '%s=%s' % (RENEW, duration(lease * 2 // 3))
        refuse(flags, LEASE, 'has to be longer than', RENEW, more, less)
    if 5 * renew <= 6 * retry:
        more, less = '%s=%s' % (RENEW, duration(5 * retry)), '%s=%s' % (RETRY, duration(max(1, renew // 5)))
        refuse(flags, RENEW, 'has to be over six fifths of', RETRY, more, less)
    if flags[SECONDARY].value > flags[PRIMARY].value:
        refuse(flags, PRIMARY, 'has to be at least', SECONDARY, '%s=%s' % (PRIMARY, flags[SECONDARY].text), '%s=%s' % (SECONDARY, flags[PRIMARY].text))


def refuse(flags, great, has_to, small, more, less):
    """Says which rule is broken and what would mend it, first by the flag that nobody gave."""
    first, second = (less, more) if flags[small].is_default and not flags[great].is_default else (more, less)
    other = ', as kube-controller-manager refuses to start with them' if great != PRIMARY else ''
    raise Wrong('%s %s %s: a document of these is refused%s; %s would mend it, or %s' % (
        shown(great, flags), has_to, shown(small, flags), other, first, second))


def settings_of(given, found, moment, version, rules, beat, told):
    """The settings, and the grace by the flags. Flags that nobody gave are left to the program, which has the same defaults, but for the grace."""
    flags = flags_of(given, version, told)
    renew = flags[RENEW].value
    timeout, fast = version.call_timeout(renew), version.fast_renew()
    settings = {'beatMillis': beat, 'epoch': moment.epoch, 'endBeat': millis(given.length, '--for') // beat}
    if found.node_lease:
        settings['nodeLeaseDurationSeconds'] = found.node_lease
    settings.update({FLAGS[flag].key: each.value for flag, each in flags.items() if flag == GRACE or not each.is_default})
    settings['callTimeoutMillis'] = millis(given.call_timeout, '--call-timeout') if given.call_timeout else timeout.value
    if not 1 <= settings['callTimeoutMillis'] <= MOST_CALL:
        raise Wrong('calls would wait %s, and a document has 1ms to 10m: --call-timeout TIME' % duration(settings['callTimeoutMillis']))
    settings['fastRenew'] = fast.value
    settings.update(rules.keys())
    sliding = looks_of(rules, flags, beat)
    settings.update({FLAGS[flag].key: value for flag, value in sliding.items()})
    tell_flags(flags, sliding, told)
    told.row('callTimeoutMillis', settings['callTimeoutMillis'], *(('--call-timeout', 'your words') if given.call_timeout else timeout[1:]))
    told.row('fastRenew', str(fast.value).lower(), *fast[1:])
    rules.tell(told)
    tell_rest(given, found, settings, told)
    return settings, flags[GRACE].value


def looks_of(rules, flags, beat):
    """The period of looks and the graces as these rules have them, where they differ from the flags."""
    names = (MONITOR, GRACE, STARTUP)
    monitor, graces = rules.looks(beat, flags[MONITOR].value, [flags[name].value for name in names[1:]])
    return {name: value for name, value in zip(names, (monitor, *graces)) if value != flags[name].value}


def tell_flags(flags, sliding, told):
    for flag, each in flags.items():
        more = ', and %+d ms: looks come later each time' % (sliding[flag] - each.value) if flag in sliding else ''
        told.row(FLAGS[flag].key, sliding.get(flag, each.value), each.why + more, each.known)


def tell_rest(given, found, settings, told):
    known = ("the nodes' Leases", 'list') if found.node_lease else ("default of a kubelet: the nodes' Leases do not agree", 'read in 1.32')
    told.row('nodeLeaseDurationSeconds', found.node_lease or 40, *known)
    told.row('restartMillis', 1_000, 'default of a document: when a controller comes back after an end', 'guess')
    told.row('a message', '1 beat', 'a list tells no delays', 'guess')
    told.row('beatMillis', settings['beatMillis'], '--beat', 'your words' if given.beat != '100ms' else 'default')
    told.row('endBeat', settings['endBeat'], '--for %s' % given.length, 'your words' if given.length != '15m' else 'default')
