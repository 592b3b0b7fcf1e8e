"""The words of `kubectl replay`: its commands, kubectl's own flags, and what tools/from-cluster takes."""
import argparse
import collections

import cluster_flags

# What stands behind a command, the words of tools/from-cluster that say its event, and what is told of it.
Command = collections.namedtuple('Command', 'takes event told')
COMMANDS = {
    'margin': Command(None, None, 'how much room each lease leaves, and whether two can lead at once'),
    'bounds': Command(None, None, 'how long nobody leads after a crash, and when the pods of a dead node are gone: at least and at most'),
    'kill-leader': Command(None, '--kill-leader=@{at}', 'the controller that leads dies'),
    'kill-node': Command('NODE', '--kill={of}@{at}', 'the kubelet of a node dies'),
    'kill-zone': Command('ZONE', '--kill-zone={of}@{at}', 'the kubelets of a zone die (also REGION/ZONE), and the controllers there'),
    'freeze-leader': Command('TIME', '--stall=@{at}+{of}', 'the controller that leads stands still for so long, as 45s, and goes on'),
    'slow-network': Command('TIME', None, 'each request to the API server and each reply takes so long, as 2s'),
    'play': Command(None, None, 'opens the playground with this cluster'),
}
RUNS = [name for name in COMMANDS if name not in ('margin', 'bounds', 'play')]
KUBECTL = ('kubeconfig', 'context', 'cluster', 'user', 'server', 'token', 'as', 'as-group', 'as-uid', 'certificate-authority', 'client-certificate',
           'client-key', 'tls-server-name', 'cache-dir')
# The options of tools/from-cluster that are handed on, but for those of kube-controller-manager.
FACTS = {
    'kubernetes': ('VERSION', 'the version of the cluster, such as 1.36 (the newest of its kubelets)'),
    'from-manifest': ('FILE', "a manifest of kube-controller-manager, in place of its pods' flags"),
    'call-timeout': ('TIME', 'how long a call waits for its reply (by the version)'),
    'rules': ('RULES', "whose rules: 1.20, 1.36, or own for this project's (by the version)"),
    'beat': ('TIME', 'how long a beat is, 1ms to 1s (100ms)'),
    'epoch': ('TIME', 'the time of day at beat 0, instead of that of the list'),
}
TOLD = """What would happen to the cluster that kubectl points to?

%s

It asks the API server for lists of nodes, pods and Leases, and changes nothing. From these and from the flags of kube-controller-manager it makes
a document, as tools/from-cluster does, which kube_replay replays; the answer is that of kube_lens.
docs/kubectl.md tells more.
"""


def line(name, command):
    return '    kubectl replay %-22s %s' % ('%s %s' % (name, command.takes) if command.takes else name, command.told)


def parser():
    made = argparse.ArgumentParser(prog='kubectl replay', usage='kubectl replay COMMAND [NODE | ZONE | TIME] [--at TIME] [--for TIME] [--page FILE] [--document] [--json] ..',
                                   description=TOLD % '\n'.join(line(*each) for each in COMMANDS.items()), allow_abbrev=False,
                                   formatter_class=argparse.RawDescriptionHelpFormatter)
    made.add_argument('command', metavar='COMMAND', choices=COMMANDS, help='one of those above')
    made.add_argument('of', metavar='NODE | ZONE | TIME', nargs='?', help='which node or zone, or how long')
    made.add_argument('--at', metavar='TIME', help='when it happens (60s after the list)')
    made.add_argument('--for', dest='length', metavar='TIME', help='how long the run lasts (15m)')
    made.add_argument('--page', metavar='FILE', help='draws the run into a page for a browser')
    made.add_argument('--document', action='store_true', help='writes the document of kube_replay, and no answer')
    made.add_argument('--json', action='store_true', help='the answer as one JSON object')
    made.add_argument('--explain', action='store_true', help='on standard error each value that was taken, and how it is known')
    made.add_argument('--redact', action='store_true', help='numbers in place of all names')
    made.add_argument('--sets', action='store_true', help='alike pods are said by sets and have no names of their own; so it is anyway with more than 30,000')
    add_kubectl(made.add_argument_group('flags of kubectl'))
    add_facts(made.add_argument_group('what the lists do not tell'))
    return made


def add_kubectl(group):
    group.add_argument('-n', '--namespace', metavar='NAME', help='pods of this namespace alone; else those of all')
    group.add_argument('-A', '--all-namespaces', action='store_true', help='pods of all namespaces, as without it')
    group.add_argument('--chunk-size', type=int, default=500, metavar='NUMBER', help='how many items a piece of a list has; 0 is all at once (500)')
    group.add_argument('--request-timeout', default='30s', metavar='TIME', help='how long a piece may take; 0 is for ever (30s)')
    group.add_argument('--insecure-skip-tls-verify', action='store_true', help='handed on to kubectl, as the next ones are')
    for name in KUBECTL:
        group.add_argument('--' + name, metavar='VALUE', help=argparse.SUPPRESS if name.startswith(('as-', 'client-', 'tls-', 'cache-')) else "kubectl's own")


def add_facts(group):
    group.add_argument('--controller', action='append', default=[], metavar='NAME', help='a host of the control plane; instead of those found')
    group.add_argument('--clock', action='append', default=[], metavar='NAME=1.02', help="a controller's clock goes so fast")
    group.add_argument('--release-on-cancel', action='store_true', help='leaders give their Lease back whenever they end, as ReleaseOnCancel has them do')
    for name, (value, told) in FACTS.items():
        group.add_argument('--' + name, metavar=value, help=told)
    for flag, told in cluster_flags.told():
        group.add_argument(flag, metavar='VALUE', help=told)


def read(words):
    """The words, or help, or a usage error."""
    made = parser()
    if not words:
        made.print_help()
        made.exit(0)
    given = made.parse_intermixed_args(words)
    takes = COMMANDS[given.command].takes
    if takes and not given.of:
        made.error('%s takes a %s, as in kubectl replay %s %s' % (given.command, takes, given.command, {'TIME': '45s'}.get(takes, takes)))
    if given.of and not takes:
        made.error('%s takes no further word: %s' % (given.command, given.of))
    for name, value in (('--at', given.at), ('--page', given.page), ('--for', given.length)):
        if value is not None and given.command not in RUNS:
            made.error('%s takes no %s' % (given.command, name))
    if given.chunk_size < 0:
        made.error('--chunk-size is 0 or more')
    see_times(made, given)
    return given


def see_times(made, given):
    """Sees that times are some, before the cluster is asked."""
    times = [('--at', given.at), ('--for', given.length), (given.command, given.of if COMMANDS[given.command].takes == 'TIME' else None),
             ('--request-timeout', None if given.request_timeout == '0' else given.request_timeout)]
    for name, text in [each for each in times if each[1] is not None]:
        try:
            cluster_flags.millis(text, name)
        except cluster_flags.Wrong as fault:
            made.error(str(fault))


def value(given, name):
    return getattr(given, name.replace('-', '_'))


def kubectl_flags(given):
    """kubectl's own flags, as they are handed on to it."""
    flags = ['--%s=%s' % (name, value(given, name)) for name in KUBECTL if value(given, name) is not None]
    return flags + ['--insecure-skip-tls-verify'] * given.insecure_skip_tls_verify


def cluster_words(given):
    """The words of tools/from-cluster, but for --from-manifest, whose file may be another."""
    words = ['--%s=%s' % (name, each) for name in ('controller', 'clock') for each in value(given, name)]
    words += ['--release-on-cancel'] if given.release_on_cancel else []
    words += ['--%s=%s' % (name, value(given, name)) for name in FACTS if name != 'from-manifest' and value(given, name) is not None]
    words += ['%s=%s' % (flag, value(given, flag[2:])) for flag, _ in cluster_flags.told() if value(given, flag[2:]) is not None]
    words += ['--for=' + given.length] if given.length else []
    words += ['--explain'] * given.explain + ['--redact'] * given.redact
    event = COMMANDS[given.command].event
    return words + ([event.format(of=given.of, at=given.at or '60s')] if event else [])
