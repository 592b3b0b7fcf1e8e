#!/usr/bin/env python3
"""Makes documents of the lists in tools/data, which have kubectl's own shape, and looks at what is in them and how they run.

    python3 tools/test/test_from_cluster.py [--program COMMAND] [--lens COMMAND] [--large]

COMMAND is the program, and kube_lens, by default the built ones. The step for CI that stands in docs/lens-margin.md is run as it stands there. --large
makes a document of a list of 150,000 pods of 6 KB each too, which takes minutes, and looks at how much memory that takes. The exit status is 1 where
anything differs.
"""
import argparse
import collections
import io
import itertools
import json
import os
import random
import re
import shlex
import subprocess
import sys
import tempfile

from places import HERE, TOOLS, TOP, built

import cluster_sets
import cluster_stream

LENS = built('kube_lens')
LIST = os.path.join(TOOLS, 'data', 'cluster.json')
MANIFEST = os.path.join(TOOLS, 'data', 'kube-controller-manager.yaml')
# Manifests in each form in which the flags are read, with words in the place of the three values; and those in which one can't be read, whose first
# line has what is said.
READ, UNREAD = os.path.join(HERE, 'data', 'manifests', 'read'), os.path.join(HERE, 'data', 'manifests', 'unread')
faults = []


def same(what, found, wanted):
    if found != wanted:
        faults.append(what)
        print('DIFFERS %s: found %.600r, wanted %.600r' % (what, found, wanted))


def has(what, text, *parts):
    same(what + ' has the words', [part for part in parts if part not in text], [])


def make(*words, given=None):
    with open(LIST) as file:
        text = file.read() if given is None else given
    done = subprocess.run([os.path.join(TOOLS, 'from-cluster'), *words], input=text, stdout=subprocess.PIPE, stderr=subprocess.PIPE, text=True)
    return done


def document(*words, given=None):
    return json.loads(make(*words, given=given).stdout)


def changed(change):
    """The list, after a change of its items by name and kind."""
    with open(LIST) as file:
        listed = json.load(file)
    items = {(item['kind'], item['metadata'].get('namespace', ''), item['metadata']['name']): item for item in listed['items']}
    change(items)
    return json.dumps({'kind': 'List', 'items': list(items.values())})


def lines(program, command, made):
    done = subprocess.run([*shlex.split(program), command], input=json.dumps(made), stdout=subprocess.PIPE, text=True)
    return done.stdout.splitlines()


def test_document():
    """Epoch, end, kubelets, controllers with the leader first, and no field that isn't read."""
    made = document()
    settings = made['settings']
    same('epoch: the latest renewal is 10:59:59.120034', settings['epoch'], '2026-11-28T11:00:00Z')
    same('a quarter of an hour', settings['endBeat'] * settings['beatMillis'], 900_000)
    same('the leader first', [each['name'] for each in made['controllers']], ['cp-2', 'cp-1', 'cp-3'])
    same('a kubelet for each node; of the silent one down', [each['node'] for each in made['kubelets'] if each.get('up') is False], ['worker-4'])
    same('seven kubelets', len(made['kubelets']), 7)
    text = json.dumps(made)
    same('nothing else is kept', [word for word in ('managedFields', 'uid', 'containers', 'TOKEN', 'kube-scheduler') if word in text], [])
    same('the holder leads on', holder(made), 'cp-2_1')


def holder(made):
    return [item['spec'].get('holderIdentity') for item in made['objects']['items'] if item['metadata']['name'] == 'kube-controller-manager'][0]


def test_flags():
    """Upstream's flags, on the line and in a manifest; the line goes first."""
    words = ('--from-manifest', MANIFEST, '--node-eviction-rate=0.3', '--unhealthy-zone-threshold', '0.6', '--for', '1h', '--beat', '500ms')
    made = document('--rules=own', *words)['settings']
    wanted = {'leaseDurationSeconds': 30, 'renewDeadlineMillis': 20_000, 'retryPeriodMillis': 4_000, 'gracePeriodMillis': 50_000, 'primaryRate': 300,
              'unhealthyPercent': 60, 'callTimeoutMillis': 20_000, 'endBeat': 7_200, 'beatMillis': 500}
    same('flags', {key: made[key] for key in wanted}, wanted)
    same('a call timeout of its own', document('--call-timeout', '2s')['settings']['callTimeoutMillis'], 2_000)


def with_versions(*versions):
    """The list with these versions of its kubelets, one after the other, and the last for all others."""
    def change(items):
        nodes = [item for key, item in items.items() if key[0] == 'Node']
        for place, node in enumerate(nodes):
            node['status']['nodeInfo']['kubeletVersion'] = versions[min(place, len(versions) - 1)]
    return changed(change)


def test_versions():
    """Grace, call timeout and fast renewal by version: 40 s, a renew deadline, none in 1.20.2; 50 s, half of it, on in 1.36; 50 s since 1.32."""
    keys = ('gracePeriodMillis', 'callTimeoutMillis', 'fastRenew')
    for words, given, wanted in (
            (('--kubernetes', '1.20'), None, (40_000, 10_000, False)), (('--kubernetes=v1.20.2',), None, (40_000, 10_000, False)),
            (('--kubernetes', '1.36'), None, (50_000, 5_000, True)), (('--kubernetes', 'v1.36.2'), None, (50_000, 5_000, True)),
            (('--kubernetes', '1.31'), None, (40_000, 10_000, False)), (('--kubernetes', '1.32'), None, (50_000, 10_000, False)),
            ((), None, (40_000, 10_000, False)), ((), with_versions('v1.36.4'), (50_000, 5_000, True)), ((), with_versions('v1.32.1+k3s1'), (50_000, 10_000, False)),
            ((), with_versions('v1.30.2', 'v1.36.4', 'v1.31.4-eks-5ca49cb'), (50_000, 5_000, True)), ((), with_versions('kwok-v0.6.0'), (40_000, 10_000, False)),
            (('--kubernetes', '1.20'), with_versions('v1.36.4'), (40_000, 10_000, False)),
            (('--kubernetes=1.36', '--leader-elect-renew-deadline=1500ms', '--leader-elect-retry-period=1s'), None, (50_000, 1_000, True)),
            (('--kubernetes=1.36', '--node-monitor-grace-period=30s', '--call-timeout=3s'), None, (30_000, 3_000, True))):
        made = document('--rules=own', *words, given=given)['settings']
        same('by version %s' % (words,), tuple(made[key] for key in keys), wanted)
    has('which was taken', make().stderr, 'Kubernetes 1.31 (kubelets: v1.31.4 on 7 nodes', '--kubernetes says another', 'not verified between 1.20 and 1.36')
    has('of several', make(given=with_versions('v1.30.2', 'v1.36.4', 'v1.31.4')).stderr, 'Kubernetes 1.36 (kubelets: v1.30.2 on 1 node, v1.31.4 on 5 nodes, v1.36.4 on 1 node',
        'does not tell that of the control plane: the newest was taken')
    has('of none', make(given=with_versions('kwok-v0.6.0')).stderr, 'Kubernetes 1.20 (neither --kubernetes nor a version of a kubelet says it)')
    same('nothing to verify', 'not verified' in make('--kubernetes', '1.36').stderr, False)


def test_explain():
    """A table on standard error of each value that was taken, while the document is the same."""
    words = ('--kubernetes=1.36', '--rules=1.20', '--from-manifest', MANIFEST, '--for=10m')
    plain, told = make(*words), make(*words, '--explain')
    same('the same document', told.stdout, plain.stdout)
    same('what is said without it stays', told.stderr.startswith(plain.stderr), True)
    table = [re.split(r' {3,}', line) for line in told.stderr[len(plain.stderr):].splitlines()]
    same('four columns', {len(row) for row in table}, {4})
    rows = {row[0]: row[1:] for row in table}
    made = json.loads(plain.stdout)
    same('every setting', [(key, rows[key][0]) for key, value in made['settings'].items() if rows[key][0].lower() != str(value).lower()], [])
    for what, wanted in (('gracePeriodMillis', ['49999', MANIFEST + ', line 18, and -1 ms: looks come later each time', 'manifest']), ('leader at first', ['cp-2', 'the Lease is held by cp-2_5c0f9a52-6a3f-4c3e-8e4d-2b1a0d9c7f11', 'list']),
                         ('node of cp-3', ['cp-3', 'the node of this name', 'guess']), ('Kubernetes', ['1.36', '--kubernetes 1.36', 'your words']),
                         ('fastRenew', ['true', 'a leader renews without a Get', 'run: client-go 0.36.4']), ('endBeat', ['6000', '--for 10m', 'your words'])):
        same('row ' + what, rows.get(what), wanted)
    default = {line.split('   ')[0]: line for line in make('--kubernetes=1.32', '--explain').stderr.splitlines()}
    has('how a grace is known', default['gracePeriodMillis'], '49999', 'changelog of 1.32')
    has('how rules are known', default['rules'], '1.20', 'not verified for 1.32')
    has('how a call timeout is known', default['callTimeoutMillis'], '10000', 'not verified for 1.32')


def test_controllers():
    """The Lease's holder and the named controllers: by name, by name without a domain, else the first one named."""
    for names, wanted in ((('a', 'b'), (['a', 'b'], 'a_1')), (('cp-1', 'cp-2'), (['cp-2', 'cp-1'], 'cp-2_1')),
                          (('x', 'cp-2.example.org'), (['cp-2.example.org', 'x'], 'cp-2.example.org_1')), (('cp-20', 'cp-2x'), (['cp-20', 'cp-2x'], 'cp-20_1'))):
        words = [word for name in names for word in ('--controller', name)]
        made = document(*words)
        same('controllers %s' % (names,), ([each['name'] for each in made['controllers']], holder(made)), wanted)
        has('told how', make(*words).stderr, '%s leads at first: the Lease is held by cp-2_5c0f9a52' % wanted[0][0])
    test_holder()


def test_holder():
    """A holder by another form of its name, on a host that isn't in the list, and none."""
    def domain(items):
        items['Lease', 'kube-system', 'kube-controller-manager']['spec']['holderIdentity'] = 'CP-2.example.org_1b2c'
    made = document(given=changed(domain))
    same('no controller twice', ([each['name'] for each in made['controllers']], holder(made)), (['cp-2', 'cp-1', 'cp-3'], 'cp-2_1'))

    def elsewhere(items):
        for name in ('cp-1', 'cp-2', 'cp-3'):
            del items['Node', '', name]
    said = make('--kill-leader', '@60s', given=changed(elsewhere)).stderr
    has('one controller alone', said, 'the holder of the Lease, cp-2, is the one controller, and with --kill-leader nobody takes over: name the others too, --controller NAME')

    def silent(items):
        items['Lease', 'kube-system', 'kube-controller-manager']['spec']['renewTime'] = '2026-11-28T10:59:30.000000Z'
    has('a leader that may be dead', make(given=changed(silent)).stderr, 'last renewed 30s before the list and lasts 15s: cp-2 leads on in the document, and may be dead')
    same('one that renewed', 'may be dead' in make().stderr, False)

    def nobody(items):
        items['Lease', 'kube-system', 'kube-controller-manager']['spec']['holderIdentity'] = ''
    has('no holder', make('--kill-leader', '@60s', given=changed(nobody)).stderr, 'nobody holds the Lease of the list; --kill-leader kills cp-1')


def ahead(*names, election=False):
    """The list, where the clocks of some hosts are five minutes ahead; with the leader's, so are the taints that it stamped."""
    def change(items):
        keys = [('Lease', 'kube-node-lease', name) for name in names] + [('Lease', 'kube-system', 'kube-controller-manager')] * election
        for key in keys:
            spec = items[key]['spec']
            spec['renewTime'] = spec['renewTime'].replace('T10:59:', 'T11:04:')
        for taint in items['Node', '', 'worker-4']['spec']['taints'] if election else []:
            taint['timeAdded'] = '2026-11-28T11:03:05Z'
    return changed(change)


def test_moment(program):
    """A clock that is five minutes ahead moves neither the epoch nor an eviction, and its node isn't taken for silent; its name is told."""
    plain = document()
    for names, election in ((('worker-2',), False), (('worker-1', 'cp-3'), False), (('cp-2',), True)):
        given = ahead(*names, election=election)
        made, said = document('--rules=own', given=given), make('--rules=own', given=given).stderr
        same('epoch beside %s' % (names,), made['settings']['epoch'], plain['settings']['epoch'])
        told = {name: int(seconds) for name, seconds in re.findall(r'the clock of (\S+) is ahead of what most nodes agree on by (\d+)s', said)}
        same('outliers, within the ten seconds between two renewals', sorted(name for name, seconds in told.items() if abs(seconds - 300) < 10), sorted(names))
        trace = lines(program, 'replay', made)
        same('marked', [line for line in trace if ' unknown ' in line], [])
        # The leader's clock is known to within the 2 s between two of its renewals.
        gone = [line.split() for line in trace if ' evict ' in line]
        same('evicted', [words[3] for words in gone if 0 <= int(words[0]) - 1850 <= 20 * election], ['default/batch-z1-8vwlq', 'default/web-7d4b9c6f5-pz6rt'])
    same('the controller of that host has its clock', 290_000 < made['controllers'][0]['offsetMillis'] < 300_000, True)
    same('--epoch goes first', document('--epoch', '2026-11-28T11:00:30Z')['settings']['epoch'], '2026-11-28T11:00:30Z')

    def behind(items):
        items['Lease', 'kube-node-lease', 'worker-3']['spec']['renewTime'] = '2026-11-28T10:54:00.000000Z'
        items['Node', '', 'worker-3']['status']['conditions'][-1]['lastHeartbeatTime'] = '2026-11-28T10:54:00Z'
    said = make('--rules=own', given=changed(behind)).stderr
    # The middle one of six, of the two in the middle the first, is 10:59:51.6.
    has('one that is behind', said, 'worker-3 was last heard of 351s before most nodes')
    same('one that is known to be silent', 'worker-4' in said, False)


def test_comparisons(program):
    """Tolerations that compare numbers are left out, and counted."""
    def change(items):
        for name, operators in (('cart-5f6d8b7c9-h4t2n', ('Lt', 'Gt')), ('db-0', ('Lt',))):
            items['Pod', 'default', name]['spec']['tolerations'] += [{'key': 'example.com/sla', 'operator': each, 'value': '950', 'effect': 'NoExecute'} for each in operators]
    made, said = document(given=changed(change)), make(given=changed(change)).stderr
    has('counted', said, '3 tolerations of 2 pods left out: the operator is Lt or Gt')
    same('all else is the same', made, document())
    same('taken', [line.split()[0] for line in lines(program, 'check', made)], ['ok'])


def test_events():
    made = document('--kill', 'worker-1@60s', '--kill-zone', 'eu-1b@1m30s', '--kill-leader', '@10s', '--clock', 'cp-1=1.02')
    same('events', [(event['beat'], event['process']) for event in made['events']],
         [(100, 'cp-2'), (600, 'kubelet/worker-1'), (900, 'kubelet/cp-2'), (900, 'kubelet/worker-3'), (900, 'kubelet/worker-4'), (900, 'cp-2')])
    same('a clock', [each.get('ratePpm') for each in made['controllers']], [None, 1_020_000, None])
    same('a zone with its region', [event['process'] for event in document('--kill-zone', 'eu-1/eu-1c@5s')['events']], ['kubelet/cp-3', 'cp-3'])


def test_hosts():
    """A controller of a zone dies with it where its node is known, which is told; of a host whose kubelet alone dies it goes on, which is told too."""
    has('told of the zone', make('--kill-zone', 'eu-1b@60s').stderr, '--kill-zone eu-1b@60s kills cp-2 too, whose node is in it')
    words = ('--controller', 'a', '--controller', 'cp-3')
    same('of hosts that are not known', [event['process'] for event in document(*words, '--kill-zone', 'eu-1c@5s')['events']], ['kubelet/cp-3', 'cp-3'])
    has('told of these', make(*words, '--kill-zone', 'eu-1c@5s').stderr, 'where a runs is not known, so it goes on')
    has('told of the leader', make('--kill', 'cp-2@60s').stderr, 'the controller cp-2 goes on where only the kubelet of its host dies; --kill-leader')
    same('nothing of others', 'goes on' in make('--kill', 'worker-1@60s', '--kill-leader', '@60s').stderr, False)


def test_stalls():
    """A controller or a kubelet that is frozen: by the own rules a document of version 3, whose events are in the order of their beats."""
    made = document('--rules=own', '--stall', 'cp-1@60s+45s', '--stall', 'worker-1@10s+1m30s', '--stall', 'kubelet/cp-2@20s+2s', '--stall', '@2m+1s', '--kill', 'worker-3@30s')
    same('stalls', [(event['beat'], event['type'], event['process'], event.get('beats')) for event in made['events']],
         [(100, 'pause', 'kubelet/worker-1', 900), (200, 'pause', 'kubelet/cp-2', 20), (300, 'crash', 'kubelet/worker-3', None),
          (600, 'pause', 'cp-1', 450), (1_200, 'pause', 'cp-2', 10)])
    same('version', (made['version'], document('--rules=own')['version'], document()['version']), (3, 1, 4))
    same('two of one process, with a beat between', [event['beat'] for event in document('--stall', 'cp-1@2s+1s', '--stall', 'cp-1@3.1s+1s')['events']], [20, 31])
    same('names are hidden', [event['process'] for event in document('--stall', 'cp-1@1s+1s', '--stall', 'worker-1@2s+1s', '--redact')['events']],
         ['controller-2', 'kubelet/node-4'])


def test_store_stalls(program):
    """A store that stands still: a document of version 4, in which it begins in the order of its beats."""
    words = ('--stall-store', '@60s+12s', '--stall', 'cp-1@61s+2s', '--stall-store', '10s+5s', '--kill-leader', '@3m')
    made = document(*words)
    same('a store that stands still', [(event['beat'], event['type'], event.get('process'), event.get('beats')) for event in made['events']],
         [(100, 'stall', None, 50), (600, 'stall', None, 120), (610, 'pause', 'cp-1', 20), (1_800, 'crash', 'cp-2', None)])
    same('version of it', made['version'], 4)
    same('two of it, with a beat between', [event['beat'] for event in document('--stall-store', '@2s+1s', '--stall-store', '@3.1s+1s')['events']], [20, 31])
    same('names are hidden where there are some', [event.get('process') for event in document(*words, '--redact')['events']], [None, None, 'controller-2', 'controller-1'])
    trace = lines(program, 'replay', made)
    same('told in the trace', [line for line in trace if ' stall ' in line], ['100 script stall beats=50', '600 script stall beats=120'])
    same('none renews in it', [line for line in trace if line.split()[1:4:2] == ['cp-2_1', 'election'] and 600 <= int(line.split()[0]) < 720], [])


def test_redacted(program):
    """No name is left, and the trace is the same but for names."""
    words = ('--kill', 'worker-1@60s', '--clock', 'cp-1=1.02')
    plain, hidden = document(*words), document(*words, '--redact')
    names = {item['metadata'][key] for item in plain['objects']['items'] for key in ('name', 'namespace') if key in item['metadata']}
    left = [name for name in names - {'kube-system', 'kube-controller-manager', 'kube-node-lease'} if re.search('"%s"' % re.escape(name), json.dumps(hidden))]
    same('names that are left', left, [])
    shape = lambda made: [re.sub(r'(cp|controller|worker|node)-\d+|[a-z]+-?\d*/[a-z0-9-]+', '_', line) for line in lines(program, 'replay', made)]
    same('the same trace but for names', [line.split()[0] for line in shape(hidden)], [line.split()[0] for line in shape(plain)])


def test_run(program):
    """Taken by the program; the leader leads on at once, and by the own rules each pod goes when the list says."""
    made = document('--rules=own', '--kill', 'worker-1@60s')
    same('check', lines(program, 'check', made), ['ok controllers=3 kubelets=7 nodes=7 leases=8 pods=14 skipped=0 events=1 premise=no'])
    trace = lines(program, 'replay', made)
    same('the holder leads on', [line.split()[1] for line in trace if ' lead ' in line], ['cp-2_1'])
    # Tainted at 10:58:05, tolerated for 300 s: 11:03:05, which is beat 1850. Unless told else worker-1 stays as the list has it.
    same('pods of the node that was silent before', [line.split()[:4] for line in trace if 'due=2026-11-28T11:03:05Z' in line],
         [['1850', 'cp-2_1', 'evict', 'default/batch-z1-8vwlq'], ['1850', 'cp-2_1', 'evict', 'default/web-7d4b9c6f5-pz6rt']])
    taint = next((int(line.split()[0]) for line in trace if ' taint worker-1 ' in line), 0)
    gone = {line.split()[3]: int(line.split()[0]) - taint for line in trace if ' evict ' in line and '2xk8p' in line or 'cart' in line and ' evict ' in line}
    same('30 and 300 seconds after the taint, within a second', [(pod, -10 <= beats - 10 * seconds <= 0) for (pod, beats), seconds in zip(gone.items(), (30, 300))],
         [('default/cart-5f6d8b7c9-h4t2n', True), ('default/web-7d4b9c6f5-2xk8p', True)])
    newer = document('--rules=own', '--kubernetes=1.36', '--leader-elect-lease-duration=18s')
    same('1.36 in a document of version 1', lines(program, 'check', newer), ['ok controllers=3 kubelets=7 nodes=7 leases=8 pods=14 skipped=0 events=0 premise=yes'])
    named = lines(program, 'replay', document('--controller', 'a', '--controller', 'b'))
    same('a named controller leads on at once', [(line.split()[1], int(line.split()[0]) < 50) for line in named if ' lead ' in line], [('a_1', True)])


def test_upstream_rules(program):
    """By default the rules of the cluster's version, as the program takes them; looks that slide; and what is said of nodes that are tainted already."""
    made, own = document('--kill', 'worker-1@60s'), document('--rules=own', '--kill', 'worker-1@60s')
    same('the word for 1.20 is all that differs, but for graces', {key: value for key, value in made['settings'].items() if own['settings'].get(key) != value},
         {'rules': '1.20', 'gracePeriodMillis': 39_999, 'startupGraceMillis': 59_999})
    same('all else is the same', [key for key in made if made[key] != own[key]], ['version', 'settings'])
    fine = document('--beat=1ms')['settings']
    same('short beats', [fine[key] for key in ('monitorPeriodMillis', 'gracePeriodMillis')], [5_002, 40_000])
    same('a grace that is no multiple', document('--node-monitor-grace-period=42s')['settings']['gracePeriodMillis'], 42_000)
    newer = document('--kubernetes=1.36')
    keys = ('rules', 'release', 'inRelease')
    same('1.36 without its gate', [newer['settings'].get(key) for key in keys], ['1.36', 'stop', 'still'])
    releasing, older = document('--kubernetes=1.36', '--release-on-cancel'), document('--release-on-cancel')
    same('and with it', [[each['settings'].get(key) for key in keys] for each in (releasing, older)], [['1.36', None, None], ['1.20', 'own', 'acts']])
    has('by the own rules not', make('--rules=own', '--release-on-cancel').stderr, 'by --rules own leaders release at a stop alone')
    same('the rules of another version', [document('--kubernetes=1.36', '--rules=1.20')['settings']['rules'], document('--rules=1.36')['settings']['rules']], ['1.20', '1.36'])
    for each in (made, newer, releasing, older):
        same('taken', lines(program, 'check', each)[0][:27], 'ok controllers=3 kubelets=7')
    has('what is tainted already', make().stderr, 'worker-4 is tainted already', '--rules own counts from the taint')
    same('by the own rules not', 'tainted already' in make('--rules=own').stderr, False)
    trace = lines(program, 'replay', made)
    same('marked, and tainted at the next look', [line.split()[0] for line in trace if ' unknown worker-1 ' in line or ' taint worker-1 ' in line], ['911', '961'])
    same('no other rules', make('--rules=1.19').returncode, 2)


def nodes(count, name='n'):
    """A list of so many nodes."""
    return json.dumps({'kind': 'List', 'items': [{'apiVersion': 'v1', 'kind': 'Node', 'metadata': {'name': '%s%d' % (name, i)}} for i in range(count)]})


def pods(count, word):
    tolerations = [{'key': '%s%d' % (word, i), 'operator': 'Exists'} for i in range(100)]
    return json.dumps({'kind': 'List', 'items': [{'apiVersion': 'v1', 'kind': 'Pod', 'metadata': {'name': 'p%d' % i}, 'spec': {'tolerations': tolerations}} for i in range(count)]})


def test_limits():
    """What a document can't have is told, and nothing is written."""
    for count, version in ((1_000, 1), (1_001, 4), (15_000, 4)):
        same('%d nodes' % count, document('--rules=own', '--controller', 'a', given=nodes(count)).get('version'), version)
    for given, wanted in ((nodes(15_001), '15001 Nodes'), (pods(2_000, 'x' * 80), 'say pods by sets')):
        done = make('--controller', 'a', given=given)
        same('over the limit: ' + wanted, (done.returncode, done.stdout, wanted in done.stderr), (1, '', True))
    many = make(*[word for i in range(20) for word in ('--controller', 'c%d' % i)])
    same('sixteen controllers', len(json.loads(many.stdout)['controllers']), 16)
    has('those that are left out', many.stderr, 'at most 16 controllers: c16, c17, c18, c19 were left out')


def names_of(made):
    """The pods that are written out, and the sets with the counts of their pods by node."""
    single = [item['metadata']['name'] for item in made['objects']['items'] if item['kind'] == 'Pod']
    return single, {'%s/%s' % (each['namespace'], each['name']): {member['node']: member['pods'] for member in each['on']} for each in made.get('podSets', [])}


def nameless(program, made):
    """The trace of a document without the names of pods. Those that go in one tick go in the order of their names, so here they are sorted anew."""
    told = [re.sub(r' evict (\S+)/\S+ ', r' evict \1/_ ', line).partition(' v=') for line in lines(program, 'replay', made)]
    ticks = itertools.groupby((line[0] for line in told), lambda line: line.split(' ')[:3])
    placed = [line for key, tick in ticks for line in (sorted(tick) if key[2] == 'evict' else tick)]
    return [line + ''.join(version[1:]) for line, version in zip(placed, told)]


def test_sets(program):
    """Pods of one owner are a set; the document that says each of its pods has the same trace as the one with their own names, but for names."""
    words = ('--kill', 'worker-1@60s', '--for', '20m')
    made, plain = document('--sets', *words), document(*words)
    single, sets = names_of(made)
    same('pods without an owner, or alone', sorted(single), ['batch-z1-8vwlq', 'cart-5f6d8b7c9-h4t2n', 'db-0', 'queue-6c8f7d5b4-kd9sx'])
    same('sets', sets, {'default/web-7d4b9c6f5': {'worker-1': 1, 'worker-2': 1, 'worker-4': 1}, 'kube-system/proxy-cp': {'cp-1': 1, 'cp-2': 1, 'cp-3': 1},
                        'kube-system/proxy-worker': {'worker-1': 1, 'worker-2': 1, 'worker-3': 1, 'worker-4': 1}})
    same('versions', (made['version'], document('--sets', '--rules=own', *words)['version'], document('--rules=own', *words)['version']), (4, 4, 1))
    same('all else is the same', [made[key] for key in plain if key not in ('version', 'objects')], [plain[key] for key in plain if key not in ('version', 'objects')])
    same('the same trace as written out', lines(program, 'replay', made), lines(program, 'replay', cluster_sets.written_out(made)))
    same('the same trace but for names', nameless(program, made), nameless(program, plain))
    same('which evicts', sum(' evict ' in line for line in nameless(program, made)) >= 4, True)
    has('told', make('--sets', *words).stderr, '14 pods (10 in 3 sets)')
    hidden = document('--sets', '--redact', *words)
    same('names that are hidden', sorted(names_of(hidden)[1]), ['namespace-1/pods-1', 'namespace-2/pods-2', 'namespace-2/pods-3'])
    same('the same trace but for names, which are hidden', [len(nameless(program, hidden)), nameless(program, hidden)[-1].split()[0]],
         [len(nameless(program, plain)), nameless(program, plain)[-1].split()[0]])


def owned(name, owner=None, node='n0', **more):
    meta = {'name': name, **({'ownerReferences': [{'kind': owner[0], 'name': owner[1], 'controller': True}]} if owner else {})}
    return {'apiVersion': 'v1', 'kind': 'Pod', 'metadata': meta, 'spec': {**({'nodeName': node} if node else {}), **more}}


def test_names_of_sets():
    """No pod of a set has the name of another pod, whatever its owners are called; pods that wait for a node are in no set."""
    items = [owned('web-0'), *[owned('a%d' % number, ('ReplicaSet', 'web')) for number in range(3)], *[owned('b%d' % number, ('Job', 'web'), 'n1') for number in range(2)],
             *[owned('c%d' % number, ('ReplicaSet', 'web'), tolerations=[{'operator': 'Exists'}]) for number in range(2)],
             *[owned('d%d' % number, ('Odd', 'It:is')) for number in range(2)], *[owned('e%d' % number, ('ReplicaSet', 'x' * 250)) for number in range(2)],
             owned('f0', ('Job', 'alone')), owned('g0', ('Job', 'waits'), None), owned('g1', ('Job', 'waits'), None)]
    text = json.dumps({'kind': 'List', 'items': [*json.loads(nodes(2))['items'], *items]})
    made = document('--sets', '--controller', 'a', given=text)
    single, sets = names_of(made)
    same('single ones', single, ['web-0', 'g0', 'g1', 'f0'])
    same('sets', sets, {'default/web.2': {'n0': 3}, 'default/web.3': {'n1': 2}, 'default/web.4': {'n0': 2}, 'default/pods': {'n0': 2}, 'default/' + 'x' * 234: {'n0': 2}})
    keys = [item['metadata']['name'] for item in cluster_sets.written_out(made)['objects']['items'] if item['kind'] == 'Pod']
    same('each once', (len(keys), len(set(keys)), max(map(len, keys)) <= 253), (15, 15, True))


def zoned(count):
    """So many nodes, Ready, in three zones."""
    ready = {'type': 'Ready', 'status': 'True', 'reason': 'KubeletReady'}
    return [{'apiVersion': 'v1', 'kind': 'Node', 'metadata': {'name': 'n%d' % number, 'labels': {'topology.kubernetes.io/zone': 'z%d' % (number % 3)}},
             'status': {'conditions': [ready]}} for number in range(count)]


def test_both_ways(program):
    """A cluster of 60 nodes and 2,400 pods, a zone of which dies: the trace is the same both ways but for names, and the same pods' owners lose as many."""
    tolerations = [[{'key': 'node.kubernetes.io/unreachable', 'operator': 'Exists', 'effect': 'NoExecute', 'tolerationSeconds': seconds}] for seconds in (300, 30)]
    draws = random.Random(60)
    found = [owned('app%d-%05x' % (number % 40, draws.getrandbits(20) * 2_400 + number), ('ReplicaSet', 'app%d' % (number % 40)), 'n%d' % draws.randrange(60),
                   tolerations=tolerations[number % 40 % 7 == 0]) for number in range(2_390)] + [owned('alone%d' % number, None, 'n%d' % number) for number in range(10)]
    text = json.dumps({'kind': 'List', 'items': [*zoned(60), *found]})
    words = ('--controller', 'a', '--controller', 'b', '--epoch', '2026-11-28T11:00:00Z', '--kill-zone', 'z1@60s', '--kill-leader', '@200s', '--for', '20m')
    sets, plain = document(*words, given=text), document('--written-out', *words, given=text)
    same('both ways', [(made['version'], *map(len, names_of(made))) for made in (sets, plain)], [(4, 10, 40), (4, 2_400, 0)])
    same('counted', lines(program, 'check', sets), lines(program, 'check', plain))
    same('the same trace but for names', nameless(program, sets), nameless(program, plain))
    gone = [collections.Counter(re.sub(r'-\w+$', '', line.split()[3]) for line in lines(program, 'replay', made) if ' evict ' in line) for made in (sets, plain)]
    same('as many of each owner', gone[0], gone[1])
    same('which are many', gone[0].total() > 700, True)


def test_many_pods():
    """More than 2,000 pods are said by sets, and fewer where that is asked for; or each of them, where that is."""
    few, many = [json.dumps({'kind': 'List', 'items': [*json.loads(nodes(3))['items'], *[owned('p%d' % number, ('Job', 'j%d' % (number % 7)), 'n%d' % (number % 3)) for number in range(count)]]})
                 for count in (2_000, 2_001)]
    for given, words, wanted in ((few, (), (1, 2_000, 0)), (many, (), (4, 0, 7)), (few, ('--sets',), (4, 0, 7)), (many, ('--written-out',), (1, 2_001, 0))):
        made = document('--rules=own', '--controller', 'a', *words, given=given)
        same('many pods %s' % (words,), (made['version'], *map(len, names_of(made))), wanted)


def test_stream():
    """A list is read piece by piece, wherever a piece ends; what is no list is told."""
    with open(LIST) as file:
        text = file.read()
    whole = [cluster_stream.slim(item, {}) for item in json.loads(text)['items']]
    usual = cluster_stream.CHUNK
    for cluster_stream.CHUNK in (1, 7, 1_000):
        same('pieces of %d' % cluster_stream.CHUNK, cluster_stream.items_of(io.StringIO(text)), [item for item in whole if item])
        same('the kind first', cluster_stream.items_of(io.StringIO('{"kind":"List","a":[1,{"items":[5]}],"b":12345.5,"items":[]}\n')), [])
    cluster_stream.CHUNK = usual
    for given, wanted in (('', 'no JSON'), (text[:-3], 'no JSON'), (text[:9_000], 'no JSON'), (text + '{}', 'no JSON: there is more'), ('{"kind":"List","items":[{},]}', 'no JSON'),
                          ('[]', 'no List'), ('{"items":[]}', 'no List'), ('{"kind":"List" "items":[]}', 'no JSON')):
        done = make('--controller', 'a', given=given)
        same('not a list: %.40s' % given, (done.returncode, done.stdout, wanted in done.stderr), (1, '', True))


# What runs from-cluster in a Python of its own and tells on standard error the most memory that it had, in KB.
MEASURED = 'import resource, runpy, sys\nsys.argv = sys.argv[1:]\nrunpy.run_path(sys.argv[0], run_name="__main__")\n' \
    'print("memory", resource.getrusage(resource.RUSAGE_SELF).ru_maxrss, file=sys.stderr)'


def test_memory(count, most):
    """A list of so many pods, each of 6 KB, is read within so many MB, and all of them are in the document."""
    command = [sys.executable, '-c', MEASURED, os.path.join(TOOLS, 'from-cluster'), '--controller', 'a', '--for', '1m']
    process = subprocess.Popen(command, stdin=subprocess.PIPE, stdout=subprocess.DEVNULL, stderr=subprocess.PIPE, text=True)
    rest = {'annotations': {'note': 'y' * 5_500}}
    tolerations = [{'key': 'node.kubernetes.io/' + word, 'operator': 'Exists', 'effect': 'NoExecute', 'tolerationSeconds': 300} for word in ('not-ready', 'unreachable')]
    process.stdin.write('{"apiVersion":"v1","items":[' + json.dumps(json.loads(nodes(5_000))['items'])[1:-1])
    for number in range(count):
        pod = owned('app-%d-%06x' % (number % 500, number), ('ReplicaSet', 'app-%d' % (number % 500)), 'n%d' % (number % 5_000), tolerations=tolerations)
        process.stdin.write(',\n' + json.dumps({**pod, 'metadata': {**pod['metadata'], 'namespace': 'team-%d' % (number % 25), **rest}}))
    process.stdin.write('],"kind":"List"}')
    process.stdin.close()
    said = process.stderr.read()
    process.wait()
    memory = re.search(r'^memory (\d+)$', said, re.M)
    has('of %d pods' % count, said, '5000 nodes, %d pods (%d in 500 sets)' % (count, count))
    same('%d pods within %d MB' % (count, most), bool(memory) and int(memory[1]) <= most * 1_024, True)
    print('%d pods of 6 KB: %d MB of memory' % (count, int(memory[1]) // 1_024 if memory else 0), flush=True)


def test_refused():
    cases = [(('--kill', 'worker-9@60s'), None, 'there is no node worker-9'), (('--kill-zone', 'mars@60s'), None, 'no node is in it'),
             (('--clock', 'cp-9=1.02'), None, 'no such controller'), (('--kill', 'worker-1@20m'), None, 'let it run longer'),
             (('--kill', 'node-1'), None, '--kill node-1: when? It is NODE@60s, as in --kill worker-1@60s'), (('--kill-zone', 'eu-1b'), None, 'when? It is ZONE@60s'),
             (('--kill-leader', 'cp-1@60s'), None, 'the leader at first is cp-2'),
             (('--kill', 'worker-1@soon'), None, '--kill worker-1@soon: soon is no duration'), (('--stall', 'worker-9@60s+1s'), None, 'no controller and no node'),
             (('--stall', 'cp-1@60s'), None, 'for how long'), (('--stall', 'cp-1@60s+50ms'), None, 'shorter than a beat'),
             (('--stall', 'cp-1@16m+1s'), None, 'what is frozen at beat 9600'), (('--kubernetes', 'newest'), None, 'a version such as 1.36'),
             (('--stall-store', '@60s'), None, 'for how long'), (('--stall-store', 'cp-1@60s+1s'), None, 'there is one store'),
             (('--stall-store', '@60s+50ms'), None, 'shorter than a beat'), (('--stall-store', '@16m+1s'), None, 'a store that stands still at beat 9600'),
             (('--stall-store', '@2s+1s', '--stall-store', '@3s+1s'), None, 'the store stands still at beat 30 still'),
             (('--stall', 'cp-1@2s+1s', '--stall', 'cp-1@3s+1s'), None, 'frozen at beat 30 still'), ((), '{"kind":"NodeList","items":[]}', 'no List'), ((), 'no', 'no JSON'),
             ((), '{"kind":"List","items":[]}', 'name them: --controller'), (('--node-eviction-rate=0.00001',), None, 'finer than'),
             (('--controller', 'A_b'), None, 'no name that a controller'), (('--epoch', 'noon'), None, '--epoch noon: it is a time such as')]
    for words, given, wanted in cases:
        done = make(*words, given=given)
        same('%s %s' % (words, wanted), (done.returncode, done.stdout, wanted in done.stderr), (1, '', True))


def test_rules(program):
    """Settings that the program would refuse are told at once, with what mends them; the document that is mended so is taken."""
    for words, broken in ((('--leader-elect-renew-deadline=20s',), '--leader-elect-lease-duration=15s (its default) has to be longer than --leader-elect-renew-deadline=20s'),
                          (('--leader-elect-lease-duration=8s',), '--leader-elect-lease-duration=8s has to be longer than --leader-elect-renew-deadline=10s (its default)'),
                          (('--leader-elect-retry-period=9s',), '--leader-elect-renew-deadline=10s (its default) has to be over six fifths of --leader-elect-retry-period=9s'),
                          (('--leader-elect-renew-deadline=2s',), '--leader-elect-renew-deadline=2s has to be over six fifths of --leader-elect-retry-period=2s (its default)'),
                          (('--node-eviction-rate=0.001',), '--node-eviction-rate=0.001 has to be at least --secondary-node-eviction-rate=0.01 (its default)')):
        done = make(*words)
        same('nothing is written for %s' % (words,), (done.returncode, done.stdout), (1, ''))
        has('rule', done.stderr, broken)
        mend = re.search(r'; (--\S+) would mend it', done.stderr)[1]
        more = ('--leader-elect-lease-duration=90s',) if 'retry' in words[0] else ()
        same('mended by ' + mend, [line.split()[0] for line in lines(program, 'check', document(*words, mend, *more))], ['ok'])
    for words, wanted in ((('--leader-elect-lease-duration=48h', ), 'leaseDurationSeconds is 1 to 86400'), (('--unhealthy-zone-threshold=1.5',), 'unhealthyPercent is 0 to 100'),
                          (('--call-timeout=11m',), 'a document has 1ms to 10m'), (('--leader-elect-lease-duration=1h', '--leader-elect-renew-deadline=30m'), 'calls would wait 30m')):
        done = make(*words)
        same('range %s' % (words,), (done.returncode, done.stdout, wanted in done.stderr), (1, '', True))


def forms(lease):
    """The manifests in each form by name, with a lease duration, and a renew deadline of 20 s and a retry period of 4 s."""
    made = {}
    for name in sorted(os.listdir(READ)):
        with open(os.path.join(READ, name)) as file:
            made[name] = file.read().replace('LEASE', lease).replace('RENEW', '20s').replace('RETRY', '4s')
    return made


def unread():
    """The manifests in which a flag can't be read, by name: what each has, and what is said."""
    made = {}
    for name in sorted(os.listdir(UNREAD)):
        with open(os.path.join(UNREAD, name)) as file:
            text = file.read()
        made[name] = text, text.splitlines()[0].removeprefix('# ')
    return made


def test_manifests(folder):
    """The flags of a manifest in each form; one that can't be read is told with its line, and nothing is written."""
    path = os.path.join(folder, 'manifest')
    for name, text in forms('30s').items():
        put(path, text)
        made = document('--from-manifest', path)['settings']
        same(name, [made.get(key) for key in ('leaseDurationSeconds', 'renewDeadlineMillis', 'retryPeriodMillis')], [30, 20_000, 4_000])
        same('flags of ' + name, sorted(make('--election-flags', path).stdout.split()),
             ['--leader-elect-lease-duration=30s', '--leader-elect-renew-deadline=20s', '--leader-elect-retry-period=4s'])
    for name, (text, wanted) in unread().items():
        put(path, text)
        for words in (('--election-flags', path),) + (('--from-manifest', path),) * ('off' not in wanted):
            done = make(*words)
            same('%s of %s' % (words[0], name), (done.returncode, done.stdout, wanted in done.stderr), (1, '', True))
    has('lines are told', make('--election-flags', MANIFEST).stderr, '--leader-elect-renew-deadline in line 16')
    put(path, forms('30s')['pods-in-a-list.yaml'])
    has('other components', make('--election-flags', path).stderr, 'left out are the flags of other components, in line 10, 11, 29')
    put(path, unread()['pod-without-election.yaml'][0])
    has('no election', make('--from-manifest', path).stderr, 'line 8 turns the election off, and the document has one')


def put(path, text):
    with open(path, 'w') as file:
        file.write(text)


def steps_of_page():
    """The commands of the step for CI in docs/lens-margin.md: as a line, and in a workflow, as GitHub Actions runs a step of `shell: bash`."""
    with open(os.path.join(TOP, 'docs', 'lens-margin.md'), encoding='utf-8') as file:
        section = re.search(r'^## In a pipeline\n(.*?)^## ', file.read(), re.S | re.M)[1]
    line = re.search(r'^    (\S.*--election-flags.*)$', section, re.M)[1]
    block = re.search(r'^```yaml\n.*?run: \|\n(.*?)^```', section, re.S | re.M)[1]
    return {'line': ['bash', '-c', line], 'workflow': ['bash', '--noprofile', '--norc', '-eo', 'pipefail', '-c', re.sub(r'^ {4}', '', block, flags=re.M)]}


def test_step(folder, lens):
    """The step of the page fails for unsafe flags in each form, and for flags that can't be read; it passes for safe ones."""
    put(os.path.join(folder, 'kube_lens'), '#!/bin/sh\nexec %s "$@"\n' % lens)
    os.chmod(os.path.join(folder, 'kube_lens'), 0o755)
    os.symlink(TOOLS, os.path.join(folder, 'tools'))
    manifest = 'tools/data/kube-controller-manager.yaml'
    cases = [(name, text, True) for name, text in forms('60s').items()] + [(name, text, False) for name, text in forms('30s').items()]
    cases += [(name, text, None) for name, (text, _) in unread().items()]
    for way, words in steps_of_page().items():
        same('%s names the manifest' % way, words[-1].count(manifest), 1)
        for name, text, safe in cases:
            put(os.path.join(folder, 'manifest'), text)
            step = [*words[:-1], words[-1].replace(manifest, 'manifest')]
            done = subprocess.run(step, cwd=folder, stdout=subprocess.PIPE, stderr=subprocess.PIPE, text=True)
            wanted = (True, 'safe') if safe else (False, 'unsafe' if safe is False else '')
            same('step as %s, %s' % (way, name), (done.returncode == 0, ''.join(done.stdout.splitlines()[-1:])), wanted)


def main():
    options = argparse.ArgumentParser(description=__doc__.splitlines()[0])
    options.add_argument('--program', default=built('kube_replay'))
    options.add_argument('--lens', default=LENS)
    options.add_argument('--large', action='store_true')
    given = options.parse_args()
    for test in (test_document, test_flags, test_versions, test_explain, test_controllers, test_events, test_hosts, test_stalls, test_limits, test_refused,
                 test_names_of_sets, test_many_pods, test_stream):
        test()
    test_memory(10_000, 100)
    if given.large:
        test_memory(150_000, 500)
    for test in (test_moment, test_comparisons, test_sets, test_both_ways, test_redacted, test_store_stalls, test_run, test_rules, test_upstream_rules):
        test(given.program)
    with tempfile.TemporaryDirectory() as folder:
        test_manifests(folder)
        if given.lens != LENS or os.access(LENS, os.X_OK):
            test_step(folder, given.lens)
        else:
            print('left out: the step for CI, since kube_lens is not built')
    print('%d faults' % len(faults) if faults else 'done')
    sys.exit(1 if faults else 0)


if __name__ == '__main__':
    main()
