#!/usr/bin/env python3
"""Tries `kubectl replay` by the real kubectl on an API server of its own, and compares its answers with the pipeline over tools/from-cluster.

    python3 plugin/test_kubectl_replay.py [--kubectl FILE] [--program COMMAND] [--lens COMMAND] [TEST ..]

It needs kubectl, by default that on PATH, and the programs, by default the built ones. All addresses are on 127.0.0.1. The exit status is 1 where
anything differs.
"""
import argparse
import hashlib
import json
import os
import re
import shlex
import shutil
import subprocess
import sys
import tempfile
import time
import unittest

HERE = os.path.dirname(os.path.abspath(__file__))
TOP = os.path.dirname(HERE)
sys.path.insert(0, os.path.join(TOP, 'tools'))
import answers
import lists
import test_objects
import test_server

PROGRAMS = {name: os.path.join(TOP, 'crates', name, 'out', name) for name in ('kube_replay', 'kube_lens')}
PLACE = {}
# The manifest of kube-controller-manager by hand, for the pipeline.
MANIFEST = 'spec:\n  containers:\n  - command:\n' + ''.join('    - %s\n' % word for word in test_objects.MANAGER)
LISTS = re.compile(r'/api/v1/(namespaces/[a-z-]+/)?(nodes|pods)(\?|$)|/apis/coordination\.k8s\.io/v1/(namespaces/[a-z-]+/)?leases(\?|$)')
# Each command with the words of tools/from-cluster for the pipeline, where these can say it.
COMMANDS = {('margin',): [], ('bounds',): [], ('kill-leader',): ['--kill-leader', '@60s'], ('kill-node', 'worker-002', '--at', '90s'): ['--kill', 'worker-002@90s'],
            ('kill-zone', 'eu-1b'): ['--kill-zone', 'eu-1b@60s'], ('freeze-leader', '45s', '--for', '5m'): ['--stall', '@60s+45s', '--for', '5m'],
            ('slow-network', '2s', '--clock', 'cp-1=1.02'): ['--clock', 'cp-1=1.02'],
            ('kill-zone', 'eu-1b', '--sets'): ['--kill-zone', 'eu-1b@60s', '--sets']}


OF_SETTINGS = (('margin',), ('bounds',))


def run(words, read=None, **more):
    return subprocess.run(words, input=read, stdout=subprocess.PIPE, stderr=subprocess.PIPE, check=True, **more).stdout


class Replay(unittest.TestCase):
    """A server with a small cluster, and calls of `kubectl replay` on it."""
    nodes, pods, words = 9, 40, None

    def setUp(self):
        self.folder = self.enterContext(tempfile.TemporaryDirectory())
        self.server = self.enterContext(test_server.Server(test_objects.cluster(self.nodes, self.pods, self.words)))
        self.config = self.server.config(os.path.join(self.folder, 'config'))
        self.place = {**PLACE, 'KUBECONFIG': self.config, 'HOME': self.folder, 'LC_ALL': 'C.UTF-8'}

    def call(self, *words, **more):
        """Status, standard output and standard error of one call."""
        done = subprocess.run(['kubectl', 'replay', *words], env={**self.place, **more}, cwd=self.folder, stdin=subprocess.DEVNULL, stdout=subprocess.PIPE,
                              stderr=subprocess.PIPE, text=True, check=False)
        return done.returncode, done.stdout, done.stderr

    def answer(self, *words, **more):
        status, told, said = self.call(*words, **more)
        self.assertEqual((status, bool(told)), (0, True), said)
        return told

    def summary(self, *words):
        return json.loads(self.answer(*words, '--json'))

    def no_answer(self, *words, **more):
        """The one sentence of a call that has no answer."""
        status, told, said = self.call(*words, **more)
        lines = [line for line in said.splitlines() if not line.startswith('error: exit status')]
        self.assertEqual((status in (1, 3), told, len(lines)), (True, '', 1), said)
        self.assertTrue(lines[0].startswith('kubectl replay: '), said)
        return lines[0]

    def requests(self):
        """The requests since the last call of this, but for the version, which some builds of kubectl ask for by themselves."""
        found, self.server.requests[:] = [each for each in self.server.requests if not each[1].startswith('/version')], []
        return found


class Pipeline(Replay):
    """The answers are those of the pipeline; on 200 nodes and 5,000 pods."""
    nodes, pods = 200, 5_000

    def document(self, words, command):
        """The document by kubectl, tools/from-cluster and, for a slow network, by hand."""
        manifest = os.path.join(self.folder, 'manifest.yaml')
        with open(manifest, 'w', encoding='utf-8') as file:
            file.write(MANIFEST)
        listed = run(['kubectl', 'get', 'nodes,pods,leases', '-A', '-o', 'json'], env=self.place)
        form = [] if '--sets' in words else ['--written-out']
        made = json.loads(run([os.path.join(TOP, 'tools', 'from-cluster'), '--from-manifest', manifest, *form, *words], listed))
        if command[0] == 'slow-network':
            names = [each['name'] for each in made['controllers']] + ['kubelet/' + each['metadata']['name'] for each in json.loads(listed)['items'] if each['kind'] == 'Node']
            made['events'] = [{'beat': 600, 'type': 'delay', 'process': name, 'requestBeats': 20, 'replyBeats': 20} for name in names]
        return made

    def test_same(self):
        for command, words in COMMANDS.items():
            with self.subTest(command):
                made = self.document(words, command)
                status, told, said = self.call(*command)
                data = json.dumps(made).encode()
                if command in OF_SETTINGS:
                    wanted = subprocess.run([*shlex.split(PLACE['KUBE_LENS_PROGRAM']), *command], input=data, stdout=subprocess.PIPE, check=False)
                    self.assertEqual((status, told), (wanted.returncode, wanted.stdout.decode()), said)
                    continue
                trace = run([*shlex.split(PLACE['KUBE_REPLAY_PROGRAM']), 'replay'], data)
                wanted = run([*shlex.split(PLACE['KUBE_LENS_PROGRAM']), 'summary', '--document'], data + b'\n' + trace).decode()
                self.assertEqual((status, told), (0, wanted), said)
                self.assertEqual(json.loads(self.answer(*command, '--document')), made)

    def test_lists_alone(self):
        """Each request is for a list, and pods come in pieces."""
        for command in [*COMMANDS, ('kill-leader', '--page', 'page.html')]:
            self.requests()
            self.call(*command)
            found = self.requests()
            with self.subTest(command):
                self.assertEqual([each for each in found if each[0] != 'GET' or not LISTS.match(each[1])], [])
                pods = [path for _, path in found if '/pods' in path]
                self.assertEqual(len(pods), 1 if command == ('margin',) else 10)
                self.assertEqual({re.search(r'limit=(\d+)', path)[1] for path in pods}, {'500'})
                self.assertEqual(len(found) - len(pods), 2)

    def test_pieces(self):
        self.requests()
        whole = self.answer('kill-leader', '--document', '--chunk-size', '0')
        found = [path for _, path in self.requests()]
        self.assertEqual([path.partition('?')[0] for path in found], ['/api/v1/nodes', '/api/v1/pods', '/apis/coordination.k8s.io/v1/leases'])
        self.assertEqual([path for path in found if 'limit=' in path], [])
        self.assertEqual(self.answer('kill-leader', '--document', '--chunk-size=1700'), whole)
        self.assertEqual(len([path for _, path in self.requests() if '/pods' in path]), 3)

    def test_expired(self):
        """A list of which the API server forgets the next piece is read in one."""
        whole = self.answer('kill-leader', '--document')
        self.server.faults['pods'] = test_server.expired
        self.assertEqual(self.answer('kill-leader', '--document'), whole)


class Defaults(Replay):
    """What the pages promise of a cluster with kube-controller-manager's defaults of 1.31."""
    words = ['kube-controller-manager', '--leader-elect=true']

    def test_kill_leader(self):
        """Nobody leads for 15.0 to 20.6 s, and by the own rules, whose candidates wait less, for 13.4 to 17.8 s."""
        for words, least, most in (((), 15_000, 20_600), (('--rules=own',), 13_400, 17_800)):
            told = self.summary('kill-leader', *words)
            beat = told['header']['beatMillis']
            self.assertEqual([each['leader'].partition('_')[0] for each in told['terms']][:1], ['cp-2'])
            self.assertEqual([each['ended'] for each in told['terms']], ['crash', 'trace-end'])
            self.assertTrue(least <= told['spansWithoutLeader']['longest'] * beat <= most, told)

    def test_kill_node(self):
        """It alone is tainted, and pods that tolerate 300 s go 334.2 to 349.9 s after the death; as many as are on it, but for those that it keeps."""
        told = self.summary('kill-node', 'worker-003', '--at', '120s')
        self.assertEqual({each['node'] for each in told['nodes']}, {'worker-003'})
        on_it = {'%s/%s' % (each['metadata']['namespace'], each['metadata']['name']): each['spec']['tolerations'][1]['tolerationSeconds']
                 for each in self.server.lists['pods'] if each['spec']['nodeName'] == 'worker-003'}
        after = {each['pod']: (each['evicted'] - 1200) / 10 for each in told['evictions']}
        self.assertEqual(after.keys(), on_it.keys())
        self.assertTrue(on_it)
        for pod, seconds in on_it.items():
            self.assertTrue(34.2 + seconds <= after[pod] <= 49.9 + seconds, (pod, after[pod]))

    def test_kill_zone(self):
        """All nodes of the zone, and no other, are marked; taints of a zone are at least 10 s apart, and by the own rules each is tainted once."""
        zone = {each['metadata']['name'] for each in self.server.lists['nodes'] if each['metadata']['labels']['topology.kubernetes.io/zone'] == 'eu-1c'}
        for words in ((), ('--rules=own',)):
            told = self.summary('kill-zone', 'eu-1/eu-1c', *words)
            self.assertEqual({each['node'] for each in told['nodes'] if each['change'] == 'unknown'}, zone)
            taints = [(each['since'], each['node']) for each in told['nodes'] if each['change'] == 'taint']
            self.assertLessEqual({node for _, node in taints}, zone)
            self.assertTrue(all(late - early >= 100 for (early, _), (late, _) in zip(taints, taints[1:])), taints)
        self.assertEqual(len(taints), len(zone))

    def test_freeze_leader(self):
        """A leader that wakes after 45 s acts on beside the new one; frozen for 1 s nobody notices."""
        self.assertTrue(self.summary('freeze-leader', '45s')['header']['twoLeadBeats'] > 0)
        self.assertEqual(len(self.summary('freeze-leader', '1s')['terms']), 1)

    def test_slow_network(self):
        """With calls that wait 10 s the leader bears messages of 2 s, and not those of 6 s."""
        self.assertEqual([each['ended'] for each in self.summary('slow-network', '2s')['terms']], ['trace-end'])
        self.assertEqual(self.summary('slow-network', '6s')['terms'][0]['ended'], 'end')

    def test_margin(self):
        """By the rule of the page on documents: 10 + 2 + 10 s, and what mends it."""
        status, told, _ = self.call('margin')
        self.assertEqual((status, told.splitlines()[0], told.splitlines()[-1]),
                         (1, 'cp-2 lease=15000ms must-exceed=22000ms slack=-7000ms least-lease=23s longest-stall=none', 'unsafe'))
        status, told, _ = self.call('margin', '--leader-elect-lease-duration=23s', '--json')
        self.assertEqual((status, json.loads(told)['safe']), (0, True))
        status, told, _ = self.call('margin', '--leader-elect-lease-duration', '23s', '--clock', 'cp-1=1.05')
        self.assertEqual((status, told.splitlines()[-1]), (1, 'unsafe'))
        self.assertEqual(self.call('margin', '--kubernetes', '1.36', '--leader-elect-lease-duration=18s')[0], 0)


    def test_bounds(self):
        """A pass of 5 s from 40 s of silence on, a token of 10 s, and what pods tolerate. A leader may end where a renewal takes longer than it waits."""
        status, told, _ = self.call('bounds')
        self.assertEqual((status, told.splitlines()[0], told.splitlines()[-1]), (0, 'delay=100ms..100ms', 'stays'))
        tolerated = [int(re.search(r'toleration=(\d+)s', line)[1]) for line in told.splitlines() if line.startswith('pods gone ')]
        pods = [each for each in json.loads(self.answer('bounds', '--document'))['objects']['items'] if each['kind'] == 'Pod']
        times = {one['tolerationSeconds'] for each in pods for one in each['spec'].get('tolerations', []) if one.get('key', '').endswith('unreachable')}
        self.assertLessEqual(times, set(tolerated))
        status, told, _ = self.call('bounds', '--json', '--leader-elect-renew-deadline=300ms', '--leader-elect-retry-period=100ms')
        found = json.loads(told)
        self.assertEqual((status, found['stays'], found['delayMillis']), (1, False, 100))


class Words(Replay):
    """kubectl's rules and flags, and the plugin's own words."""

    def test_plugin(self):
        told = run(['kubectl', 'plugin', 'list'], env=self.place).decode()
        self.assertIn(os.path.join(TOP, 'kubectl-replay'), told.split())
        for words in ((), ('--help',), ('margin', '-h')):
            self.assertIn('kubectl replay kill-node NODE', self.answer(*words))
        self.assertEqual(self.requests(), [])

    def test_wrong_words(self):
        for words, said in ((['kill'], 'invalid choice'), (['kill-node'], 'takes a NODE'), (['kill-leader', 'x'], 'takes no further word: x'), (['margin', '--at', '3s'], 'margin takes no --at'),
                            (['margin', '--pods'], 'unrecognized'), (['bounds', '--for', '3m'], 'bounds takes no --for'), (['kill-leader', '--chunk-size', 'x'], 'invalid int'), (['kill-leader', '--chunk-size=-1'], '0 or more'),
                            (['freeze-leader', 'long'], 'long is no duration'), (['slow-network', '2'], '2 is no duration'), (['kill-leader', '--at', 'noon'], 'noon is no duration'),
                            (['margin', '--request-timeout=soon'], 'soon is no duration')):
            status, told, heard = self.call(*words)
            self.assertEqual((status in (1, 2), told), (True, ''), words)
            self.assertIn(said, heard)
        self.assertEqual(self.requests(), [])
        for words, said in ((['kill-node', 'nobody'], 'there is no node nobody'), (['kill-zone', 'mars'], 'there are eu-1a, eu-1b, eu-1c'), (['freeze-leader', '1ms'], 'shorter than a beat'),
                            (['slow-network', '20m'], 'a message takes 100ms to 10m'), (['slow-network', '2s', '--at', '20m'], 'is after the end'),
                            (['kill-leader', '--at', '16m'], 'let it run longer: --for'), (['kill-leader', '--leader-elect-lease-duration=5s'], 'has to be longer than')):
            self.assertIn(said, self.no_answer(*words))

    def test_kubectl_flags(self):
        whole = self.answer('kill-leader', '--document')
        away = os.path.join(self.folder, 'away')
        os.rename(self.config, away)
        self.assertEqual(self.answer('kill-leader', '--document', '--kubeconfig', away), whole)
        self.assertEqual(self.answer('--kubeconfig=' + away, '--context', 'here', 'kill-leader', '-A', '--document'), whole)
        self.assertIn('refused', self.no_answer('margin', '--kubeconfig', away, '--context', 'nowhere'))
        self.assertIn('"there" does not exist', self.no_answer('margin', '--kubeconfig', away, '--context', 'there').replace('no context exists with the name: "there"', '"there" does not exist'))
        self.assertEqual(self.answer('kill-leader', '--document', '--context', 'nowhere', '--kubeconfig', away, '--server', self.server.address()), whole)

    def test_proxy(self):
        """A server whose address has a path, as behind a proxy of many clusters."""
        whole = self.answer('kill-leader', '--document')
        self.server.prefix = '/k8s/clusters/c-1'
        self.assertEqual(self.answer('kill-leader', '--document', '--server', self.server.address()), whole)
        self.server.config(self.config)
        self.requests()
        self.assertEqual(self.answer('kill-leader', '--document'), whole)
        self.assertEqual({path.partition('/api')[0] for _, path in self.requests()}, {self.server.prefix})

    def test_namespace(self):
        self.requests()
        made = json.loads(self.answer('kill-leader', '-n', 'shop', '--document'))
        self.assertEqual({path.partition('?')[0] for _, path in self.requests() if 'pods' in path}, {'/api/v1/namespaces/shop/pods', '/api/v1/namespaces/kube-system/pods'})
        self.assertEqual({each['metadata']['namespace'] for each in made['objects']['items'] if each['kind'] == 'Pod'}, {'shop'})
        self.assertEqual(made['settings']['leaseDurationSeconds'], 30)
        self.assertEqual(lists.path_of(lists.PODS, 'a/b?c', 5, 'x&y='), '/api/v1/namespaces/a%2Fb%3Fc/pods?limit=5&continue=x%26y%3D')

    def test_completion(self):
        def completed(*words):
            done = run(['kubectl', '__complete', 'replay', *words], env=self.place).decode()
            return [line.partition('\t')[0] for line in done.splitlines() if line]
        if completed('') == [':0']:
            self.skipTest('this kubectl completes no plugins')
        self.assertEqual(completed('kill-'), ['kill-leader', 'kill-node', 'kill-zone', ':4'])
        self.assertEqual(completed('kill-node', 'worker-00'), ['worker-00%d' % number for number in range(1, 7)] + [':4'])
        self.assertEqual(completed('--context', 'here', 'kill-zone', ''), ['eu-1a', 'eu-1b', 'eu-1c', ':4'])
        self.assertEqual(completed('--context=nowhere', 'kill-zone', ''), [':4'])
        self.assertEqual(completed('margin', '--leader-elect-l'), ['--leader-elect-lease-duration', ':4'])
        self.assertEqual(completed('kill-leader', '--page', ''), [':0'])


class Flags(Replay):
    """The flags of kube-controller-manager's pods."""

    def test_pods(self):
        status, _, said = self.call('margin')
        self.assertEqual(status, 1)
        self.assertIn('flags are those of the pod kube-system/kube-controller-manager-cp-2: --leader-elect-lease-duration=30s --leader-elect-renew-deadline=20s '
                      '--node-monitor-grace-period=45s', said)
        self.assertNotIn('other flags', said)

    def test_explain(self):
        _, _, said = self.call('kill-leader', '--explain')
        rows = {re.split(r' {2,}', line)[0]: re.split(r' {2,}', line)[1:] for line in said.splitlines()}
        self.assertEqual(rows['leaseDurationSeconds'], ['30', 'kube-controller-manager-cp-2, line 6', 'manifest'])

    def test_differing(self):
        """The leader's flags count, and another host's are told."""
        self.server.lists['pods'][0] = test_objects.manager('cp-1', [*test_objects.MANAGER, '--leader-elect-retry-period=3s'])
        self.server.lists['pods'][2] = test_objects.manager('cp-3', test_objects.MANAGER[:4])
        _, told, said = self.call('margin')
        self.assertIn('kube-controller-manager-cp-1 has other flags, which do not count here: --leader-elect-retry-period=3s', said)
        self.assertIn('kube-controller-manager-cp-3 has other flags, which do not count here: no --leader-elect-lease-duration, no --leader-elect-renew-deadline', said)
        self.assertIn('must-exceed=42000ms', told)

    def test_arguments(self):
        """A container whose image has the command, with no flag that counts."""
        pod = test_objects.manager('cp-2', None)
        pod['spec']['containers'][0]['args'] = ['--leader-elect=true', '--v=2']
        self.server.lists['pods'][1] = pod
        _, told, said = self.call('margin')
        self.assertIn('kube-controller-manager-cp-2: none that counts here, so the defaults', said)
        self.assertIn('lease=15000ms', told)

    def test_version(self):
        """A control plane that is newer than its kubelets."""
        said = 'the pod kube-controller-manager-cp-2 has version 1.36, and the kubelets another: --kubernetes 1.36 takes its defaults'
        self.assertNotIn('takes its defaults', self.call('margin')[2])
        for tag in (':v1.36.2', ':v1.36.2@sha256:abc'):
            self.server.lists['pods'][1]['spec']['containers'][0]['image'] = 'registry.example:5000/kube-controller-manager' + tag
            self.assertIn(said, self.call('margin')[2])
        self.assertNotIn('takes its defaults', self.call('margin', '--kubernetes', '1.36')[2])
        self.server.lists['pods'][1]['spec']['containers'][0]['image'] = 'registry.example:5000/kube-controller-manager@sha256:abc'
        self.assertNotIn('takes its defaults', self.call('margin')[2])

    def test_none(self):
        self.server.lists['pods'] = self.server.lists['pods'][3:]
        _, told, said = self.call('margin')
        self.assertIn('no pod of kube-controller-manager is to be seen in kube-system', said)
        self.assertIn('lease=15000ms must-exceed=22000ms', told)

    def test_manifest(self):
        path = os.path.join(self.folder, 'other.yaml')
        with open(path, 'w', encoding='utf-8') as file:
            file.write(MANIFEST.replace('=30s', '=55s'))
        for name in (path, 'other.yaml'):
            _, told, said = self.call('margin', '--from-manifest', name)
            self.assertIn('lease=55000ms', told, said)

    def test_unreadable(self):
        self.server.lists['pods'][1] = test_objects.manager('cp-2', [*test_objects.MANAGER, '--leader-elect-renew-deadline=$(DEADLINE)'])
        self.assertIn('kube-controller-manager-cp-2, line %d: --leader-elect-renew-deadline' % (len(test_objects.MANAGER) + 2), self.no_answer('margin'))


class Forbidden(Replay):
    """What may not be read is told, and the rest is answered."""

    def told_without(self, resource, *words):
        self.server.faults[resource] = test_server.forbidden
        status, told, said = self.call(*words)
        self.assertEqual(status, 0, said)
        self.assertIn('%s may not be listed: Error from server (Forbidden): %s is forbidden: User "somebody" cannot list' % (resource, resource), said)
        return json.loads(told), said

    def test_pods(self):
        told, said = self.told_without('pods', 'kill-node', 'worker-001', '--json')
        self.assertIn('So no eviction is in the answer', said)
        self.assertEqual(({each['node'] for each in told['nodes']}, told['evictions']), ({'worker-001'}, []))

    def test_leases(self):
        told, said = self.told_without('leases', 'kill-leader', '--json')
        self.assertIn('So who leads at first is a guess', said)
        self.assertEqual([each['ended'] for each in told['terms']], ['crash', 'trace-end'])

    def test_nodes(self):
        told, said = self.told_without('nodes', 'kill-leader', '--controller', 'cp-1', '--controller', 'cp-2', '--json')
        self.assertEqual([each['leader'] for each in told['terms']], ['cp-2_1', 'cp-1_1'])
        for command in (('kill-node', 'worker-001'), ('kill-zone', 'eu-1a')):
            self.assertIn('there is no %s without them' % command[0], self.no_answer(*command))

    def test_all(self):
        for resource in ('nodes', 'pods', 'leases'):
            self.server.faults[resource] = test_server.forbidden
        status, told, said = self.call('margin')
        self.assertEqual((status in (1, 3), told), (True, ''))
        self.assertIn('name them: --controller NAME', said)
        self.assertIn('cannot list resource "pods" in API group "" in the namespace "kube-system". So the flags of kube-controller-manager can', said)
        self.assertEqual(self.call('margin', '--controller=a', '--controller=b', '--leader-elect-lease-duration=23s')[0], 0)


class Answers(Replay):
    """Slow and broken answers end in one sentence."""

    def test_slow(self):
        for fault in (test_server.silent, test_server.trickling):
            self.server.faults['nodes'] = fault
            began = time.monotonic()
            self.assertIn('the API server did not send its nodes within 2s: --request-timeout TIME waits longer', self.no_answer('kill-leader', '--request-timeout', '2s'))
            self.assertLess(time.monotonic() - began, 40)

    def test_broken(self):
        for fault, said in ((test_server.html, "what the API server sent for pods is no list of them; it begins with '<html>"), (test_server.half, 'is no list of them'),
                            (test_server.other, 'is no list of them'), (test_server.cut, "pods can't be listed: error: unexpected EOF"),
                            (test_server.failed, 'etcdserver: leader changed'), (test_server.endless, 'the list of pods never ends')):
            self.server.faults['pods'] = fault
            with self.subTest(fault.__name__):
                self.assertIn(said, self.no_answer('kill-leader'))

    def test_no_kubectl(self):
        done = subprocess.run([sys.executable, os.path.join(TOP, 'kubectl-replay'), 'margin'], env={**self.place, 'PATH': '/nowhere'}, stdout=subprocess.PIPE, stderr=subprocess.PIPE, text=True)
        self.assertEqual((done.returncode, done.stdout, done.stderr), (3, '', "kubectl replay: kubectl can't be run: No such file or directory\n"))

    def test_no_program(self):
        status, told, said = self.call('margin', KUBE_LENS_PROGRAM='/nowhere/no_such_program')
        self.assertEqual((status in (1, 3), told), (True, ''))
        self.assertIn("kubectl replay: /nowhere/no_such_program can't be run: No such file or directory", said.splitlines())

    def test_full(self):
        done = subprocess.run('exec kubectl replay margin > /dev/full', shell=True, env=self.place, stderr=subprocess.PIPE, text=True)
        self.assertIn("the answer can't be written", done.stderr)
        self.assertNotIn('Traceback', done.stderr)


class Pages(Replay):
    """The page, and the playground."""

    def test_page(self):
        told = self.answer('kill-leader')
        self.assertEqual(self.answer('kill-leader', '--page', 'page.html'), told)
        with open(os.path.join(self.folder, 'page.html'), encoding='utf-8') as file:
            page = file.read()
        trace = run([*shlex.split(PLACE['KUBE_REPLAY_PROGRAM']), 'replay'], self.answer('kill-leader', '--document').encode()).decode()
        self.assertIn(trace, page)
        self.assertIn('"title":"kubectl replay kill-leader"', page)
        self.assertIn("nowhere/page.html can't be written", self.call('kill-leader', '--page', 'nowhere/page.html')[2])

    def test_redact(self):
        made = self.answer('kill-node', 'worker-001', '--redact', '--document')
        self.assertEqual([name for name in ('worker-', 'cp-', 'web-', 'shop') if name in made], [])

    def test_play(self):
        """A copy without a playground says so, and opens one that is on PATH with the cluster."""
        place = os.path.join(self.folder, 'place')
        for folder in ('plugin', 'tools', 'view'):
            shutil.copytree(os.path.join(TOP, folder), os.path.join(place, folder))
        shutil.copy(os.path.join(TOP, 'kubectl-replay'), place)
        path = place + ':' + self.place['PATH'].replace(TOP + ':', '')
        if shutil.which('kube_replay-playground', path=path):
            self.skipTest('a playground is installed')
        self.assertIn('there is no playground here', self.call('play', PATH=path)[2])
        with open(os.path.join(place, 'kube_replay-playground'), 'w', encoding='utf-8') as file:
            file.write('#!/bin/sh\necho "$1"; cat "$2"\n')
        os.chmod(file.name, 0o755)
        status, told, said = self.call('play', PATH=path)
        first, document = told.split('\n', 1)
        self.assertEqual((status, first), (0, '--open'), said)
        self.assertEqual(json.loads(document), {**json.loads(self.answer('kill-leader', '--document')), 'events': []})


class Large(unittest.TestCase):
    """Of a document and a trace that are too long together the tables are told, but for how late the pods go."""

    def test_summary(self):
        def read(name):
            with open(os.path.join(TOP, 'examples', 'dead-node', name), 'rb') as file:
                return file.read()
        said, document, trace = [], read('document.json'), read('trace.txt')
        lens = [*shlex.split(PLACE['KUBE_LENS_PROGRAM']), 'summary']
        asked = answers.Answers(argparse.Namespace(json=False), None, said.append)
        self.assertEqual(asked.summary(document, trace), run([*lens, '--document'], document + trace))
        self.assertEqual(said, [])
        self.addCleanup(setattr, answers, 'MOST_BYTES', answers.MOST_BYTES)
        answers.MOST_BYTES = len(document) + len(trace) - 1
        self.assertEqual(asked.summary(document, trace), run(lens, trace))
        self.assertEqual(said, ['document and trace have more than %d bytes: how late each pod goes is not told' % answers.MOST_BYTES])


class Sets(Replay):
    """More pods than a document has room for by name are said by sets, and the answer is the same but for names."""

    def test_sets(self):
        named = json.loads(self.answer('kill-zone', 'eu-1b', '--document'))
        sets = json.loads(self.answer('kill-zone', 'eu-1b', '--document', '--sets'))
        self.assertEqual((named['version'], 'podSets' in named, sets['version']), (4, False, 4))
        self.assertEqual({key: sets[key] for key in named if key not in ('version', 'objects')}, {key: named[key] for key in named if key not in ('version', 'objects')})
        in_sets = sum(member['pods'] for each in sets['podSets'] for member in each['on'])
        pods = [sum(item['kind'] == 'Pod' for item in made['objects']['items']) for made in (named, sets)]
        self.assertEqual((pods[0], pods[1] + in_sets), (self.pods, self.pods))
        tables = [self.summary('kill-zone', 'eu-1b', *words) for words in ((), ('--sets',))]
        self.assertEqual(tables[0]['nodes'], tables[1]['nodes'])
        gone = [sorted((each['pod'].partition('/')[0], each['due'], each['evicted'], each['by']) for each in table['evictions']) for table in tables]
        self.assertEqual(gone[0], gone[1])
        self.assertTrue(gone[0])

    def test_many(self):
        asked = answers.Answers(argparse.Namespace(sets=False), None, None)
        for count, wanted in ((answers.MOST_NAMED, '--written-out'), (answers.MOST_NAMED + 1, '--sets')):
            self.assertEqual(asked.form(argparse.Namespace(items=[{'kind': 'Node'}, *[{'kind': 'Pod'}] * count])), wanted)


class Krew(Replay):
    """What plugin/krew makes, put where krew would put it."""

    def test_archive(self):
        made = run([os.path.join(TOP, 'plugin', 'krew'), '--into', self.folder, '--uri', 'https://example.org/replay.tar.gz', *self.builds()]).decode().split()
        with open(made[1], encoding='utf-8') as file:
            manifest = dict(re.findall(r'^ *([a-zA-Z0-9]+): "?([^"\n]+)', file.read(), re.M))
        with open(made[0], 'rb') as file:
            self.assertEqual(manifest['sha256'], hashlib.sha256(file.read()).hexdigest())
        self.assertEqual((manifest['name'], manifest['uri']), ('replay', 'https://example.org/replay.tar.gz'))
        self.assertRegex(manifest['version'], r'^v\d+\.\d+\.\d+$')
        store, bin = os.path.join(self.folder, 'store'), os.path.join(self.folder, 'bin')
        shutil.unpack_archive(made[0], store)
        os.mkdir(bin)
        os.symlink(os.path.join(store, manifest['bin']), os.path.join(bin, 'kubectl-replay'))
        self.assertEqual([name for _, _, names in os.walk(store) for name in names if name.startswith('test_')], [])
        place = {'PATH': bin + ':' + self.place['PATH'].replace(TOP + ':', ''), 'KUBE_REPLAY_PROGRAM': '', 'KUBE_LENS_PROGRAM': ''}
        self.assertEqual(self.answer('kill-leader', **place), self.answer('kill-leader'))
        self.assertEqual(self.call('margin', **place)[1], self.call('margin')[1])

    def builds(self):
        """The programs that are named, where they are other than the built ones."""
        named = {'--program': PLACE['KUBE_REPLAY_PROGRAM'], '--lens': PLACE['KUBE_LENS_PROGRAM']}
        return [word for flag, path in named.items() if path not in PROGRAMS.values() for word in (flag, path)]


def main():
    words = argparse.ArgumentParser(description=__doc__, formatter_class=argparse.RawDescriptionHelpFormatter)
    words.add_argument('--kubectl', metavar='FILE', default=shutil.which('kubectl'))
    words.add_argument('--program', metavar='COMMAND', default=PROGRAMS['kube_replay'])
    words.add_argument('--lens', metavar='COMMAND', default=PROGRAMS['kube_lens'])
    words.add_argument('test', nargs='*', metavar='TEST', help='a class, or CLASS.test_name')
    given = words.parse_args()
    if not given.kubectl:
        sys.exit('test_kubectl_replay: kubectl is not on PATH; --kubectl names one')
    with tempfile.TemporaryDirectory() as folder:
        os.symlink(os.path.abspath(given.kubectl), os.path.join(folder, 'kubectl'))
        os.environ['PATH'] = ':'.join([folder, TOP, os.environ['PATH']])
        PLACE.update(PATH=os.environ['PATH'], KUBE_REPLAY_PROGRAM=given.program, KUBE_LENS_PROGRAM=given.lens)
        os.environ.update(PLACE)
        unittest.main(argv=[sys.argv[0], *given.test], verbosity=2)


if __name__ == '__main__':
    main()
