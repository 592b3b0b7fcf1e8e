#!/usr/bin/env python3
"""Makes large clusters by make-cluster, looks at what is in them, and runs a small one in both forms: by sets, and with each pod written out.

    python3 tools/test/test_make_cluster.py [--program COMMAND]

COMMAND is the program, by default the built one. The exit status is 1 where anything differs.
"""
import argparse
import collections
import json
import os
import shlex
import subprocess
import sys

from places import TOOLS, built

faults = []


def same(what, found, wanted):
    if found != wanted:
        faults.append(what)
        print('DIFFERS %s: found %.600r, wanted %.600r' % (what, found, wanted))


def make(*words):
    return subprocess.run([sys.executable, os.path.join(TOOLS, 'make-cluster'), *words], stdout=subprocess.PIPE, stderr=subprocess.PIPE, text=True)


def pods_of(document):
    """Each pod that a document says by sets, in order, worked out here again."""
    pods = []
    for each in document['podSets']:
        number = 0
        for member in each['on']:
            for _ in range(member['pods']):
                pods.append((each['namespace'], '%s-%d' % (each['name'], number), member['node'], each['tolerations']))
                number += 1
    return pods


def test_counts():
    """As many nodes, pods, sets and zones as was said; nodes have pods evenly; one zone is killed at minute ten."""
    made = json.loads(make('90', '2700', '--kill-zone').stdout)
    pods = pods_of(made)
    same('counts', (made['version'], len(made['kubelets']), len(made['objects']['items']), len(made['podSets']), len(pods)), (4, 90, 90, 60, 2_700))
    same('each name once', len({pod[:2] for pod in pods}), 2_700)
    same('on each node', set(collections.Counter(pod[2] for pod in pods).values()), {30})
    same('an hour', made['settings']['endBeat'] * made['settings']['beatMillis'], 3_600_000)
    zones = collections.Counter(item['metadata']['labels']['topology.kubernetes.io/zone'] for item in made['objects']['items'])
    same('zones', zones, {'z0': 30, 'z1': 30, 'z2': 30})
    killed = {'kubelet/' + item['metadata']['name'] for item in made['objects']['items'] if item['metadata']['labels']['topology.kubernetes.io/zone'] == 'z0'}
    same('killed', ({event['process'] for event in made['events']}, {(event['beat'], event['type']) for event in made['events']}), (killed, {(600, 'crash')}))
    same('what pods tolerate', collections.Counter(str([each.get('tolerationSeconds') for each in one['tolerations']]) for one in made['podSets']),
         {'[300, 300]': 42, '[30, 30]': 6, '[]': 6, '[None, None]': 6})
    other = json.loads(make('10', '65', '--zones', '2', '--beats', '50').stdout)
    same('other words', (len(pods_of(other)), other['settings']['endBeat'], other['events']), (65, 50, []))


def test_largest():
    """The largest cluster that a document of version 4 can have."""
    text = make('15000', '450000', '--kill-zone').stdout
    made = json.loads(text)
    same('the largest', (len(made['kubelets']), sum(member['pods'] for each in made['podSets'] for member in each['on']), len(text) <= 16_777_216), (15_000, 450_000, True))


def test_refused():
    for words, wanted in ((('0', '5'), 'NODES is 1 to 15000'), (('15001', '5'), 'NODES is'), (('5', '450001'), 'PODS 0 to 450000'), (('5', '5', '--zones', '6'), 'Z is 1 to NODES'),
                          (('5', '5', '--kill-zone', '--beats', '599'), 'let it run longer'), (('5', '5', '--sets', '--written-out'), 'not allowed')):
        done = make(*words)
        same('refused %s' % (words,), (done.returncode, done.stdout, wanted in done.stderr), (2, '', True))
    done = make('1000', '100000', '--written-out')
    same('too long', (done.returncode, done.stdout, 'at most 16777216 are read' in done.stderr), (1, '', True))


def test_run(program):
    """The pods written out are those of the sets, and the program's trace is the same; in the zone that was killed all nodes are marked, and all
    pods go but those that tolerate it for ever."""
    words = ('30', '600', '--kill-zone', '--beats', '1500')
    sets, out = make(*words).stdout, make(*words, '--written-out').stdout
    made = json.loads(out)
    found = [(pod['metadata']['namespace'], pod['metadata']['name'], pod['spec']['nodeName'], pod['spec']['tolerations'])
             for pod in made['objects']['items'] if pod['kind'] == 'Pod']
    same('written out', found, pods_of(json.loads(sets)))
    same('all else is the same', [made[key] for key in ('version', 'settings', 'controllers', 'kubelets', 'events')],
         [json.loads(sets)[key] for key in ('version', 'settings', 'controllers', 'kubelets', 'events')])
    run = lambda command, text: subprocess.run([*shlex.split(program), command], input=text, stdout=subprocess.PIPE, text=True).stdout
    same('check', run('check', out), 'ok controllers=3 kubelets=30 nodes=30 leases=0 pods=600 skipped=0 events=10 premise=yes\n')
    trace = run('replay', out)
    lines = [line.split() for line in trace.splitlines()[1:]]
    killed = {'n%d' % number for number in range(0, 30, 3)}
    same('marked', {line[3] for line in lines if line[2] == 'unknown'}, killed)
    is_for_ever = lambda tolerations: bool(tolerations) and 'tolerationSeconds' not in tolerations[0]
    gone = {'%s/%s' % pod[:2] for pod in found if pod[2] in killed and not is_for_ever(pod[3])}
    same('evicted', ({line[3] for line in lines if line[2] == 'evict'}, len(gone) > 100), (gone, True))
    same('by sets', run('replay', sets), trace)


def main():
    options = argparse.ArgumentParser(description=__doc__.splitlines()[0])
    options.add_argument('--program', default=built('kube_replay'))
    given = options.parse_args()
    for test in (test_counts, test_largest, test_refused):
        test()
    test_run(given.program)
    print('%d faults' % len(faults) if faults else 'done')
    sys.exit(1 if faults else 0)


if __name__ == '__main__':
    main()
