#!/usr/bin/env python3
"""Compares `kube_lens bounds` by flags, and of documents, with numbers that were worked out by hand.

    tools/test/test_lens_bounds_rows.py [--program PROGRAM]

PROGRAM is by default the built kube_lens. The exit status is 1 where anything differs. Nothing here is a proof.
"""
import argparse
import json
import subprocess
import sys

from lens_frame import USUAL_BOUNDS
from places import built

# Words, the exit status wanted, and lines that have to be there.
BY_FLAGS = (
    ('--timeout 2s --wait 4400ms --delay 100ms', 0, USUAL_BOUNDS.splitlines()),
    ('--timeout 2s --beat 1ms --delay 1ms --wait 4400ms', 0, ['crash nobody-leads at-least=13000ms at-most=23805ms']),
    ('--timeout 2s --beat 100ms --delay 100ms', 0, ['crash nobody-leads at-least=13400ms at-most=17800ms', 'stop nobody-leads at-least=400ms at-most=2500ms',
                                                    'cut-off acts-on-at-most=12100ms', 'calm leads at-most=19800ms stays-from at-most=30200ms']),
    ('--timeout 2s --beat 2ms --delay 2ms', 0, ['crash nobody-leads at-least=14032ms at-most=18040ms']),
    # Two ways of 100 ms are more than the call timeout.
    ('--beat 100ms --delay 100ms --timeout 199ms', 1, ['crash nobody-leads none', 'cut-off none', 'calm leads none stays-from none', 'node unknown none',
                                                       'node tainted ahead=0 none', 'pods gone toleration=300s none', 'may-end']),
    # Twelve beats are more than the renew deadline: somebody leads, by 20 + 9 + 12 beats and the looks at a lease, and doesn't stay.
    ('--beat 100ms --delay 300ms --least-delay 300ms --renew 1100ms --retry 900ms --timeout 2s --lease 15s', 1,
     ['crash nobody-leads none', 'stop nobody-leads none', 'cut-off acts-on-at-most=2500ms', 'may-end']),
    ('--beat 100ms --delay 300ms --least-delay 300ms --renew 1200ms --retry 900ms --timeout 2s --lease 15s', 0, ['stays']),
    # No taint comes without a rate.
    ('--timeout 2s --rate 0', 0, ['node unknown at-least=34650ms at-most=50080ms', 'node tainted ahead=0 none', 'pods gone toleration=300s none']),
    # Two nodes before this one, at one in 2 s.
    ('--timeout 2s --beat 100ms --delay 100ms --rate 500 --ahead 2 --toleration 5s', 0,
     ['node tainted ahead=2 at-least=39100ms at-most=55900ms at-most-with-token=53900ms',
      'pods gone toleration=5s at-least=43200ms at-most=60900ms at-most-with-token=58900ms']),
    ('--timeout 2s --beat 100ms --delay 100ms --toleration 0s', 0, ['pods gone toleration=0s at-least=35100ms at-most=59900ms at-most-with-token=49900ms']),
    # Two leaders aren't ruled out.
    ('--timeout 10s', 0, ['crash leads at-least=12730ms at-most=19770ms']),
    # A kubelet that renews each 10 s is silent for longer than a grace of 1 s.
    ('--timeout 2s --grace 1s', 0, ['node unknown at-least=-5350ms at-most=10080ms']),
)

WRONG = (
    ('--wait 1s', 'the longest wait must not be shorter than the retry period'),
    ('--delay 5ms --least-delay 6ms', 'the delay must not be shorter than the least delay'),
    ('--renew 15s', 'the renew deadline must be shorter than the lease'),
    ('--toleration', '--toleration stands without a value'),
    ('--toleration 1500ms', '--toleration takes whole seconds from 0s to 24h, as 300s, not 1500ms'),
    ('--rate 1000001', '--rate takes nodes per 1,000 s up to 1000000, as 100, not 1000001'),
    ('--rate=', '--rate takes nodes per 1,000 s up to 1000000, as 100, not --rate='),
    ('--lease 15', '--lease takes whole seconds from 1s to 24h, as 15s or 1m30s, not 15'),
    ('--speed 1', 'no such flag: --speed'),
)

OBJECT = ('{"beatMillis":100,"leastDelayMillis":100,"delayMillis":100,"skewPpm":0,"leaseMillis":15000,"timeoutMillis":2000,"timeoutIsRenewDeadline":false,'
          '"retryMillis":2000,"waitMillis":2000,"crash":{"leastMillis":13400,"mostMillis":17800},"stop":{"leastMillis":400,"mostMillis":2500},'
          '"actsOnMillis":12100,"calmMillis":19800,"staysFromMillis":30200,"unknown":{"leastMillis":35100,"mostMillis":49900},"ahead":0,'
          '"taint":{"leastMillis":35100,"mostMillis":59900,"mostWithTokenMillis":49900},"tolerationSeconds":300,'
          '"gone":{"leastMillis":334200,"mostMillis":359900,"mostWithTokenMillis":349900},"stays":true,"safe":true}\n')

# Three controllers, of which the third asks each second: so it is the least, and the other two are the most. The tolerations are in the order of the pods.
PODS = [{'apiVersion': 'v1', 'kind': 'Pod', 'metadata': {'namespace': 'default', 'name': name}, 'spec': {'nodeName': 'n1', **spec}}
        for name, spec in (('p1', {'tolerations': [{'key': 'node.kubernetes.io/unreachable', 'operator': 'Exists', 'effect': 'NoExecute', 'tolerationSeconds': 30}]}),
                           ('p2', {}), ('p3', {'tolerations': [{'operator': 'Exists'}]}))]

DOCUMENT = {
    'version': 2, 'settings': {'endBeat': 100},
    'controllers': [{'name': 'c1'}, {'name': 'c2'}, {'name': 'c3', 'retryPeriodMillis': 1000}],
    'kubelets': [{'node': 'n1'}],
    'objects': {'apiVersion': 'v1', 'kind': 'List', 'items': PODS},
    'events': [],
}

LINES = '''delay=100ms..100ms
c1 crash nobody-leads at-least=13400ms at-most=17800ms
c1 stop nobody-leads at-least=400ms at-most=2500ms
c1 cut-off acts-on-at-most=12100ms
c1 calm leads at-most=19800ms stays-from at-most=30200ms
c2 crash nobody-leads at-least=13400ms at-most=17800ms
c2 stop nobody-leads at-least=400ms at-most=2500ms
c2 cut-off acts-on-at-most=12100ms
c2 calm leads at-most=19800ms stays-from at-most=30200ms
c3 crash nobody-leads at-least=14400ms at-most=17800ms
c3 stop nobody-leads at-least=400ms at-most=2500ms
c3 cut-off acts-on-at-most=11100ms
c3 calm leads at-most=19800ms stays-from at-most=30200ms
node unknown at-least=35100ms at-most=49900ms
node tainted ahead=0 at-least=35100ms at-most=59900ms at-most-with-token=49900ms
pods gone toleration=30s at-least=64200ms at-most=89900ms at-most-with-token=79900ms
pods gone toleration=0s at-least=35100ms at-most=59900ms at-most-with-token=49900ms
stays
'''


# Where passes take time, or nodes are silent by what is recorded, nothing of nodes is told; of taints nothing where nodes are judged at passes or stripped, or
# buckets start full; and of pods nothing where they are due by what is seen, or go within a limit.
NODES = ['node unknown at-least=35100ms at-most=49900ms', 'node tainted ahead=0 at-least=35100ms at-most=59900ms at-most-with-token=49900ms']
NO_PODS = ['pods gone toleration=30s none', 'pods gone toleration=0s none']
UNBOUND = [({'readyMillis': 1}, ['node unknown none', 'node tainted ahead=0 none'], NO_PODS), ({'evictFrom': 'seen'}, NODES, NO_PODS),
           ({'evictBurst': 30}, NODES, NO_PODS), ({'probe': 'record'}, ['node unknown none', 'node tainted ahead=0 none'], NO_PODS),
           *((rules, [NODES[0], 'node tainted ahead=0 none'], NO_PODS) for rules in ({'judge': 'pass'}, {'firstSight': 'strip'}, {'bucket': 'full'},
                                                                                    {'judge': 'pass', 'queue': 'again'})),
           ({'probe': 'run', 'judge': 'tick', 'firstSight': 'keep', 'queue': 'once', 'bucket': 'empty'}, NODES,
            [line for line in LINES.splitlines() if line.startswith('pods ')]),
           ({'readyBurst': 15, 'evictRate': 0, 'evictFrom': 'added', 'evictBurst': 0}, NODES, [line for line in LINES.splitlines() if line.startswith('pods ')])]

# Where leaders release their Leases otherwise than at stops alone nothing is told. A lease of 15 s isn't more than the 16 or 18 s that are asked for where a
# release asks first.
RELEASES = (({'release': 'stop', 'inRelease': 'still'}, None), ({'release': 'own'}, 'nobody-leads'), ({'release': 'checked'}, 'nobody-leads'),
            ({'release': 'reread'}, 'leads'), ({'release': 'reread', 'inRelease': 'acts'}, 'leads'))


def untold(word):
    """The lines of a document of which nothing is told."""
    leaders = [f'{name} {line}' for name in ('c1', 'c2', 'c3')
               for line in (f'crash {word} none', f'stop {word} none', 'cut-off none', 'calm leads none stays-from none')]
    return ['delay=100ms..100ms', *leaders, 'node unknown none', 'node tainted ahead=0 none', *NO_PODS, 'may-end']


def answer(program, words, text=''):
    ran = subprocess.run([program, 'bounds', *words], input=text, stdout=subprocess.PIPE, text=True, check=False)
    return ran.returncode, ran.stdout


def main():
    words = argparse.ArgumentParser(description=__doc__, formatter_class=argparse.RawDescriptionHelpFormatter)
    words.add_argument('--program', default=built('kube_lens'))
    program = words.parse_args().program
    wrong = []
    for flags, status, lines in BY_FLAGS:
        found = answer(program, flags.split())
        if found[0] != status or not set(lines) <= set(found[1].splitlines()):
            wrong.append((flags, found))
    for flags, last in WRONG:
        found = answer(program, flags.split())
        if found[0] != 2 or not found[1].startswith('usage: kube_lens bounds ') or found[1].splitlines()[1] != last:
            wrong.append((flags, found))
    if answer(program, BY_FLAGS[0][0].split()) != (0, USUAL_BOUNDS):
        wrong.append(USUAL_BOUNDS)
    if answer(program, '--timeout 2s --beat 100ms --delay 100ms --json'.split()) != (0, OBJECT):
        wrong.append(OBJECT)
    if answer(program, [], json.dumps(DOCUMENT)) != (0, LINES):
        wrong.append(answer(program, [], json.dumps(DOCUMENT)))
    told = answer(program, ['--json'], json.dumps(DOCUMENT))
    if told[0] != 0 or [x['crashLeastMillis'] for x in json.loads(told[1])['controllers']] != [13400, 13400, 14400]:
        wrong.append(told)
    alone = answer(program, [], json.dumps({**DOCUMENT, 'controllers': DOCUMENT['controllers'][:1], 'kubelets': [], 'objects': {'apiVersion': 'v1', 'kind': 'List', 'items': []}}))
    wanted = ['delay=100ms..100ms', 'c1 crash nobody-leads none', 'c1 stop nobody-leads none', 'c1 cut-off acts-on-at-most=12100ms',
              'c1 calm leads at-most=19800ms stays-from at-most=30200ms', 'node unknown none', 'node tainted ahead=0 none', 'stays']
    if alone != (0, '\n'.join(wanted) + '\n'):
        wrong.append(alone)
    for settings, nodes, pods in UNBOUND:
        found = answer(program, [], json.dumps({**DOCUMENT, 'version': 4, 'settings': {'endBeat': 100, **settings}}))
        lines = [line for line in LINES.splitlines() if not line.startswith(('node ', 'pods '))]
        if found != (0, '\n'.join(lines[:-1] + nodes + pods + lines[-1:]) + '\n'):
            wrong.append((settings, found))
    for settings, word in RELEASES:
        found = answer(program, [], json.dumps({**DOCUMENT, 'version': 4, 'settings': {'endBeat': 100, **settings}}))
        if found != ((0, LINES) if word is None else (1, '\n'.join(untold(word)) + '\n')):
            wrong.append((settings, found))
    print(f'{len(wrong)} differ', *wrong[:3], sep='\n')
    sys.exit(1 if wrong else 0)


if __name__ == '__main__':
    main()
