#!/usr/bin/env python3
"""Runs `check` on documents that are as large as docs/document.md allows, and on those that go one over.

    python3 bench/limits.py [--program COMMAND] [--only WORD]

COMMAND is a program that takes the word `check` and the document on standard input, by default the one that run.py measures.
--only takes the documents with WORD in their name. The table has the bytes, the seconds, and the line that is expected. Where the
program writes another line, or ends with another status, a second line says so, and the exit status is 1.
"""
import argparse
import os
import shlex
import subprocess
import sys
import time

from run import MOST_BYTES, PROGRAM, text_of

COUNTS = 'controllers', 'kubelets', 'nodes', 'leases', 'pods', 'skipped', 'events'


def accepted(**counts):
    """The line on a document with these counts, one controller otherwise, whose settings are the defaults."""
    counts = {'controllers': 1, **counts}
    return 'ok %s premise=yes' % ' '.join('%s=%d' % (name, counts.get(name, 0)) for name in COUNTS)


def document(settings=None, **keys):
    given = {'version': 1, 'settings': {'endBeat': 60, **(settings or {})}, 'controllers': [{'name': 'cp-east-1'}], **keys}
    return text_of(given)


def with_items(items):
    return document(objects={'apiVersion': 'v1', 'kind': 'List', 'items': items})


def manifest(kind, name, **keys):
    version = 'coordination.k8s.io/v1' if kind == 'Lease' else 'v1'
    return {'apiVersion': version, 'kind': kind, 'metadata': {'name': name}, **keys}


def padded(size):
    """A small document with blanks behind it, so many bytes long."""
    return document().ljust(size)


def controllers(count):
    return document(controllers=[{'name': 'cp-%d' % i} for i in range(count)])


def kubelets(count):
    return document(kubelets=[{'node': 'worker-%d' % i} for i in range(count)])


def events(count):
    return document(events=[{'beat': 1, 'type': 'start', 'process': 'cp-east-1'}] * count)


def objects(kind):
    return lambda count: with_items([manifest(kind, 'item-%d' % i) for i in range(count)])


def skipped(count):
    return with_items([manifest('ConfigMap', 'settings')] * count)


def taints(count):
    each = [{'key': 'example.com/t%d' % i, 'effect': 'NoSchedule'} for i in range(count)]
    return with_items([manifest('Node', 'worker-1', spec={'taints': each})])


def tolerations(count):
    each = [{'key': 'example.com/t%d' % i, 'operator': 'Exists'} for i in range(count)]
    return with_items([manifest('Pod', 'web-1', spec={'tolerations': each})])


def nested(depth):
    """A document that nests so deep: in a field that isn't read, inside of four objects and arrays."""
    deep = 'DEEP'
    text = with_items([manifest('ConfigMap', 'settings', data=deep)])
    return text.replace(b'"DEEP"', b'[' * (depth - 4) + b']' * (depth - 4))


def arrays(depth):
    return b'[' * depth + b']' * depth


def week_of(beat_millis):
    return lambda end: document({'beatMillis': beat_millis, 'endBeat': end})


def delay(beats):
    return document(events=[{'beat': 1, 'type': 'delay', 'process': 'cp-east-1', 'requestBeats': beats, 'replyBeats': 1}])


def name(length):
    return document(controllers=[{'name': 'a' * length}])


def of_version_4(settings=None, **keys):
    return document(settings, **{'version': 4, **keys})


def with_items_4(kind):
    return lambda count: of_version_4(objects={'apiVersion': 'v1', 'kind': 'List', 'items': [manifest(kind, 'item-%d' % i) for i in range(count)]})


def kubelets_4(count):
    return of_version_4(kubelets=[{'node': 'worker-%d' % i} for i in range(count)])


def pods_of_sets(count):
    """So many pods, by sets of 90,000 and one of the rest."""
    counts = [90_000] * (count // 90_000) + [count % 90_000] * (count % 90_000 > 0)
    return of_version_4(podSets=[{'name': 'set-%d' % i, 'on': [{'node': 'worker-1', 'pods': pods}]} for i, pods in enumerate(counts)])


def pod_sets(count):
    return of_version_4(podSets=[{'name': 'set-%d' % i, 'on': [{'node': 'worker-1', 'pods': 1}]} for i in range(count)])


def members(count):
    return of_version_4(podSets=[{'name': 'web', 'on': [{'node': 'worker-%d' % i, 'pods': 1} for i in range(count)]}])


def pods_of_a_member(count):
    return of_version_4(podSets=[{'name': 'web', 'on': [{'node': 'worker-1', 'pods': count}]}])


def name_of_a_set(length):
    return of_version_4(podSets=[{'name': 'a' * length, 'on': [{'node': 'worker-1', 'pods': 1}]}])


def waits(count):
    return of_version_4(controllers=[{'name': 'cp-east-1', 'waits': [1_000] * count}])


def longest_wait(wait):
    return of_version_4(controllers=[{'name': 'cp-east-1', 'waits': [wait]}])


def first_sync(millis):
    return of_version_4({'firstSyncMillis': millis})


def stall(beats):
    return of_version_4(events=[{'beat': 1, 'type': 'stall', 'beats': beats}])


# Each limit: what it is of, how its document is made, the limit itself, the line there, and the line on one more.
LIMITS = [
    ('bytes', padded, MOST_BYTES, accepted(), 'refused 33 /'),
    ('nesting', nested, 127, accepted(skipped=1), 'refused 1 /'),
    ('nesting-arrays', arrays, 127, 'refused 2 /', 'refused 1 /'),
    ('controllers', controllers, 16, accepted(controllers=16), 'refused 32 /controllers'),
    ('kubelets', kubelets, 1_000, accepted(kubelets=1_000), 'refused 32 /kubelets'),
    ('nodes', objects('Node'), 1_000, accepted(nodes=1_000), 'refused 32 /objects/items/1000'),
    ('leases', objects('Lease'), 2_000, accepted(leases=2_000), 'refused 32 /objects/items/2000'),
    ('pods', objects('Pod'), 30_000, accepted(pods=30_000), 'refused 32 /objects/items/30000'),
    ('skipped', skipped, 100_000, accepted(skipped=100_000), accepted(skipped=100_001)),
    ('events', events, 100_000, accepted(events=100_000), 'refused 32 /events'),
    ('taints', taints, 100, accepted(nodes=1), 'refused 32 /objects/items/0/spec/taints'),
    ('tolerations', tolerations, 100, accepted(pods=1), 'refused 32 /objects/items/0/spec/tolerations'),
    ('end-of-short-beats', week_of(1), 604_800_000, accepted(), 'refused 6 /settings/endBeat'),
    ('end-of-long-beats', week_of(1_000), 604_800, accepted(), 'refused 6 /settings/endBeat'),
    ('delay', delay, 6_000, accepted(events=1), 'refused 6 /events/0/requestBeats'),
    ('name', name, 253, accepted(), 'refused 6 /controllers/0/name'),
    ('kubelets-4', kubelets_4, 15_000, accepted(kubelets=15_000), 'refused 32 /kubelets'),
    ('nodes-4', with_items_4('Node'), 15_000, accepted(nodes=15_000), 'refused 32 /objects/items/15000'),
    ('leases-4', with_items_4('Lease'), 30_000, accepted(leases=30_000), 'refused 32 /objects/items/30000'),
    ('pods-of-sets', pods_of_sets, 450_000, accepted(pods=450_000), 'refused 32 /podSets/5'),
    ('sets', pod_sets, 100_000, accepted(pods=100_000), 'refused 32 /podSets'),
    ('members', members, 15_000, accepted(pods=15_000), 'refused 32 /podSets/0/on'),
    ('pods-of-a-member', pods_of_a_member, 100_000, accepted(pods=100_000), 'refused 6 /podSets/0/on/0/pods'),
    ('name-of-a-set', name_of_a_set, 242, accepted(pods=1), 'refused 6 /podSets/0/name'),
    ('waits', waits, 1_000, accepted(), 'refused 32 /controllers/0/waits'),
    ('wait', longest_wait, 2_200, accepted(), 'refused 6 /controllers/0/waits/0'),
    ('first-sync', first_sync, 604_800_000, accepted(), 'refused 6 /settings/firstSyncMillis'),
    ('stall', stall, 604_800_000, accepted(events=1), 'refused 6 /events/0/beats'),
]


def is_as_expected(program, title, text, line):
    """Runs `check` on a document, and writes a row on it."""
    start = time.monotonic()
    ended = subprocess.run([*program, 'check'], input=text, stdout=subprocess.PIPE)
    seconds = time.monotonic() - start
    status = 0 if line.startswith('ok ') else 1
    print('%-30s %10d %8.3f  %s' % (title, len(text), seconds, line), flush=True)
    if (ended.returncode, ended.stdout) == (status, line.encode() + b'\n'):
        return True
    print('%-30s DIFFERS: status %d, %r' % ('', ended.returncode, ended.stdout[:200]), flush=True)
    return False


def main():
    parser = argparse.ArgumentParser(description=__doc__, formatter_class=argparse.RawDescriptionHelpFormatter)
    parser.add_argument('--program', default=shlex.quote(PROGRAM))
    parser.add_argument('--only', default='')
    given = parser.parse_args()
    program = shlex.split(given.program)
    if program == [PROGRAM] and not os.access(PROGRAM, os.X_OK):
        parser.error("no built program: run 'cd crates/kube_replay && rt run -- replay < ../../examples/one-controller.json' first, or give --program")
    wrong = 0
    print('%-30s %10s %8s  %s' % ('document', 'bytes', 'seconds', 'line'))
    for title, make, most, line, line_over in LIMITS:
        for count, expected in (most, line), (most + 1, line_over):
            full = '%s-%d' % (title, count)
            if given.only in full and not is_as_expected(program, full, make(count), expected):
                wrong += 1
    return 1 if wrong else 0


if __name__ == '__main__':
    sys.exit(main())
