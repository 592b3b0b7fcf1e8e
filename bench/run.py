#!/usr/bin/env python3
"""Measures the built program, and a reference beside it where one is given, on the same documents.

    python3 bench/run.py [--program COMMAND] [--reference COMMAND] [--json COMMAND] [--only NAME ..] [--runs N] [--divide N] [--keep FOLDER]

COMMAND is a program that takes the words `replay` or `check` and the document on standard input, and `generate` with its four
numbers; the first one is by default crates/kube_replay/out/kube_replay, which `cd crates/kube_replay && rt run` builds. Each is
run N times (1), the least time counts. --divide makes the beats and the objects fewer by that factor, for a reference that is
slow. --keep leaves the documents in a folder. The table has wall-clock seconds, those of the processor, the greatest resident memory, and how
many times the reference's time is the program's. With --json COMMAND each row of `check` has the processor seconds and the memory of a program
that does nothing but read the same JSON, as the one does that bench/read_json.sh builds. The exit status
is 1 where program and reference write different bytes or end differently, or the program doesn't end with 0.
"""
import argparse
import collections
import hashlib
import json
import os
import random
import shlex
import subprocess
import sys
import tempfile
import time

TOP = os.path.dirname(os.path.dirname(os.path.abspath(__file__)))
PROGRAM = os.path.join(TOP, 'crates', 'kube_replay', 'out', 'kube_replay')
MOST_BYTES = 16_777_216


def one_controller(divide):
    """A week of one controller, all settings by default."""
    return {'version': 1, 'settings': {'endBeat': 6_048_000 // divide}, 'controllers': [{'name': 'cp-east-1'}]}


def skewed_clocks(divide):
    """Sixteen controllers, whose clocks go between 1.5 per cent slow and 1.5 per cent fast."""
    controllers = [{'name': 'cp-%d' % i, 'ratePpm': 985_000 + 2_000 * i} for i in range(16)]
    return {'version': 1, 'settings': {'endBeat': 600_000 // divide}, 'controllers': controllers}


def large_document(divide):
    """As many objects and events as fit: close to the limit of bytes where nothing is divided."""
    items = []
    for i in range(1_000 // divide):
        labels = {'kubernetes.io/hostname': 'node-%d' % i, 'topology.kubernetes.io/region': 'eu',
                  'topology.kubernetes.io/zone': 'eu-%d' % (i % 5)}
        ready = {'type': 'Ready', 'status': 'True', 'reason': 'KubeletReady',
                 'lastHeartbeatTime': '2023-12-31T23:58:00Z', 'lastTransitionTime': '2023-11-02T09:00:40Z'}
        items.append({'apiVersion': 'v1', 'kind': 'Node', 'metadata': {'name': 'node-%d' % i, 'labels': labels},
                      'status': {'conditions': [{'type': 'MemoryPressure', 'status': 'False'}, ready]}})
    for i in range(2_000 // divide):
        items.append({'apiVersion': 'coordination.k8s.io/v1', 'kind': 'Lease',
                      'metadata': {'namespace': 'kube-node-lease', 'name': 'node-%d' % i},
                      'spec': {'holderIdentity': 'node-%d' % i, 'leaseDurationSeconds': 40,
                               'renewTime': '2023-12-31T23:59:55.000000Z'}})
    tolerations = [{'effect': 'NoExecute', 'key': 'node.kubernetes.io/' + w, 'operator': 'Exists', 'tolerationSeconds': 300}
                   for w in ('not-ready', 'unreachable')]
    for i in range(30_000 // divide):
        items.append({'apiVersion': 'v1', 'kind': 'Pod', 'metadata': {'namespace': 'shop', 'name': 'web-%d' % i},
                      'spec': {'nodeName': 'node-%d' % (i % 1_000), 'tolerations': tolerations,
                               'containers': [{'name': 'main', 'image': 'registry.example/web:1'}]}})
    document = {'version': 1, 'settings': {'endBeat': 100_000},
                'controllers': [{'name': 'cp-east-1'}, {'name': 'cp-east-2'}],
                'objects': {'apiVersion': 'v1', 'kind': 'List', 'items': items}}
    if divide == 1:
        room = MOST_BYTES - len(text_of(document)) - 100
    else:
        room = 60_000 // divide * 60
    events = []
    while room > 0 and len(events) < 100_000:
        event = {'beat': len(events), 'type': ('crash', 'start')[len(events) % 2], 'process': 'cp-east-2'}
        room -= len(text_of(event)) + 1
        events.append(event)
    document['events'] = events
    return document


def kubelets(count, beat_millis, skew):
    """An hour of kubelets. Skewed clocks go between 1 per cent slow and 1 per cent fast, and are up to 3 s off at first."""
    def document(divide):
        drawn = random.Random(5)
        found = []
        for i in range(count // divide):
            clock = {'ratePpm': drawn.randint(990_000, 1_010_000), 'offsetMillis': drawn.randint(-3_000, 3_000)} if skew else {}
            found.append({'node': 'node-%d' % i, **clock})
        settings = {'beatMillis': beat_millis, 'endBeat': 3_600_000 // beat_millis // divide}
        return {'version': 2, 'settings': settings, 'controllers': [{'name': 'cp-east-1'}], 'kubelets': found}
    return document


def large_cluster(nodes, pods, beats, kill_zone):
    """A cluster that tools/make-cluster makes, whose pods are said by sets; in some a zone dies at minute ten. Its end doesn't move."""
    def document(divide):
        words = [str(nodes // divide), str(pods // divide), '--beats', str(beats), *['--kill-zone'] * kill_zone]
        return json.loads(subprocess.run([sys.executable, os.path.join(TOP, 'tools', 'make-cluster'), *words], stdout=subprocess.PIPE, check=True).stdout)
    return document


def due_at_once(divide):
    """A hundred nodes that are unreachable, with 30,000 pods that tolerate nothing: all are due at once, and deleted 30 at once and then 20 a second."""
    where = {'topology.kubernetes.io/region': 'eu', 'topology.kubernetes.io/zone': 'eu-1'}
    taint = {'key': 'node.kubernetes.io/unreachable', 'effect': 'NoExecute', 'timeAdded': '2023-12-31T23:00:00Z'}
    items = [{'apiVersion': 'v1', 'kind': 'Node', 'metadata': {'name': 'node-%d' % i, 'labels': where}, 'spec': {'taints': [taint]},
              'status': {'conditions': [{'type': 'Ready', 'status': 'Unknown'}]}} for i in range(100)]
    # A node that is ready, so that taints aren't taken off as where all zones are down.
    items.append({'apiVersion': 'v1', 'kind': 'Node', 'metadata': {'name': 'well'}, 'status': {'conditions': [{'type': 'Ready', 'status': 'True'}]}})
    pods = [{'node': 'node-%d' % i, 'pods': 300 // divide} for i in range(100)]
    settings = {'endBeat': 15_100 // divide, 'gracePeriodMillis': 604_800_000, 'evictFrom': 'seen', 'evictBurst': 30, 'evictRate': 20_000}
    return {'version': 4, 'settings': settings, 'controllers': [{'name': 'cp-east-1'}], 'podSets': [{'name': 'web', 'namespace': 'shop', 'on': pods}],
            'objects': {'apiVersion': 'v1', 'kind': 'List', 'items': items}}


def nothing(_):
    """`generate` reads no document."""
    return None


CASES = [('one-controller', 'replay', one_controller), ('skewed-clocks', 'replay', skewed_clocks),
         ('large-document', 'check', large_document),
         ('1000-kubelets-10ms', 'replay', kubelets(1_000, 10, False)), ('1000-skewed-kubelets-10ms', 'replay', kubelets(1_000, 10, True)),
         ('1000-skewed-kubelets-1ms', 'replay', kubelets(1_000, 1, True)), ('100-skewed-kubelets-10ms', 'replay', kubelets(100, 10, True)),
         ('generated', 'generate', nothing),
         ('1000-nodes-zone-dies', 'replay', large_cluster(1_000, 30_000, 3_600, True)),
         ('5000-nodes-zone-dies', 'replay', large_cluster(5_000, 150_000, 3_600, True)),
         ('15000-nodes', 'replay', large_cluster(15_000, 450_000, 600, False)), ('30000-pods-due-at-once', 'replay', due_at_once),
         ('5000-nodes', 'check', large_cluster(5_000, 150_000, 3_600, True))]


def text_of(value):
    return b'' if value is None else json.dumps(value, separators=(',', ':')).encode()


def words_of(word, divide):
    """The program's words: those of `generate` are a seed, and how many nodes, pods and beats there are."""
    if word != 'generate':
        return [word]
    return [word, '7', *(str(many // divide) for many in (1_000, 30_000, 1_200))]


Run = collections.namedtuple('Run', 'seconds processor mebibytes status digest')


def measured(command, path):
    """Runs once: seconds, those of the processor, peak memory in MiB, exit status, and a digest of what was written."""
    with open(path, 'rb') as given, tempfile.TemporaryFile() as written, tempfile.NamedTemporaryFile('r') as told:
        start = time.monotonic()
        status = subprocess.run(['/usr/bin/time', '-q', '-f', '%U %S %M', '-o', told.name, *command],
                                stdin=given, stdout=written).returncode
        seconds = time.monotonic() - start
        user, system, kibibytes = map(float, told.read().split()[-3:])
        written.seek(0)
        digest = hashlib.sha256()
        size = 0
        for piece in iter(lambda: written.read(1 << 20), b''):
            digest.update(piece)
            size += len(piece)
    return Run(seconds, user + system, kibibytes / 1024, status, (size, digest.hexdigest()))


def best(command, path, runs):
    """Of several runs the least times, and the greatest memory of all."""
    every = [measured(command, path) for _ in range(runs)]
    return min(every)._replace(processor=min(run.processor for run in every), mebibytes=max(run.mebibytes for run in every))


def options():
    parser = argparse.ArgumentParser(description=__doc__, formatter_class=argparse.RawDescriptionHelpFormatter)
    parser.add_argument('--program', default=shlex.quote(PROGRAM))
    parser.add_argument('--reference')
    parser.add_argument('--json')
    parser.add_argument('--only', nargs='+', choices=[name for name, _, _ in CASES])
    parser.add_argument('--runs', type=int, default=1)
    parser.add_argument('--divide', type=int, default=1)
    parser.add_argument('--keep')
    given = parser.parse_args()
    if given.runs < 1 or given.divide < 1:
        parser.error('--runs and --divide are at least 1')
    if shlex.split(given.program) == [PROGRAM] and not os.access(PROGRAM, os.X_OK):
        parser.error("no built program: run 'cd crates/kube_replay && rt run -- replay < ../../examples/one-controller.json' first, or give --program")
    return given


ROW = '%-25s %-8s %10s %10s %9s %9s %9s %11s %9s %7s  %s'
HEAD = ('document', 'command', 'bytes in', 'bytes out', 'seconds', 'processor', 'MiB', 'ref. sec.', 'ref. MiB', 'ratio', 'output')


def compared(given, name, word, path):
    """Prints the row of a document, and says whether all is well."""
    words = words_of(word, given.divide)
    run = best(shlex.split(given.program) + words, path, given.runs)
    cells = [name, word, os.path.getsize(path), run.digest[0], '%.3f' % run.seconds, '%.2f' % run.processor, '%.1f' % run.mebibytes, '', '', '', '']
    is_well = run.status == 0
    if not is_well:
        cells[-1] = 'status %d' % run.status
    if given.reference:
        theirs = best(shlex.split(given.reference) + words, path, given.runs)
        cells[7:10] = '%.3f' % theirs.seconds, '%.1f' % theirs.mebibytes, '%.1f' % (theirs.seconds / max(run.seconds, 1e-6))
        if is_well:
            is_well = (theirs.status, theirs.digest) == (run.status, run.digest)
            cells[-1] = 'same' if is_well else 'DIFFERS'
    print(ROW % tuple(cells), flush=True)
    if given.json and word == 'check':
        read = best(shlex.split(given.json), path, given.runs)
        print(ROW % ('', 'its JSON', '', '', '%.3f' % read.seconds, '%.2f' % read.processor, '%.1f' % read.mebibytes, '', '', '', ''), flush=True)
    return is_well


def main():
    given = options()
    wrong = 0
    print(ROW % HEAD)
    with tempfile.TemporaryDirectory() as room:
        folder = given.keep or room
        os.makedirs(folder, exist_ok=True)
        for name, word, make in CASES:
            if given.only and name not in given.only:
                continue
            path = os.path.join(folder, name + '.json')
            with open(path, 'wb') as file:
                file.write(text_of(make(given.divide)))
            wrong += not compared(given, name, word, path)
    return 1 if wrong else 0


if __name__ == '__main__':
    sys.exit(main())
