#!/usr/bin/env python3
"""Sweeps over the examples, and compares each answer with that of a single run, measured in another way.

    python3 tools/test/test_sweep.py [--program COMMAND] [--only NAME] [--install] [--pictures FOLDER]

COMMAND is a program that takes the word `replay` and the document on standard input, by default the built one; without it nothing is tried, since
a build for each of some 1,200 runs would take days. The sweeps run on all cores, broken off twice, and by GNU parallel over ssh to this machine,
whose server is started on a free port with keys of its own. Where parallel, rsync or the server are missing that part is left out, and told;
--install installs the distribution's packages. Each line has the seconds that it took. The exit status is 1 where anything differs.
--pictures keeps the pictures.
"""
import argparse
import csv
import json
import os
import shlex
import shutil
import signal
import socket
import subprocess
import sys
import tempfile
import time
from concurrent.futures import ThreadPoolExecutor

HERE = os.path.dirname(os.path.dirname(os.path.abspath(__file__)))
TOP = os.path.dirname(HERE)
sys.path.insert(0, os.path.join(TOP, 'view'))
import lines
from crash_bounds import CrashBounds

SWEEP = os.path.join(HERE, 'sweep.py')
BUILT = os.path.join(TOP, 'crates', 'kube_replay', 'out', 'kube_replay')
CRASHES = os.path.join(TOP, 'examples', 'leader-crashes', 'document.json')
ONE_CRASH = os.path.join(HERE, 'data', 'one-crash.json')
SILENT = os.path.join(HERE, 'data', 'silent-kubelets.json')
EVERY_FORM = os.path.join(TOP, 'view', 'data', 'every-form.txt')
PACKAGES = {'parallel': 'parallel', 'rsync': 'rsync', '/usr/sbin/sshd': 'openssh-server', 'ssh': 'openssh-client'}
faults = []


def same(what, found, wanted):
    if found != wanted:
        faults.append(what)
        print('DIFFERS %s: found %.300r, wanted %.300r' % (what, found, wanted))


def sweep(*words, folder, wait=True):
    command = [sys.executable, SWEEP, *words]
    if not wait:
        return subprocess.Popen(command, cwd=folder, stdout=subprocess.DEVNULL, stderr=subprocess.DEVNULL)
    done = subprocess.run(command, cwd=folder, stdout=subprocess.PIPE, stderr=subprocess.PIPE, text=True)
    if done.returncode != 0:
        print(done.stderr[-400:])
    same('status of ' + words[0], done.returncode, 0)
    return done.stdout


def read_csv(path):
    with open(path) as file:
        return list(csv.DictReader(file))


def read_bytes(path):
    with open(path, 'rb') as file:
        return file.read()


# Single runs, and their answers beat by beat

def single(given, folder, number, document):
    path = os.path.join(folder, 'single-%d.txt' % number)
    with open(path, 'w') as out:
        status = subprocess.run([*shlex.split(given.program), 'replay'], input=json.dumps(document).encode(), stdout=out).returncode
    return path if status == 0 else None


def failover(path):
    """The longest time without a leader between two leads, beat by beat."""
    head, rows = lines.read(path)
    gap = longest = None
    for beat in range(int(head['end']) + 1):
        if lines.leaders(rows, beat):
            longest = max(gap or 0, longest or 0) if gap is not None else longest
            gap = 0
        elif gap is not None:
            gap += 1
    if gap:
        return 'never'
    return '%g' % (longest * int(head['beat']) / 1000) if longest else ''


def evictions(path):
    return str(sum(words[0] == 'evict' and lines.taken(words) for _, _, _, words in lines.read(path)[1]))


def compare(name, given, folder, documents, question, measure):
    """All rows of a sweep's table with single runs of documents that are made here."""
    with ThreadPoolExecutor() as pool:
        paths = list(pool.map(lambda task: single(given, folder, *task), enumerate(documents)))
    found = [row[question] if row['outcome'] == 'done' else None for row in read_csv(os.path.join(folder, name, 'answers.csv'))]
    wanted = [path and measure(path) for path in paths]
    same(name, found, wanted)
    print('%s: %d runs, %d refused, from %s to %s' % (name, len(found), found.count(None), found[0], found[-1]), flush=True)


def load(path):
    with open(path) as file:
        return json.load(file)


def with_settings(path, **settings):
    document = load(path)
    document['settings'].update(settings)
    return document


def with_crash(beat):
    document = with_settings(CRASHES, endBeat=500)
    document['events'][0]['beat'] = beat
    document['events'].sort(key=lambda event: event['beat'])
    return document


# The tests

CRASH_WORDS = (CRASHES, 'crashes', '--set', '/settings/endBeat=500', '--vary', '/events/0/beat=5..204',
               '--ask', 'failover', '--ask', 'leaderless')


def test_lease_duration(given, folder):
    """Failover time against the lease duration; too short ones are refused."""
    sweep('all', CRASHES, 'leases', '--set', '/settings/endBeat=900', '--vary', '/settings/leaseDurationSeconds=9..60',
          '--ask', 'failover', '--program', given.program, folder=folder)
    documents = [with_settings(CRASHES, endBeat=900, leaseDurationSeconds=seconds) for seconds in range(9, 61)]
    compare('leases', given, folder, documents, 'failover', failover)


def test_crash_beat(given, folder):
    """Failover time against the beat of the crash, 200 runs."""
    sweep('all', *CRASH_WORDS, '--program', given.program, folder=folder)
    compare('crashes', given, folder, [with_crash(beat) for beat in range(5, 205)], 'failover', failover)


def test_two_values(given, folder):
    """Two values in a grid, drawn ones in pairs, and the same draws from the same seed."""
    sweep('all', CRASHES, 'both', '--set', '/settings/endBeat=500', '--vary', '/settings/leaseDurationSeconds=12,15,20,30',
          '--vary', '/events/0/beat=5..105..2', '--ask', 'failover', '--program', given.program, folder=folder)
    rows = read_csv(os.path.join(folder, 'both', 'answers.csv'))
    same('a grid', (len(rows), len({(row['/settings/leaseDurationSeconds'], row['/events/0/beat']) for row in rows})), (204, 204))
    for name in ('draws', 'draws-again'):
        sweep('all', CRASHES, name, '--vary', '/events/0/beat=random:5..60:12',
              '--vary', '/controllers/*/ratePpm=random:990000..1010000:12', '--seed', '7', '--ask', 'leaderless',
              '--program', given.program, folder=folder)
    tables = [read_bytes(os.path.join(folder, name, 'answers.csv')) for name in ('draws', 'draws-again')]
    same('draws of one seed', (tables[0], len(tables[0].splitlines())), (tables[1], 13))


def spans(folder, name):
    """The answers of a sweep, in seconds."""
    return [float(row['failover']) for row in read_csv(os.path.join(folder, name, 'answers.csv'))]


def ends(found):
    return len(found), min(found), max(found)


def test_bounds_of_a_crash(given, folder):
    """A crash at each beat, with even clocks and one delay: what is proved is reached at both ends, also with beats of 2 ms."""
    words = ('--ask', 'failover', '--program', given.program)
    sweep('all', ONE_CRASH, 'each', '--vary', '/events/0/beat=6,7', '--vary', '/events/1/beat=30..330', *words, folder=folder)
    same('a crash at each beat', ends(spans(folder, 'each')), (602, 13.4, 17.8))
    sweep('all', ONE_CRASH, 'short', '--set', '/settings/beatMillis=2', '--set', '/settings/endBeat=12000', '--vary', '/events/0/beat=5,6',
          '--vary', '/events/1/beat=7,1010', *words, folder=folder)
    same('beats of 2 ms', ends(spans(folder, 'short')), (4, 14.032, 18.04))
    bounds = CrashBounds().of_any(load(ONE_CRASH))
    if not bounds:
        print('a crash at each beat: kube_lens tells no bounds of it here, so they are left out', flush=True)
        return
    same('bounds', bounds, (13.4, 17.8))
    with open(os.path.join(folder, 'each', 'answers.svg')) as file:
        picture = file.read()
    same('bounds in the picture', [words in picture for words in ('at least 13.4, proved', 'at most 17.8, proved', 'stroke-dasharray')], [True] * 3)


def test_bounds_of_a_stop(given, folder):
    """A stop at each beat: what is proved of one whose release is accepted, or of a crash."""
    document = load(ONE_CRASH)
    document.update(controllers=[{'name': 'kcm-a'}, {'name': 'kcm-b'}], events=[{'beat': 30, 'type': 'stop', 'process': 'kcm-a'}])
    with open(os.path.join(folder, 'stop.json'), 'w') as file:
        json.dump(document, file)
    sweep('all', 'stop.json', 'stops', '--vary', '/events/0/beat=30..330', '--ask', 'failover', '--program', given.program, folder=folder)
    found = spans(folder, 'stops')
    released, refused = [span for span in found if span <= 2.5], [span for span in found if span > 2.5]
    same('a stop at each beat', ends(released), (275, .4, 2.5))
    same('a release that is refused', 13.4 <= min(refused) and max(refused) <= 17.8, True)


def test_document_with_nodes(given, folder):
    """The trace of view/data that stands beside its document is the program's."""
    trace = single(given, folder, 0, load(os.path.join(TOP, 'view', 'data', 'zone-outage.json')))
    same('zone-outage', read_bytes(trace), read_bytes(os.path.join(TOP, 'view', 'data', 'zone-outage.txt')))


def test_grace_period(given, folder):
    """Evictions against the grace period."""
    sweep('all', SILENT, 'grace', '--vary', '/settings/gracePeriodMillis=20000..200000..10000', '--ask', 'evictions',
          '--ask', 'taints-a-minute', '--program', given.program, folder=folder)
    documents = [with_settings(SILENT, gracePeriodMillis=millis) for millis in range(20_000, 200_001, 10_000)]
    compare('grace', given, folder, documents, 'evictions', evictions)


def traces(folder):
    runs = os.path.join(folder, 'runs')
    names = [name for name in os.listdir(runs) if name.endswith('.trace')] if os.path.isdir(runs) else []
    return {name: os.stat(os.path.join(runs, name)).st_ino for name in names}


def test_broken_off(given, folder):
    """Killed once and interrupted once, it goes on, and ends with the same bytes. Each run takes a moment longer, so that it is broken off before its end."""
    slow = shlex.join(['sh', '-c', 'sleep .02; exec "$@"', 'slow', *shlex.split(given.program)])
    words = ('all', CRASH_WORDS[0], 'broken', *CRASH_WORDS[2:], '--jobs', '1', '--program', slow)
    broken = os.path.join(folder, 'broken')
    for count, stroke in ((15, signal.SIGKILL), (40, signal.SIGINT)):
        running = sweep(*words, folder=folder, wait=False)
        while len(traces(broken)) < count and running.poll() is None:
            time.sleep(.05)
        running.send_signal(stroke)
        running.wait()
        before = traces(broken)
        same('broken off after some', count <= len(before) < 200, True)
    sweep(*words[:-4], '--program', given.program, folder=folder)
    after = traces(broken)
    same('no run is done twice', {name: after[name] for name in before}, before)
    for name in ('answers.csv', 'answers.svg'):
        same('broken off: ' + name, read_bytes(os.path.join(broken, name)), read_bytes(os.path.join(folder, 'crashes', name)))
    print('broken off with %d traces, then whole' % len(before), flush=True)


def lacking():
    return sorted({package for command, package in PACKAGES.items() if not shutil.which(command)})


def install(packages):
    if packages:
        subprocess.run(['apt-get', 'update', '-qq'], check=True)
        subprocess.run(['apt-get', 'install', '-y', '-qq', '--no-install-recommends', *packages], check=True, stdout=subprocess.DEVNULL)


def start_server(folder):
    """An ssh server on a free port of this machine, and the login that reaches it."""
    for name in ('host', 'user'):
        subprocess.run(['ssh-keygen', '-q', '-t', 'ed25519', '-N', '', '-f', os.path.join(folder, name)], check=True)
    with socket.socket() as free:
        free.bind(('127.0.0.1', 0))
        port = free.getsockname()[1]
    settings = {'Port': port, 'ListenAddress': '127.0.0.1', 'HostKey': os.path.join(folder, 'host'), 'PidFile': 'none', 'UsePAM': 'no',
                'AuthorizedKeysFile': os.path.join(folder, 'user.pub'), 'StrictModes': 'no', 'PasswordAuthentication': 'no',
                # As deep a shell reads no ~/.bashrc, which can take seconds at each of a hundred logins.
                'SetEnv': 'SHLVL=9'}
    with open(os.path.join(folder, 'sshd_config'), 'w') as file:
        file.writelines('%s %s\n' % pair for pair in settings.items())
    os.makedirs('/run/sshd', exist_ok=True)
    server = subprocess.Popen(['/usr/sbin/sshd', '-D', '-e', '-f', os.path.join(folder, 'sshd_config')], stderr=subprocess.DEVNULL)
    wishes = {'UserKnownHostsFile': folder + '/known', 'StrictHostKeyChecking': 'no', 'LogLevel': 'ERROR', 'IdentitiesOnly': 'yes',
              'ControlMaster': 'auto', 'ControlPath': folder + '/control', 'ControlPersist': '20'}
    words = ['-o %s=%s' % wish for wish in wishes.items()]
    login = 'ssh -p %d -i %s/user %s 127.0.0.1' % (port, folder, ' '.join(words))
    for _ in range(50):
        if subprocess.run([*login.split(), 'true'], stderr=subprocess.DEVNULL).returncode == 0:
            return server, login
        time.sleep(.1)
    raise RuntimeError('the ssh server does not answer')


def test_over_ssh(given, folder):
    """Twenty runs by GNU parallel over ssh to this machine: the same bytes as without."""
    if given.install:
        install(lacking())
    if lacking():
        print('over ssh: left out, since these packages are missing: %s; --install installs them' % ', '.join(lacking()), flush=True)
        return
    words = ('--vary', '/events/0/beat=5..204..10', '--ask', 'failover')
    sweep('all', CRASHES, 'near', *words, '--program', given.program, folder=folder)
    server, login = start_server(folder)
    try:
        sweep('plan', CRASHES, 'far', *words, folder=folder)
        names = sweep('missing', 'far', folder=folder)
        command = given.program + ' replay < {} > {.}.part; test $? -le 1 && mv {.}.part {.}.trace'
        subprocess.run(['parallel', '--will-cite', '--sshlogin', '4/' + login, '--workdir', '...',
                        '--transferfile', '{}', '--return', '{.}.trace', '--cleanup', command],
                       input=names, text=True, cwd=folder, check=True, stdout=subprocess.DEVNULL)
    finally:
        server.terminate()
        server.wait()
    sweep('table', 'far', folder=folder)
    same('runs over ssh', len(names.splitlines()), 20)
    for name in ('answers.csv', 'answers.svg'):
        same('over ssh: ' + name, read_bytes(os.path.join(folder, 'far', name)), read_bytes(os.path.join(folder, 'near', name)))
    print('over ssh: %d runs' % len(names.splitlines()), flush=True)


def test_shares(given, folder):
    """Three shares, as the pods of an Indexed Job take them: the same bytes."""
    sweep('plan', CRASH_WORDS[0], 'shares', *CRASH_WORDS[2:], folder=folder)
    for share in ('2/3', '0/3', '1/3'):
        sweep('replay', 'shares', '--share', share, '--program', given.program, folder=folder)
    sweep('table', 'shares', folder=folder)
    same('shares', read_bytes(os.path.join(folder, 'shares', 'answers.csv')), read_bytes(os.path.join(folder, 'crashes', 'answers.csv')))


def test_written_by_hand(given, folder):
    """Answers come from the trace alone: one that was written by hand is measured, also where it stands in for a program's."""
    wanted = {'premise': 'no', 'outcome': 'done', 'leaderless': '14', 'failover': 'never', 'two-leaders': '1.5', 'evictions': '1',
              'taints-a-minute': '1', 'eviction-delay': '1.5', 'eviction-delay:n.2': ''}
    asked = [word for question in list(wanted)[2:] for word in ('--ask', question)]
    found = list(csv.DictReader(sweep('measure', EVERY_FORM, *asked, folder=folder).splitlines()))
    same('measured', [{key: row[key] for key in wanted} for row in found], [wanted])
    stand_in = os.path.join(folder, 'stand_in')
    with open(stand_in, 'w') as file:
        file.write('#!/bin/sh\ncat > /dev/null\ncat %s\n' % shlex.quote(EVERY_FORM))
    os.chmod(stand_in, 0o755)
    sweep('all', CRASHES, 'hand', '--vary', '/settings/endBeat=1..3', *asked, '--program', stand_in, folder=folder)
    rows = read_csv(os.path.join(folder, 'hand', 'answers.csv'))
    same('stood in', [{key: row[key] for key in wanted} for row in rows], [wanted] * 3)


TOLERATIONS = os.path.join(TOP, 'examples', 'tolerations')


def test_pods(given, folder):
    """Each pod's delay: silent at 15 s, marked and tainted at 62 s, and then what the pod tolerates."""
    words = ('pods', os.path.join(TOLERATIONS, 'document.json'), os.path.join(TOLERATIONS, 'trace.txt'))
    rows = {row.pop('pod'): row for row in csv.DictReader(sweep(*words, folder=folder).splitlines())}
    tolerated = {'default/none': 0, 'default/zero': 0, 'default/half-a-minute': 30, 'default/five-minutes': 300, 'default/for-ever': None}
    wanted = {pod: {'node': 'node-c', 'silent': '15', 'unknown': '62', 'tainted': '62', 'evicted': '' if seconds is None else str(62 + seconds),
                    'delay': '' if seconds is None else str(47 + seconds)} for pod, seconds in tolerated.items()}
    same('pods', rows, wanted)
    document = load(words[1])
    placed = [item for item in document['objects']['items'] if item['kind'] == 'Pod']
    document['objects']['items'] = [item for item in document['objects']['items'] if item['kind'] != 'Pod']
    nodes = [pod['spec']['nodeName'] for pod in placed]
    document['podSets'] = [{'name': 'p', 'on': [{'node': 'node-z', 'pods': 2}, *[{'node': node, 'pods': 1} for node in nodes]]}]
    with open(os.path.join(folder, 'sets.json'), 'w') as file:
        json.dump(document, file)
    with open(words[2]) as file, open(os.path.join(folder, 'sets.txt'), 'w') as out:
        text = file.read()
        for number, pod in enumerate(placed):
            text = text.replace('default/%s ' % pod['metadata']['name'], 'default/p-%d ' % (number + 2))
        out.write(text)
    found = {row.pop('pod'): row for row in csv.DictReader(sweep('pods', 'sets.json', 'sets.txt', folder=folder).splitlines())}
    same('pods of sets', found, {'default/p-%d' % (number + 2): wanted['default/' + pod['metadata']['name']] for number, pod in enumerate(placed)
                                 if 'default/' + pod['metadata']['name'] in wanted})


def test_silent_before(given, folder):
    """A pod that goes for a node that was silent before the trace begins has a row, and no delay."""
    document, trace = [os.path.join(folder, 'before' + ending) for ending in ('.json', '.txt')]
    pods = [{'apiVersion': 'v1', 'kind': 'Pod', 'metadata': {'name': name}, 'spec': {'nodeName': node}} for name, node in (('gone', 'n1'), ('stays', 'n2'))]
    with open(document, 'w') as file:
        json.dump({'version': 1, 'settings': {'endBeat': 60}, 'controllers': [{'name': 'c1'}], 'objects': {'apiVersion': 'v1', 'kind': 'List', 'items': pods}}, file)
    with open(trace, 'w') as file:
        file.write('trace 1 beat=1000 end=60 premise=yes\n0 c1_1 start\n4 c1_1 lead v=3\n50 c1_1 evict default/gone due=2024-01-01T00:00:50Z v=9\n')
    same('silent before', sweep('pods', document, trace, folder=folder).splitlines()[1:], ['default/gone,n1,,,,50,'])
    asked = ['pod-delay:default/gone', 'pod-delay:default/stays', 'pod-delay']
    row = next(csv.DictReader(sweep('measure', trace, '--document', document, *[word for each in asked for word in ('--ask', each)], folder=folder).splitlines()))
    same('delays', [row[each] for each in asked], ['', 'never', ''])


def test_objects(given, folder):
    """A key of a manifest is varied: the delay follows what the pod tolerates; and of the longest of all pods."""
    sweep('all', words_of_tolerations(), 'objects', '--vary', '/objects/Pod/default/half-a-minute/spec/tolerations/*/tolerationSeconds=0..300..60',
          '--ask', 'pod-delay:default/half-a-minute', '--ask', 'pod-delay', '--ask', 'pod-delay:default/for-ever', '--program', given.program, folder=folder)
    rows = read_csv(os.path.join(folder, 'objects', 'answers.csv'))
    same('objects', [[row[key] for key in list(row)[-3:]] for row in rows], [[str(47 + seconds), '347', 'never'] for seconds in range(0, 301, 60)])


def words_of_tolerations():
    return os.path.join(TOLERATIONS, 'document.json')


PAUSED = os.path.join(TOP, 'view', 'data', 'paused-leader')


def test_pauses(given, folder):
    """A leader that is paused doesn't lead; a pause's beats can be varied, and its axis is in words and seconds."""
    # Paused from 20 to 199; the other one leads from 182 on, and the term of the first one ends at 300. Nobody leads before 4.
    wanted = {'premise': 'no', 'leaderless': '16.6', 'failover': '16.2', 'two-leaders': '10'}
    row = next(csv.DictReader(sweep('measure', PAUSED + '.txt', folder=folder).splitlines()))
    same('a paused leader', {key: row[key] for key in wanted}, wanted)
    sweep('plan', PAUSED + '.json', 'pauses', '--vary', '/events/0/beats=50..200..50', '--ask', 'two-leaders', folder=folder)
    runs = [load(os.path.join(folder, 'pauses', 'runs', '%05d.json' % number)) for number in range(4)]
    same('beats of a pause', [run['events'] for run in runs], [[{'beat': 20, 'type': 'pause', 'process': 'c1', 'beats': beats}] for beats in (50, 100, 150, 200)])
    stand_in = os.path.join(folder, 'paused')
    with open(stand_in, 'w') as file:
        file.write('#!/bin/sh\ncat > /dev/null\ncat %s.txt\n' % shlex.quote(PAUSED))
    os.chmod(stand_in, 0o755)
    sweep('all', PAUSED + '.json', 'pauses', '--vary', '/events/0/beats=50..200..50', '--ask', 'two-leaders', '--program', stand_in, folder=folder)
    with open(os.path.join(folder, 'pauses', 'answers.svg')) as file:
        picture = file.read()
    for words in ('length of the pause of c1 (s)', '>5</text>', '>20</text>'):
        same('the picture says ' + words, words in picture, True)


def test_worst_minute(given, folder):
    """Taints every ten seconds for eight minutes in a trace of half an hour are six a minute."""
    path = os.path.join(folder, 'taints.txt')
    with open(path, 'w') as file:
        file.write('trace 1 beat=1000 end=1800 premise=yes\n0 c_1 start\n4 c_1 lead v=1\n')
        file.writelines('%d c_1 taint n%d unreachable v=%d\n' % (100 + 10 * i, i, i + 2) for i in range(48))
    row = next(csv.DictReader(sweep('measure', path, '--ask', 'taints-a-minute', folder=folder).splitlines()))
    same('the worst minute', row['taints-a-minute'], '6')


def test_picture(given, folder):
    """The picture marks each run with premise=no, has its axis in words and seconds, and the name of the document."""
    sweep('all', CRASHES, 'marked', '--set', '/settings/endBeat=500', '--vary', '/settings/leaseDurationSeconds=12,15', '--vary', '/events/0/beat=10..60..10',
          '--ask', 'failover', '--program', given.program, folder=folder)
    rows = read_csv(os.path.join(folder, 'marked', 'answers.csv'))
    with open(os.path.join(folder, 'marked', 'answers.svg')) as file:
        picture = file.read()
    unsafe = sum(row['premise'] == 'no' for row in rows)
    same('rings', (picture.count('fill="none" stroke="#a33a00"/>'), unsafe), (6, 6))
    for words in ('6 premise=no (ringed)', 'time of the crash of cp-east-1 (s)', 'lease duration (s)', 'leader-crashes, endBeat=500', '>6</text>'):
        same('the picture says ' + words, words in picture, True)


def documents(folder, name):
    runs = os.path.join(folder, name, 'runs')
    return [load(os.path.join(runs, each)) for each in sorted(os.listdir(runs)) if each.endswith('.json')]


def stand_in_of(folder, name, line):
    """A program that answers each document with a trace in which one leads, dies, and another one leads as the line of shell says."""
    path = os.path.join(folder, name)
    with open(path, 'w') as file:
        file.write('#!/bin/sh\n%s\nprintf "trace 1 beat=100 end=560 premise=yes\\n4 kcm-a_1 lead v=1\\n30 kcm-a_1 crash\\n%%d kcm-b_1 lead v=3\\n" $beat\n' % line)
    os.chmod(path, 0o755)
    return path


B_WAITS = '/controllers/kcm-b/waits'


def test_lists_of_waits(given, folder):
    """A list is a value; the document is one of version 4 then."""
    sweep('plan', ONE_CRASH, 'lists', '--vary', B_WAITS + '=[1000];[1600, 2200];[2200]', '--set', '/controllers/kcm-a/waits=[1500]', '--ask', 'failover', folder=folder)
    found = documents(folder, 'lists')
    same('lists', [[each.get('waits') for each in run['controllers']] for run in found], [[[1500], [1000]], [[1500], [1600, 2200]], [[1500], [2200]]])
    same('version', {run['version'] for run in found}, {4})
    beat = 'beat=$(( 30 + $(grep -o "[0-9]*[]]}[]]" | grep -o "^[0-9]*") / 10 ))'
    sweep('all', ONE_CRASH, 'lists', '--vary', B_WAITS + '=[1000];[1600, 2200];[2200]', '--set', '/controllers/kcm-a/waits=[1500]', '--ask', 'failover',
          '--program', stand_in_of(folder, 'last-wait', beat), folder=folder)
    rows = read_csv(os.path.join(folder, 'lists', 'answers.csv'))
    same('table of lists', [(row[B_WAITS], row['failover']) for row in rows], [('[1000]', '10'), ('[1600, 2200]', '22'), ('[2200]', '22')])


def test_drawn_waits(given, folder):
    """Waits are drawn as the jitter does, one list a run; the same seed gives the same, and what a row tells gives that run again; the picture is a histogram."""
    words = ('--vary', '/controllers/*/waits=draws:60', '--ask', 'failover')
    for name, seed in (('drawn', '3'), ('drawn-again', '3'), ('drawn-else', '4')):
        sweep('plan', ONE_CRASH, name, *words, '--seed', seed, folder=folder)
    runs, again, others = [[each['controllers'] for each in documents(folder, name)] for name in ('drawn', 'drawn-again', 'drawn-else')]
    same('draws of one seed', (runs == again, runs == others), (True, False))
    drawn = [wait for run in runs for each in run for wait in each['waits']]
    # 56 s and retry periods of 2 s: at most 28 failures, and two more. Of 3,600 even draws from 1,000 to 2,200 the mean lies within 1,580 to 1,620.
    same('each its own', ({len(each['waits']) for run in runs for each in run}, len({tuple(each['waits']) for run in runs for each in run})), ({30}, 120))
    same('as the jitter', (min(drawn) >= 1_000, max(drawn) <= 2_200, min(drawn) < 1_010, max(drawn) > 2_190, 1_580 < sum(drawn) / len(drawn) < 1_620), (True,) * 5)
    beat = 'beat=$(( 30 + 150 + $(cksum | cut -d" " -f1) % 50 ))'
    sweep('all', ONE_CRASH, 'drawn', *words, '--seed', '3', '--program', stand_in_of(folder, 'anything', beat), folder=folder)
    rows = read_csv(os.path.join(folder, 'drawn', 'answers.csv'))
    sweep('plan', ONE_CRASH, 'one-again', '--set', '/controllers/*/waits=' + rows[7]['/controllers/*/waits'], '--vary', '/settings/endBeat=560', folder=folder)
    same('a row gives its run again', documents(folder, 'one-again')[0]['controllers'], runs[7])
    with open(os.path.join(folder, 'drawn', 'answers.svg')) as file:
        picture = file.read()
    middle = sorted(float(row['failover']) for row in rows)[29]
    for words in ('runs by seconds from the loss of the leader', 'of 60 runs, the middle one %g' % middle, 'fill-opacity'):
        same('the histogram says ' + words, words in picture, True)
    sweep('all', ONE_CRASH, 'parted', '--vary', B_WAITS + '=draws:30', '--vary', '/settings/leaseDurationSeconds=15,20', '--ask', 'failover',
          '--program', os.path.join(folder, 'anything'), folder=folder)
    with open(os.path.join(folder, 'parted', 'answers.svg')) as file:
        same('two outlines', file.read().count('fill-opacity'), 2)


def test_failovers_of_waits(given, folder):
    """Drawn waits by the program, beside single runs; nobody leads for 13.0 to 23.8 s, and some messages more."""
    sweep('all', ONE_CRASH, 'waits', '--vary', '/controllers/*/waits=draws:40', '--vary', '/events/1/beat=random:60..300:40', '--ask', 'failover', '--program', given.program, folder=folder)
    rows = read_csv(os.path.join(folder, 'waits', 'answers.csv'))
    if any(row['outcome'].startswith('refused 99 ') for row in rows):
        print('waits: left out, since this program has none yet', flush=True)
        return
    compare('waits', given, folder, documents(folder, 'waits'), 'failover', failover)
    found = spans(folder, 'waits')
    same('by the jitter', (min(found) >= 13, 17.8 < max(found) <= 24.2), (True, True))


def test_refused_words(given, folder):
    """Words that can't be are answered by one line and status 1; another sweep's folder is left as it is."""
    cases = [('all', CRASHES, 'none', '--ask', 'leaderless'), ('all', CRASHES, 'none', '--vary', 'settings=1'),
             ('all', CRASHES, 'none', '--vary', '/controllers/cp-9/up=true'), ('all', CRASHES, 'none', '--vary', '/objects/0/kind=1'),
             ('plan', CRASHES, 'none', '--vary', '/events/0/beat=1..3', '--ask', 'luck'), ('plan', CRASHES, 'none', '--vary', '/events/0/beat=draws:3'),
             ('plan', CRASHES, 'none', '--set', '/settings/endBeat=drawn:3', '--vary', '/events/0/beat=1..3'),
             ('table', 'none'), ('replay', 'none', '--program', 'true'),
             ('plan', CRASHES, 'crashes', '--vary', '/events/0/beat=1..3', '--ask', 'failover')]
    for words in cases:
        done = subprocess.run([sys.executable, SWEEP, *words], cwd=folder, stderr=subprocess.PIPE, stdout=subprocess.PIPE, text=True)
        same('refused %s' % (words,), (done.returncode, done.stderr.startswith('sweep: '), done.stderr.count('\n')), (1, True, 1))


TESTS = [test_written_by_hand, test_lease_duration, test_crash_beat, test_two_values, test_bounds_of_a_crash, test_bounds_of_a_stop,
         test_document_with_nodes, test_grace_period, test_pods, test_silent_before, test_objects, test_pauses, test_worst_minute, test_picture,
         test_lists_of_waits, test_drawn_waits, test_failovers_of_waits,
         test_broken_off, test_over_ssh, test_shares, test_refused_words]


def main():
    options = argparse.ArgumentParser(description=__doc__, formatter_class=argparse.RawDescriptionHelpFormatter)
    options.add_argument('--program', default=BUILT, metavar='COMMAND')
    options.add_argument('--only', default='', metavar='NAME', help='the tests that have NAME in their name, and the one that others need')
    options.add_argument('--install', action='store_true', help="install what the part over ssh needs, by the distribution's packages")
    options.add_argument('--pictures', metavar='FOLDER')
    given = options.parse_args()
    first, *words = shlex.split(given.program)
    found = shutil.which(first)
    if not found:
        sys.exit('test_sweep: there is no program %s; prove and build it first (docs/running.md), or name another: --program COMMAND' % given.program)
    given.program = shlex.join([os.path.abspath(found), *words])
    with tempfile.TemporaryDirectory() as folder:
        for test in TESTS:
            # The whole sweep over the crash's beat is what others are compared with.
            if given.only in test.__name__ or test is test_crash_beat:
                since = time.monotonic()
                test(given, folder)
                said = '%d faults so far' % len(faults) if faults else 'done'
                print('%s: %s, %.1f s' % (test.__name__.removeprefix('test_'), said, time.monotonic() - since), flush=True)
        for name in ('leases', 'crashes', 'both', 'grace') if given.pictures else ():
            path = os.path.join(folder, name, 'answers.svg')
            if os.path.exists(path):
                shutil.copy(path, os.path.join(given.pictures, name + '.svg'))
    sys.exit(1 if faults else 0)


if __name__ == '__main__':
    main()
