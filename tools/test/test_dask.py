#!/usr/bin/env python3
"""Sweeps and hunts on the workers of a Dask scheduler, against the same without one: lost workers, a sweep that is broken off, and the time.

    python3 tools/test/test_dask.py [--runs 400] [--scripts 320] [--only NAME] [--folder FOLDER]
    python3 tools/test/test_dask.py --speed [--runs 4000] [--long 2000] [--scripts 3200] [--workers 1,2,4]

It starts a scheduler and workers of its own on 127.0.0.1, and kills workers in the middle. A sweep has to have the table of tools/sweep.py
without Dask, a hunt the script that its generations find in this one process. --speed measures in place of that: seconds, and the seconds of
processor time of the workers, of the scheduler and of the command, on 1, 2 and 4 workers, with one process, and by GNU parallel: of short runs, of
long ones, and of hunts, where 0 of one leaves it out.
It needs Debian's python3-distributed, for the hunt python3-hypothesis, and a built program or library. The exit status is 1 where anything differs.
"""
import argparse
import json
import os
import pickle
import resource
import shutil
import subprocess
import sys
import tempfile
import time
import zlib
from contextlib import contextmanager

HERE = os.path.dirname(os.path.dirname(os.path.realpath(__file__)))
TOP = os.path.dirname(HERE)
SWEEP = [sys.executable, os.path.join(HERE, 'sweep.py')]
HUNT = [sys.executable, '-m', 'kube_replay.hunt', 'failover']
CRASHES = os.path.join(TOP, 'examples', 'leader-crashes', 'document.json')
SILENT = os.path.join(HERE, 'data', 'silent-kubelets.json')
LONG = 3000
HUNTED = [os.path.join(TOP, 'docs', 'hunt', name) for name in ('three-controllers.json', 'one-crash.json')]
BUILT = os.path.join(TOP, 'crates', 'kube_replay', 'out', 'kube_replay')
ENVIRONMENT = {**os.environ, 'PYTHONPATH': os.pathsep.join([os.path.join(TOP, 'python'), os.environ.get('PYTHONPATH', '')])}
# A worker has neither the package nor an engine of its own: both are sent. It is started as docs/pictures.md says.
BARE = {key: value for key, value in os.environ.items() if not key.startswith('KUBE_REPLAY')} | {'DASK_DISTRIBUTED__WORKER__PROFILE__ENABLED': 'False'}
CLOCK = os.sysconf('SC_CLK_TCK')
NO_WORKER = 'dask: no worker is left; waiting for one\n'
faults = []


def same(what, found, wanted):
    if found != wanted:
        faults.append(what)
        print('DIFFERS %s: found %.300r, wanted %.300r' % (what, found, wanted), flush=True)


# A scheduler, and workers that can be killed

class Scheduler:
    """A scheduler of this script's own, with workers, each a process with one thread."""

    def __init__(self, folder):
        self.folder, self.workers, self.count = folder, [], 0
        self.file = os.path.join(folder, 'scheduler.json')
        self.process = self.start('dask_scheduler', '--scheduler-file', self.file, '--host', '127.0.0.1', '--port', '0', '--no-dashboard')
        while not os.path.exists(self.file) or not os.path.getsize(self.file):
            same('the scheduler is there', self.process.poll(), None)
            time.sleep(.1)
        with open(self.file) as file:
            self.address = json.load(file)['address']

    def start(self, module, *words):
        self.count += 1
        with open(os.path.join(self.folder, 'log-%d' % self.count), 'w') as log:
            return subprocess.Popen([sys.executable, '-m', 'distributed.cli.' + module, *words], cwd=self.folder, env=BARE, stdout=log,
                                    stderr=log)

    def add(self, count):
        """Starts further workers, and waits until they are there."""
        from distributed import Client
        self.workers += [self.start('dask_worker', self.address, '--no-nanny', '--nthreads', '1', '--no-dashboard', '--local-directory',
                                    self.folder) for _ in range(count)]
        with Client(self.address, timeout=120) as client:
            client.wait_for_workers(len(self.workers))

    def lose(self):
        """Kills the worker that was started first."""
        worker = self.workers.pop(0)
        worker.kill()
        worker.wait()

    def sent(self):
        """The files that the workers were sent, by path, with what tells them from others of the same name."""
        found = {}
        for place, _, names in os.walk(self.folder):
            for name in names:
                if name.startswith(('kube_replay-', 'modules-')):
                    stat = os.stat(os.path.join(place, name))
                    found[os.path.join(place, name)] = stat.st_ino, stat.st_mtime_ns
        return found

    def ended(self):
        """The statuses of the workers that have ended by themselves."""
        return [worker.poll() for worker in self.workers if worker.poll() is not None]

    def stop(self):
        for process in (*self.workers, self.process):
            process.kill()
            process.wait()

    def seconds(self):
        """The processor time of the workers and of the scheduler so far."""
        return sum(map(processor_seconds, self.workers)), processor_seconds(self.process)


def processor_seconds(process):
    with open('/proc/%d/stat' % process.pid) as file:
        fields = file.read().rpartition(')')[2].split()
    return sum(map(int, fields[11:15])) / CLOCK


@contextmanager
def scheduler(workers):
    with tempfile.TemporaryDirectory() as folder:
        found = Scheduler(folder)
        try:
            found.add(workers)
            yield found
        finally:
            found.stop()


# Sweeps and hunts

def sweep_words(runs, folder):
    """A sweep of so many runs: the beat of a crash against the duration of the lease."""
    beats = min(200, runs)
    return [CRASHES, folder, '--set', '/settings/endBeat=500', '--vary', '/events/0/beat=5..%d' % (4 + beats),
            '--vary', '/settings/leaseDurationSeconds=12..%d' % (11 + runs // beats), '--ask', 'failover', '--ask', 'leaderless']


def long_words(runs, folder):
    """A sweep of so many runs that take longer: two grace periods and many lengths of a trace with silent nodes."""
    return [SILENT, folder, '--vary', '/settings/gracePeriodMillis=40000,50000', '--vary', '/settings/endBeat=%d..%d' % (LONG, LONG + runs // 2 - 1),
            '--ask', 'evictions', '--ask', 'taints-a-minute']


def start(words, folder):
    with open(os.path.join(folder, 'log'), 'a') as log, open(os.path.join(folder, 'worst.json'), 'w') as out:
        return subprocess.Popen(words, cwd=folder, env=ENVIRONMENT, stdout=out, stderr=log)


def run(words, folder, dask=None):
    """Seconds, and the processor seconds of a command and what it started. It is ended where a worker of its scheduler has ended."""
    before, began = resource.getrusage(resource.RUSAGE_CHILDREN), time.monotonic()
    process = start(words, folder)
    while process.poll() is None:
        if dask and dask.ended():
            same('the workers of ' + ' '.join(words[:4]), dask.ended(), [])
            process.kill()
            break
        time.sleep(.01)
    process.wait()
    after = resource.getrusage(resource.RUSAGE_CHILDREN)
    if process.returncode:
        same('status of ' + ' '.join(words[:4]), read(folder, 'log')[-400:], '')
    return time.monotonic() - began, after.ru_utime + after.ru_stime - before.ru_utime - before.ru_stime


def read(folder, *names):
    with open(os.path.join(folder, *names)) as file:
        return file.read()


def traces(folder, name):
    runs = os.path.join(folder, name, 'runs')
    return sum(entry.endswith('.trace') for entry in os.listdir(runs)) if os.path.isdir(runs) else 0


def wait_for(process, enough):
    while not enough() and process.poll() is None:
        time.sleep(.05)
    same('still under way when a worker is lost', process.poll(), None)


# The tests

def test_lost_in_a_sweep(given, folder):
    """Of three workers one is killed after a quarter of the runs, another after half, and a new one comes: the table of a sweep without Dask."""
    make_plain(given, folder)
    with scheduler(3) as dask:
        process = start([*SWEEP, 'all', *sweep_words(given.runs, 'lost'), '--dask', dask.address], folder)
        wait_for(process, lambda: traces(folder, 'lost') > given.runs // 4)
        dask.lose()
        wait_for(process, lambda: traces(folder, 'lost') > given.runs // 2)
        dask.lose()
        dask.add(1)
        same('a sweep that lost workers', process.wait(), 0)
    compare(given, folder, 'lost')


def make_plain(given, folder):
    """The same sweep without Dask."""
    if not os.path.exists(os.path.join(folder, 'plain', 'answers.csv')):
        run([*SWEEP, 'all', *sweep_words(given.runs, 'plain')], folder)


def compare(given, folder, name):
    make_plain(given, folder)
    for file in ('answers.csv', 'answers.svg'):
        same('%s: %s' % (name, file), read(folder, name, file), read(folder, 'plain', file).replace('plain', name))
    for number in range(0, given.runs, max(1, given.runs // 50)):
        for ending in ('.json', '.trace'):
            path = ('runs', '%05d%s' % (number, ending))
            same('%s: run %d%s' % (name, number, ending), read(folder, name, *path), read(folder, 'plain', *path))
    print('%s: %d runs, as without Dask' % (name, traces(folder, name)), flush=True)


def test_all_lost_in_a_sweep(given, folder):
    """All workers are killed, and others come, with nothing from those before: the same table."""
    with scheduler(2) as dask:
        process = start([*SWEEP, 'all', *sweep_words(given.runs, 'all-lost'), '--dask', dask.address], folder)
        wait_for(process, lambda: traces(folder, 'all-lost') > given.runs // 4)
        dask.lose()
        dask.lose()
        wait_for(process, lambda: NO_WORKER in read(folder, 'log'))
        dask.add(2)
        same('a sweep that lost all workers', process.wait(), 0)
    compare(given, folder, 'all-lost')


def test_broken_off(given, folder):
    """The scheduler is killed. The same command goes on with another one, and does no run twice."""
    words = [*SWEEP, 'all', *sweep_words(given.runs, 'broken')]
    with scheduler(2) as dask:
        process = start([*words, '--dask', dask.address], folder)
        wait_for(process, lambda: traces(folder, 'broken') > given.runs // 4)
        dask.process.kill()
        same('a sweep that lost its scheduler', process.wait(), 1)
        same('what it tells', read(folder, 'log').splitlines()[-1], 'sweep: the scheduler is lost; the same command goes on from here')
    before = {number: os.stat(path).st_ino for number, path in trace_paths(given, folder, 'broken') if os.path.exists(path)}
    same('broken off after some', given.runs // 4 < len(before) < given.runs, True)
    run([*words, '--dask', 'local:2'], folder)
    after = {number: os.stat(path).st_ino for number, path in trace_paths(given, folder, 'broken')}
    same('no run is done twice', {number: after[number] for number in before}, before)
    compare(given, folder, 'broken')


def trace_paths(given, folder, name):
    return [(number, os.path.join(folder, name, 'runs', '%05d.trace' % number)) for number in range(given.runs)]


def test_one_after_another(given, folder):
    """Two sweeps and a hunt on the same worker: it goes on with the files that it has, and each gives the table of a sweep without Dask."""
    with scheduler(1) as dask:
        run([*SWEEP, 'all', *sweep_words(given.runs, 'first'), '--dask', dask.address], folder, dask)
        before = dask.sent()
        run([*SWEEP, 'all', *sweep_words(given.runs, 'second'), '--dask', dask.address], folder, dask)
        if given.scripts:
            run(hunt_words(given.scripts, '--dask', dask.address), folder, dask)
        same('the files of the first command', {name: dask.sent().get(name) for name in before}, before)
        same('files were sent', bool(before), True)
    compare(given, folder, 'first')
    compare(given, folder, 'second')


def test_other_modules(given, folder):
    """A second command from a checkout with other questions, on the same worker, has the answers of its own; with another package it is told."""
    other = os.path.join(folder, 'other')
    for name in ('tools', 'python', 'view'):
        shutil.copytree(os.path.join(TOP, name), os.path.join(other, name))
    with open(os.path.join(other, 'tools', 'questions.py'), 'a') as file:
        file.write("\n\nQUESTIONS['failover'] = (lambda trace: 'other', QUESTIONS['failover'][1])\n")
    with scheduler(1) as dask:
        for top, wanted in ((TOP, False), (other, True), (TOP, False)):
            name = 'modules-%d' % len(os.listdir(folder))
            sweep = [sys.executable, os.path.join(top, 'tools', 'sweep.py'), 'all', *sweep_words(20, name), '--dask', dask.address, '--program', BUILT]
            run(sweep, folder, dask)
            same('%s: answers of its own' % name, ',other,' in read(folder, name, 'answers.csv'), wanted)
        with open(os.path.join(other, 'python', 'kube_replay', 'lines.py'), 'a') as file:
            file.write('\n# another version\n')
        environment = {**ENVIRONMENT, 'PYTHONPATH': os.path.join(other, 'python')}
        ended = subprocess.run([*sweep[:1], os.path.join(other, 'tools', 'sweep.py'), 'all', *sweep_words(20, 'refused'), '--dask', dask.address, '--program', BUILT],
                               cwd=folder, env=environment, stdout=subprocess.DEVNULL, stderr=subprocess.PIPE, text=True, check=False)
        same('another version of the package', (ended.returncode, 'sweep: a worker has another version of kube_replay loaded, ' in ended.stderr, 'Traceback' in ended.stderr),
             (1, True, False))


def test_unseen_folder(given, folder):
    """A worker that doesn't see the folder gives what another writes there."""
    sys.path[:0] = [HERE, os.path.join(TOP, 'python')]
    import sweep_dask
    make_plain(given, folder)
    plan = json.loads(read(folder, 'plain', 'plan.json'))
    common = plan['document'], plan['paths'], plan['ask'], os.path.join(folder, 'not-there.part')
    packed = sweep_dask.replayed(common, list(enumerate(plan['runs']))[:20])
    for number, row, fault, *files in pickle.loads(zlib.decompress(packed))[1]:
        same('unseen: run %d' % number, (fault, files), ('', [read(folder, 'plain', 'runs', '%05d%s' % (number, ending)) for ending in ('.json', '.trace')]))
        same('unseen: answers %d' % number, row['outcome'], 'done')
    print('unseen: 20 runs, as without Dask', flush=True)


def test_large_in_common(given, folder):
    """What tasks have in common is more than is sent with each of them, and all workers that have it are killed: the results of all tasks."""
    with open(os.path.join(folder, 'slow_lengths.py'), 'w') as file:
        file.write(SLOW_LENGTHS)
    sys.path[:0] = [folder, os.path.join(TOP, 'python')]
    import slow_lengths
    from kube_replay import engine, workers
    common = os.urandom(4 * workers.MOST_IN_A_TASK)
    with scheduler(2) as dask:
        with workers.connected(dask.address, engine.Program([BUILT]), {'slow_lengths.py': SLOW_LENGTHS.encode()}) as found:
            results = {}
            for place, length in found.results(slow_lengths.length, common, range(40)):
                results[place] = length
                if len(results) == 10:
                    dask.add(1)
                    dask.lose()
                    dask.lose()
    same('all tasks with what is large in common', results, {place: len(common) + place for place in range(40)})


SLOW_LENGTHS = """import time


def length(common, task):
    time.sleep(.1)
    return len(common) + task
"""


def hunt_words(scripts, *more):
    return [*HUNT, *HUNTED, '--scripts', str(scripts), '--seconds', '36000', '--seed', '7', *more]


class OneProcess:
    """What workers do, in this process."""

    def results(self, function, common, tasks):
        for place, task in enumerate(tasks):
            yield place, function(common, task)


def test_lost_in_a_hunt(given, folder):
    """Of three workers two are killed, and a new one comes: the script that the same generations find in one process."""
    with scheduler(3) as dask:
        process = start(hunt_words(given.scripts, '--dask', dask.address), folder)
        for _ in range(2):
            busy = dask.seconds()[0]
            wait_for(process, lambda: dask.seconds()[0] > busy + 2)
            dask.lose()
        dask.add(1)
        same('a hunt that lost workers', process.wait(), 0)
    sys.path.insert(0, os.path.join(TOP, 'python'))
    from kube_replay.hunt import read_bounds
    from kube_replay.hunt.generations import Generations, Ground
    document, bounds = [json.loads(read(path)) for path in HUNTED]
    found = Generations(OneProcess(), Ground(document, read_bounds(bounds, document), 'failover'), given.scripts, 36000, 7).run()
    same('what the hunt has found', json.loads(read(folder, 'worst.json')), found.document)
    same('how many scripts were tried', '; %s scripts in' % format(found.tried, ',') in read(folder, 'log'), True)
    print('hunt: %d beats by %d events, %d scripts, as in one process' % (found.value, len(found.script.events), found.tried), flush=True)


# The time

def load():
    return read('/proc/loadavg').split()[0]


def timed(what, words, folder, dask=None):
    """A row: what, seconds, processor seconds of the workers, of the scheduler, and of the command, and the load before."""
    before, loaded = dask.seconds() if dask else (0, 0), load()
    seconds, own = run(words, folder, dask)
    after = dask.seconds() if dask else (0, 0)
    row = (seconds, after[0] - before[0], after[1] - before[1], own)
    print('%-28s %7.1f s; processor: workers %6.1f s, scheduler %5.1f s, the command %6.1f s; load %s' % (what, *row, loaded), flush=True)
    return row


def speed(given, folder):
    """Sweeps and hunts on each number of workers, after each other, and the sweeps without Dask: in one process, and by GNU parallel, its runs alone."""
    sweeps = {'short runs': (sweep_words, given.runs), 'long runs': (long_words, given.long)}
    sweeps = {what: lambda name, words=words, runs=runs: words(runs, name) for what, (words, runs) in sweeps.items() if runs}
    first = {}
    for count in given.workers:
        with scheduler(count) as dask:
            for what, words in sweeps.items():
                on_workers(what, count, [*SWEEP, 'all', *words('%s-%d' % (what[:4], count))], folder, dask, first)
            if given.scripts:
                on_workers('hunt', count, hunt_words(given.scripts), folder, dask, first)
    for what, words in sweeps.items():
        timed(what + ', one process', [*SWEEP, 'all', *words(what[:4] + '-one'), '--jobs', '1'], folder)
        if shutil.which('parallel'):
            run([*SWEEP, 'plan', *words(what[:4])], folder)
            line = "%s %s missing %s | parallel --will-cite '%s replay < {} > {.}.trace'" % (*SWEEP, what[:4], BUILT)
            timed(what + ', GNU parallel', ['sh', '-c', line], folder)


def on_workers(what, count, words, folder, dask, first):
    """A row, and how many times as fast it was as the first of its kind."""
    seconds, *_ = timed('%s, workers: %d' % (what, count), [*words, '--dask', dask.address], folder, dask)
    print('    %.2f times as fast as the first' % (first.setdefault(what, seconds) / seconds), flush=True)


TESTS = {name.removeprefix('test_'): test for name, test in globals().copy().items() if name.startswith('test_')}


def options():
    parser = argparse.ArgumentParser(description=__doc__, formatter_class=argparse.RawDescriptionHelpFormatter)
    parser.add_argument('--runs', type=int)
    parser.add_argument('--scripts', type=int)
    parser.add_argument('--long', type=int, default=2000)
    parser.add_argument('--only', choices=TESTS)
    parser.add_argument('--folder')
    parser.add_argument('--speed', action='store_true')
    parser.add_argument('--workers', type=lambda text: [int(part) for part in text.split(',')], default=[1, 2, 4])
    given = parser.parse_args()
    if given.runs is None:
        given.runs = 4000 if given.speed else 400
    if given.scripts is None:
        given.scripts = 3200 if given.speed else 320
    return given


def chosen(given):
    """What is to be done, by name."""
    if given.speed:
        return [('speed', speed)]
    return [(name, test) for name, test in TESTS.items() if given.only in (None, name)]


def main():
    given = options()
    try:
        import distributed  # noqa: F401
    except ImportError:
        print("left out, since Dask isn't installed: apt install python3-distributed")
        return 0
    with tempfile.TemporaryDirectory() as made:
        folder = given.folder or made
        for name, test in chosen(given):
            began = time.monotonic()
            test(given, folder)
            print('%s: %.0f s' % (name, time.monotonic() - began), flush=True)
    print('%d differ' % len(faults) if faults else 'all as it should be')
    return 1 if faults else 0


if __name__ == '__main__':
    sys.exit(main())
