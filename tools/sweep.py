#!/usr/bin/env python3
"""Replays a document for many values of one or two of its keys, and tells how the answers move.

    tools/sweep.py all DOCUMENT FOLDER --vary PATH=VALUES [--vary PATH=VALUES] --ask QUESTION [--ask QUESTION ..]
    tools/sweep.py plan DOCUMENT FOLDER ..      writes the documents alone, with the same words behind
    tools/sweep.py replay FOLDER                replays the documents that have no trace yet
    tools/sweep.py missing FOLDER               names these documents, for GNU parallel
    tools/sweep.py table FOLDER                 reads the traces, and writes answers.csv and answers.svg
    tools/sweep.py measure TRACE .. --ask QUESTION [--document DOCUMENT]      the answers of any traces
    tools/sweep.py pods DOCUMENT TRACE          each pod on a node that fell silent: when the node did, and when the pod was evicted
    tools/sweep.py questions                    what can be asked

`all` and `replay` with --dask ADDRESS replay on the workers of the Dask scheduler there; --dask local starts workers of its own.
PATH is /settings/KEY, /controllers/NAME/KEY, /kubelets/NODE/KEY, /events/PLACE/KEY, or of what is stored /objects/Node/NAME/.. and
/objects/Pod/NAMESPACE/NAME/.. with the keys of the manifest behind; `*` for a name or a place is each of them. VALUES is FROM..TO, FROM..TO..STEP, a list A,B,C, JSON arrays [..];[..],
random:FROM..TO:COUNT, or for /controllers/NAME/waits draws:COUNT. --set PATH=VALUE changes the document for all runs. A sweep that was
broken off goes on where it stopped, by the same command. To `failover` the picture has how long nobody leads after a crash, at least and at most, as
kube_lens tells of the documents, where it is built. docs/pictures.md tells more.
"""
import argparse
import csv
import glob
import itertools
import json
import os
import random
import shlex
import signal
import subprocess
import sys
import threading
import time
from concurrent.futures import ProcessPoolExecutor, ThreadPoolExecutor

sys.path.insert(0, os.path.dirname(os.path.realpath(__file__)))
import chart
import questions
from sweep_folder import run_path, write_whole
from sweep_paths import Wrong, changed, read_value, read_values, split_setting

TOP = os.path.dirname(os.path.dirname(os.path.realpath(__file__)))
sys.path.append(os.path.join(TOP, 'view'))
from crash_bounds import CrashBounds

# The built program: of these sources, or where the package installs it.
PLACES = [os.path.join(TOP, 'crates', 'kube_replay', 'out', 'kube_replay'), '/usr/libexec/kube-replay/kube_replay']
MOST_RUNS = 1_000_000


# The plan: a folder with plan.json and the documents of all runs

def make_plan(given):
    draws = random.Random(given.seed)
    varied = [(path, read_values(values, draws)) for path, values in map(split_setting, given.vary)]
    if not 1 <= len(varied) <= 2:
        raise Wrong('one or two values are varied')
    drawn = [values.startswith(('random:', 'draws:')) for _, values in map(split_setting, given.vary)]
    paired = len(varied) == 2 and all(drawn)
    combine = zip if paired else itertools.product
    fixed = [(path, read_value(value)) for path, value in map(split_setting, given.set)]
    asked = given.ask or ['leaderless']
    for question in asked:
        questions.find(question)
    with (sys.stdin if given.document == '-' else open(given.document)) as file:
        document = json.load(file)
    runs = [list(values) for values in combine(*(values for _, values in varied))]
    if not 0 < len(runs) <= MOST_RUNS:
        raise Wrong('these are %d runs' % len(runs))
    return {'document': changed(document, fixed), 'paths': [path for path, _ in varied], 'runs': runs, 'ask': asked,
            'drawn': drawn, 'name': name_of(given.document), 'set': given.set}


def name_of(path):
    """What a document is called: its file, or the folder where that says more."""
    name = os.path.basename(path).removesuffix('.json')
    folder = os.path.basename(os.path.dirname(os.path.abspath(path)))
    return '' if path == '-' else folder if name == 'document' and folder else name


def write_plan(given):
    """Writes the plan and its documents, or goes on with the same one. Other questions may be asked of the same runs."""
    plan, path = make_plan(given), os.path.join(given.folder, 'plan.json')
    if os.path.exists(path):
        old = read_plan(given.folder)
        if any(old.get(key) != plan[key] for key in ('document', 'paths', 'runs', 'drawn')):
            raise Wrong('%s holds another sweep' % given.folder)
    os.makedirs(os.path.join(given.folder, 'runs'), exist_ok=True)
    write_whole(path, json.dumps(plan))
    if getattr(given, 'dask', None):
        return  # The workers make the documents.
    for number, values in enumerate(plan['runs']):
        run = run_path(given.folder, number, '.json')
        if not os.path.exists(run):
            write_whole(run, json.dumps(changed(plan['document'], zip(plan['paths'], values))))


def read_plan(folder):
    try:
        with open(os.path.join(folder, 'plan.json')) as file:
            return json.load(file)
    except OSError as fault:
        raise Wrong('%s holds no sweep: %s' % (folder, fault.strerror)) from fault


def missing(folder, share='0/1'):
    """The numbers of the runs without a trace, of one share of several."""
    part, parts = map(int, share.split('/'))
    if not 0 <= part < parts:
        raise Wrong('a share is I/N, with I from 0 to N - 1')
    count = len(read_plan(folder)['runs'])
    return [number for number in range(part, count, parts) if not os.path.exists(run_path(folder, number, '.trace'))]


# Replaying

class Progress:
    """How many are done, and how long the rest will take, on standard error: on a terminal in one line, else every ten seconds."""

    def __init__(self, total, before):
        self.total, self.before, self.done, self.begin, self.last = total, before, 0, time.monotonic(), 0
        self.lock = threading.Lock()

    def step(self):
        with self.lock:
            self.done += 1
            now, terminal = time.monotonic(), sys.stderr.isatty()
            if now - self.last < (.2 if terminal else 10) and self.done < self.total:
                return
            self.last = now
            passed = now - self.begin
            left = passed / self.done * (self.total - self.done)
            counts = self.before + self.done, self.before + self.total
            words = '%d of %d replayed, %s so far, %s left' % (*counts, clock(passed), clock(left))
            ending = '' if terminal and self.done < self.total else '\n'
            print('\r\033[K' + words if terminal else words, end=ending, file=sys.stderr, flush=True)


def clock(seconds):
    seconds = round(seconds)
    return '%d s' % seconds if seconds < 120 else '%d min' % round(seconds / 60) if seconds < 7200 else '%.1f h' % (seconds / 3600)


class Replays:
    """Replays on all cores, a process a run. The trace of a document that is refused is the line that says so."""

    def __init__(self, folder, program, progress):
        self.folder, self.program, self.progress = folder, program, progress
        self.faults, self.running, self.stopped, self.lock = [], set(), False, threading.Lock()

    def one(self, number):
        path = run_path(self.folder, number, '')
        part = '%s.%d.part' % (path, os.getpid())
        with self.lock:
            if self.stopped:
                return
            with open(path + '.json') as document, open(part, 'w') as trace:
                process = subprocess.Popen([*self.program, 'replay'], stdin=document, stdout=trace, stderr=subprocess.PIPE,
                                           start_new_session=True)
            self.running.add(process)
        said = process.communicate()[1]
        with self.lock:
            self.running.discard(process)
            if self.stopped:
                return
        self.keep(path, part, process.returncode, said.decode(errors='replace').strip()[-200:])

    def keep(self, path, part, status, said):
        if status in (0, 1):
            os.replace(part, path + '.trace')
        else:
            self.faults.append('%s.json ends with status %d %s' % (path, status, said))
        self.progress.step()

    def stop(self):
        with self.lock:
            self.stopped = True
            for process in self.running:
                os.killpg(process.pid, signal.SIGKILL)


class ReplaysHere(Replays):
    """The same in this process, by the shared library: no process a run."""

    def one(self, number):
        if self.stopped:
            return
        path = run_path(self.folder, number, '')
        with open(path + '.json', 'rb') as document:
            status, text = self.program.run([b'replay'], document.read())
        part = '%s.%d.part' % (path, os.getpid())
        with open(part, 'wb') as trace:
            trace.write(text)
        self.keep(path, part, status, '')


def replay(folder, program, jobs, share='0/1'):
    numbers = missing(folder, share)
    total = len(read_plan(folder)['runs'])
    if not numbers:
        return
    kind = Replays if isinstance(program, list) else ReplaysHere
    replays = kind(folder, program, Progress(len(numbers), 0 if share != '0/1' else total - len(numbers)))
    signal.signal(signal.SIGTERM, signal.default_int_handler)
    with ThreadPoolExecutor(jobs) as pool:
        try:
            list(pool.map(replays.one, numbers))
        except KeyboardInterrupt:
            replays.stop()
            raise Wrong('broken off; the same command goes on from here') from None
    tell_faults(replays.faults)


def replay_on_workers(given):
    """Replays the documents that have no trace yet on the workers of a Dask scheduler, and gives the answers of these runs by number."""
    plan, numbers = read_plan(given.folder), missing(given.folder, getattr(given, 'share', '0/1'))
    if not numbers:
        return {}
    sys.path.append(os.path.join(TOP, 'python'))
    try:
        import sweep_dask
        import kube_replay.workers
    except ImportError as fault:
        raise Wrong('--dask needs the Python package kube_replay; docs/python.md tells how to install it') from fault
    plan['ask'] = getattr(given, 'ask', None) or plan['ask']
    rows, faults = {}, []
    signal.signal(signal.SIGTERM, signal.default_int_handler)
    try:
        for number, row, fault in sweep_dask.runs(plan, numbers, given.folder, given.dask, engine_of(given)):
            if fault:
                faults.append('%s %s' % (run_path(given.folder, number, '.json'), fault))
            else:
                rows[number] = row
    except KeyboardInterrupt:
        raise Wrong('broken off; the same command goes on from here') from None
    except kube_replay.workers.SchedulerLost as fault:
        raise Wrong('%s; the same command goes on from here' % fault) from fault
    except kube_replay.workers.WorkersFault as fault:
        raise Wrong(fault) from fault
    tell_faults(faults)
    return rows


def tell_faults(faults):
    if faults:
        raise Wrong('%d runs failed, the first: %s' % (len(faults), faults[0]))


# The table and the picture

def answer(task):
    """The answers of a trace; its document, if one is named, is read where a question needs it."""
    path, asked, document = task
    told = questions.Told(load(document)) if document and questions.need_document(asked) else None
    with open(path) as trace:
        return questions.answers(trace, asked, told)


def load(path):
    with open(path) as file:
        return json.load(file)


def bounds_of(plan, asked):
    """Of each run the bounds of a crash, None where there are none; nothing where they aren't drawn."""
    bounds = CrashBounds()
    if 'failover' not in asked or not bounds.words or not (chart.axes(plan) or chart.is_of_draws(plan)):
        return None
    return [bounds.of_any(changed(plan['document'], zip(plan['paths'], values))) for values in plan['runs']]


def write_table(folder, ask=(), known=None):
    """Writes the table and the picture. The answers that are known, by the number of their run, are taken as they are."""
    plan, known = read_plan(folder), known or {}
    asked, left = ask or plan['ask'], missing(folder)
    if left:
        raise Wrong('%d of %d runs have no trace yet' % (len(left), len(plan['runs'])))
    tasks = [(run_path(folder, number, '.trace'), asked, run_path(folder, number, '.json'))
             for number in range(len(plan['runs'])) if number not in known]
    with ProcessPoolExecutor() as pool:
        read = pool.map(answer, tasks, chunksize=16)
        rows = [known[number] if number in known else next(read) for number in range(len(plan['runs']))]
    path = os.path.join(folder, 'answers.csv')
    with open(path + '.part', 'w', newline='') as file:
        table = csv.writer(file, lineterminator='\n')
        table.writerow(['run', *plan['paths'], 'premise', 'outcome', *asked])
        for number, (values, row) in enumerate(zip(plan['runs'], rows)):
            table.writerow([number, *map(plain, values), row['premise'], row['outcome'], *(text(row[question]) for question in asked)])
    os.replace(path + '.part', path)
    write_whole(os.path.join(folder, 'answers.svg'), chart.picture(plan, asked, rows, bounds_of(plan, asked)))
    for part in glob.glob(os.path.join(glob.escape(folder), 'runs', '*.part')):
        os.remove(part)
    print(path, os.path.join(folder, 'answers.svg'))


def plain(value):
    return value if isinstance(value, str) else json.dumps(value)


def text(value):
    return '' if value is None else '%.6g' % value if isinstance(value, float) else value


def measure(paths, asked, document):
    if questions.need_document(asked) and not document:
        raise Wrong('pod-delay needs the document: --document FILE')
    table = csv.writer(sys.stdout, lineterminator='\n')
    table.writerow(['trace', 'premise', 'outcome', *asked])
    for path in paths:
        row = answer((path, asked, document))
        table.writerow([path, row['premise'], row['outcome'], *(text(row[question]) for question in asked)])


def pods(document, path):
    """A row for each pod on a node that fell silent, in seconds from beat 0."""
    with (sys.stdin if path == '-' else open(path)) as trace:
        head = trace.readline().strip()
        if not head.startswith('trace 1 '):
            raise Wrong('%s is no trace; its first line is: %s' % (path, head[:80]))
        lives = questions.pod_lives(questions.Trace(head, trace), questions.Told(load(document)))
    table = csv.writer(sys.stdout, lineterminator='\n')
    table.writerow(['pod', 'node', 'silent', 'unknown', 'tainted', 'evicted', 'delay'])
    for life in lives:
        table.writerow([text(value) for value in life])


# The command line

def options():
    parser = argparse.ArgumentParser(description=__doc__, formatter_class=argparse.RawDescriptionHelpFormatter)
    commands = parser.add_subparsers(dest='command', required=True)
    for name in ('all', 'plan', 'replay', 'missing', 'table', 'measure', 'pods', 'questions'):
        command = commands.add_parser(name)
        if name in ('all', 'plan'):
            command.add_argument('document')
            command.add_argument('--vary', action='append', default=[], metavar='PATH=VALUES')
            command.add_argument('--set', action='append', default=[], metavar='PATH=VALUE')
            command.add_argument('--seed', type=int, default=1)
        if name == 'measure':
            command.add_argument('trace', nargs='+')
            command.add_argument('--document')
        elif name == 'pods':
            command.add_argument('document')
            command.add_argument('trace')
        elif name != 'questions':
            command.add_argument('folder')
        if name in ('all', 'plan', 'table', 'measure'):
            command.add_argument('--ask', action='append', default=[], metavar='QUESTION')
        if name in ('all', 'replay'):
            command.add_argument('--program')
            command.add_argument('--jobs', type=int)
            command.add_argument('--dask', metavar='ADDRESS')
        if name == 'replay':
            command.add_argument('--share', default='0/1', metavar='I/N')
    return parser.parse_args()


def library():
    """The shared library, where the Python package kube_replay is installed and has it."""
    try:
        from kube_replay import engine
        found = engine.engine()
    except (ImportError, OSError):
        return None
    return found if isinstance(found, engine.Library) else None


def engine_of(given):
    """What the workers of a Dask scheduler are sent: the shared library or the program. The launcher builds, and isn't sent."""
    from kube_replay import engine
    if given.program:
        return engine.Program(shlex.split(given.program))
    built = [place for place in PLACES if os.path.exists(place)]
    found = library() or (engine.Program(built[:1]) if built else None)
    if not found:
        raise Wrong('the program is not built')
    return found


def program_of(given):
    """The shared library or the program's words, and how many run at once: the launcher, where nothing else is there, alone."""
    if given.program:
        return shlex.split(given.program), given.jobs or os.cpu_count()
    here = library()
    if here:
        return here, given.jobs or os.cpu_count()
    for built in PLACES:
        if os.path.exists(built):
            return [built], given.jobs or os.cpu_count()
    print('sweep: the program is not built; each run takes a minute or more', file=sys.stderr)
    return [os.path.join(TOP, 'kube_replay')], given.jobs or 1


def run(given):
    if given.command in ('all', 'plan'):
        write_plan(given)
    known = {}
    if given.command in ('all', 'replay') and given.dask:
        known = replay_on_workers(given)
    elif given.command in ('all', 'replay'):
        replay(given.folder, *program_of(given), getattr(given, 'share', '0/1'))
    if given.command in ('all', 'table'):
        write_table(given.folder, given.ask, known)
    if given.command == 'missing':
        print('\n'.join(run_path(given.folder, number, '.json') for number in missing(given.folder)))
    if given.command == 'measure':
        known = [name for name in questions.QUESTIONS if given.document or name != 'pod-delay']
        measure(given.trace, given.ask or known, given.document)
    if given.command == 'pods':
        pods(given.document, given.trace)
    if given.command == 'questions':
        print(questions.told())


if __name__ == '__main__':
    try:
        run(options())
        sys.stdout.flush()
    except BrokenPipeError:
        os.dup2(os.open(os.devnull, os.O_WRONLY), 1)
    except (Wrong, questions.Unknown, OSError, ValueError) as fault:
        sys.exit('sweep: %s' % fault)
