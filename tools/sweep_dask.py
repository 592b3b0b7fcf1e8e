"""A sweep on the workers of a Dask scheduler: what a worker does, and how the runs are handed out."""
import io
import json
import os
import pickle
import tempfile
import time
import zlib

import questions
import sweep_folder
import sweep_paths

# What a worker is sent beside the package kube_replay. That may come to it later than these, so it is imported where it is used.
MODULES = ('cluster_sets.py', 'questions.py', 'sweep_dask.py', 'sweep_folder.py', 'sweep_paths.py')
# So long does a worker take for a piece of the runs, so many are in it at most, and so many pieces has each worker still before it, which
# become smaller at the end: then no worker is long at work alone.
PIECE_SECONDS = 1
MOST_AT_ONCE = 512
PIECES_AHEAD = 4


def runs(plan, numbers, folder, address, chosen):
    """The number, the answers and the fault of each run with these numbers, in the order in which they are done; its files are in the folder then.
    Workers that see the folder write into it, which they know by a file that is there for so long. What the others make is written here."""
    from kube_replay import workers

    place = os.path.abspath(os.path.join(folder, 'runs'))
    with workers.connected(address, chosen, modules()) as found, tempfile.NamedTemporaryFile(dir=place, suffix='.part') as sign:
        common, pieces = (plan['document'], plan['paths'], plan['ask'], sign.name), Pieces(plan['runs'], numbers, found.threads)
        progress = workers.Progress(len(numbers), 'runs')
        for _, packed in found.results(replayed, common, pieces):
            seconds, done = pickle.loads(zlib.decompress(packed))
            pieces.took(len(done), seconds)
            progress.step(len(done))
            for number, row, fault, *files in done:
                if files:
                    sweep_folder.keep_run(folder, number, *files)
                yield number, row, fault


class Pieces:
    """The runs with these numbers, piece by piece, each of so many runs as were done in the time of a piece before."""

    def __init__(self, runs, numbers, threads):
        self.runs, self.numbers, self.threads = runs, numbers, threads
        self.done, self.seconds = 0, 0

    def took(self, count, seconds):
        """So many further runs took a worker so long."""
        self.done, self.seconds = self.done + count, self.seconds + seconds

    def __iter__(self):
        first = 0
        while first < len(self.numbers):
            piece = self.numbers[first:first + self.at_once(len(self.numbers) - first)]
            first += len(piece)
            yield [(number, self.runs[number]) for number in piece]

    def at_once(self, left):
        """How many runs are in the next piece, of those that are left."""
        if not self.done:
            return 1
        in_time = round(PIECE_SECONDS * self.done / max(self.seconds, 1e-6))
        return max(1, min(in_time, MOST_AT_ONCE, left // (PIECES_AHEAD * max(1, self.threads()))))


def modules():
    here = os.path.dirname(os.path.realpath(__file__))
    files = {}
    for name in MODULES:
        with open(os.path.join(here, name), 'rb') as file:
            files[name] = file.read()
    return files


def replayed(common, piece):
    """The seconds that a piece of the runs took, and its runs, on a worker."""
    began = time.monotonic()
    document, paths, asked, sign = common
    done = [one_run(number, json.dumps(sweep_paths.changed(document, list(zip(paths, values)))), asked) for number, values in piece]
    if os.path.exists(sign):
        done = [written(os.path.dirname(os.path.dirname(sign)), *each) for each in done]
    return zlib.compress(pickle.dumps((time.monotonic() - began, done)), 1)


def written(folder, number, row, fault, *files):
    """A run whose files a worker has written."""
    if files:
        sweep_folder.keep_run(folder, number, *files)
    return number, row, fault


def one_run(number, text, asked):
    """The number of a run, its answers, its fault, and where it has none its document and its trace."""
    from kube_replay.engine import engine
    from kube_replay.errors import ProgramFault

    try:
        status, trace = engine().run([b'replay'], text.encode())
    except ProgramFault as fault:
        return number, None, str(fault)
    if status not in (0, 1):
        return number, None, 'ends with status %d' % status
    told = questions.Told(json.loads(text)) if questions.need_document(asked) else None
    trace = trace.decode()
    return number, questions.answers(io.StringIO(trace), asked, told), '', text, trace
