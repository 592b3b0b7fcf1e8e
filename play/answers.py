"""What the playground answers on a document: its trace, how much room each lease leaves, and what the trace comes to; or why it is refused.

Traces come from the library or the program (python/kube_replay/engine.py finds it), all else from the program kube_lens.
"""
import json
import os
import shutil
import subprocess
import sys
from concurrent.futures import ThreadPoolExecutor

HERE = os.path.dirname(os.path.realpath(__file__))
TOP = os.path.dirname(HERE)
sys.path[:0] = [os.path.join(TOP, 'python'), os.path.join(TOP, 'tools')]
import questions
from cluster_sets import count_of
from kube_replay import engine
from kube_replay.errors import KubeReplayError

LENS_VARIABLE = 'KUBE_LENS_PROGRAM'
LENS_PLACES = (os.path.join(TOP, 'crates', 'kube_lens', 'out', 'kube_lens'), '/usr/libexec/kube-replay/kube_lens')
DONE, REFUSED, OUT_OF_MEMORY = 0, 1, 5
# A longer trace isn't handed to the page: no browser draws millions of lines while somebody drags.
MOST_TRACE = 32_000_000
# The library is called again where a text has no room in its buffer, so that begins large.
FIRST_ROOM = 1 << 22
# What stands before the objects of a document, which the page writes last.
OBJECTS = b',"objects":'
# The delay from a node's silence is asked of each pod, which is slow for very many.
MOST_PODS_ASKED, BYTES_OF_A_POD = 2_000, 1_000


class Lens:
    """The program kube_lens, where there is one."""

    def __init__(self):
        named = os.environ.get(LENS_VARIABLE)
        found = [place for place in LENS_PLACES if os.access(place, os.X_OK)]
        self.program = named or (found[0] if found else shutil.which('kube_lens'))

    def ask(self, *words, data):
        """The object that a command answers with --json; None where the program is missing or refuses."""
        if not self.program:
            return None
        done = subprocess.run([self.program, *words], input=data, stdout=subprocess.PIPE, stderr=subprocess.DEVNULL, check=False)
        return json.loads(done.stdout) if done.returncode in (DONE, REFUSED) and done.stdout.startswith(b'{') else None


def without_objects(document, objects_at):
    """The document as far as clocks, leases and pauses go: what is stored doesn't count there, and is long. None where it is no object."""
    if objects_at and document[objects_at:objects_at + len(OBJECTS)] == OBJECTS:
        return document[:objects_at] + b'}'
    read = parsed(document)
    return json.dumps({key: value for key, value in read.items() if key != 'objects'}, separators=(',', ':')).encode() if isinstance(read, dict) else None


def parsed(document):
    try:
        return json.loads(document)
    except (ValueError, RecursionError):
        return None


def lateness(evictions):
    """Of evictions of kube_lens summary --document --json: how many, and how late the latest was, by its controller's clock and in true time."""
    told = {'count': len(evictions)}
    for key in ('lateByItsClockMicros', 'lateInTrueTimeMicros'):
        late = [each[key] for each in evictions if each.get(key) is not None]
        told[key] = {'most': max(late), 'least': min(late)} if late else None
    return told


def pod_delay(document, trace):
    """The most seconds from the silence of a pod's node to the pod's eviction; None where there is none, or where the pods are too many."""
    if len(document) > MOST_PODS_ASKED * BYTES_OF_A_POD:
        return None
    document = parsed(document)
    pods = [item for item in (document.get('objects') or {}).get('items') or [] if item.get('kind') == 'Pod']
    if len(pods) + count_of(document) > MOST_PODS_ASKED:
        return None
    lines = iter(trace.decode().splitlines())
    return questions.pod_delay(questions.Trace(next(lines), lines), questions.Told(document))


def summary(lens, light, document, trace):
    """What the trace comes to, as far as the page shows it."""
    told = lens.ask('summary', '--document', '--json', data=light + b'\n' + trace)
    if told is None:
        return None
    return {'header': told['header'], 'terms': len(told['terms']), 'spansWithoutLeader': told['spansWithoutLeader'],
            'evictions': lateness(told['evictions']), 'podDelaySeconds': pod_delay(document, trace) if told['evictions'] else None}


class Answers:
    """All that is asked of a document, by one engine and one lens."""

    def __init__(self):
        engine.FIRST_ROOM = FIRST_ROOM
        self.engine, self.lens, self.beside = engine.engine(), Lens(), ThreadPoolExecutor(1)

    def answer(self, document, objects_at=0):
        """The answer on the bytes of a document, as an object for the page; it may tell where the objects begin, if they stand last."""
        replayed = self.beside.submit(self.engine.run, [b'replay'], document)
        light = without_objects(document, objects_at)
        margin = self.lens.ask('margin', '--json', data=light) if light else None
        try:
            status, text = replayed.result()
        except KubeReplayError as fault:
            return {'fault': str(fault)}
        if status == REFUSED:
            return {'refused': self.refusal(document, text)}
        if status != DONE:
            return {'fault': 'memory ran out' if status == OUT_OF_MEMORY else 'the program ended with status %d' % status}
        if len(text) > MOST_TRACE:
            return {'fault': 'the trace has %d MB, and the page draws up to %d: let it run for less, or take longer beats' % (len(text) // 10**6, MOST_TRACE // 10**6)}
        return {'trace': text.decode(), 'margin': margin, 'summary': summary(self.lens, light, document, text) if light else None}

    def refusal(self, document, text):
        """Why a document is refused: the code and the path, and where kube_lens is there, its sentence."""
        words = text.decode(errors='replace').split()
        told = self.lens.ask('explain', '--json', data=document)
        return told or {'wellFormed': False, 'code': int(words[1]), 'path': words[2], 'why': 'refused %s %s\n' % (words[1], words[2])}
