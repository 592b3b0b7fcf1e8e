"""How long nobody leads after a crash, at least and at most: what `kube_lens bounds` tells of a document, where that program is built."""
import json
import os
import shlex
import subprocess

TOP = os.path.dirname(os.path.dirname(os.path.realpath(__file__)))
PLACES = [os.path.join(TOP, 'crates', 'kube_lens', 'out', 'kube_lens'), '/usr/libexec/kube-replay/kube_lens']
# What names another program, as in the Python package and in kubectl replay.
VARIABLE = 'KUBE_LENS_PROGRAM'


def program():
    """The words that call kube_lens, or nothing where it isn't there."""
    if os.environ.get(VARIABLE):
        return shlex.split(os.environ[VARIABLE])
    found = next((path for path in PLACES if os.access(path, os.X_OK)), None)
    return [found] if found else []


def kept(document):
    """What the bounds depend on: settings, processes, and the delays and rates that events set, whenever they do."""
    events = [{**event, 'beat': 0} for event in document.get('events') or [] if event.get('type') in ('delay', 'rate')]
    return {'version': document.get('version'), 'settings': {**document['settings'], 'endBeat': 0}, 'controllers': document['controllers'],
            'kubelets': document.get('kubelets') or [], 'events': events}


class CrashBounds:
    """Those of documents; each kind of document is asked for once."""

    def __init__(self, words=None):
        self.words, self.known = program() if words is None else words, {}

    def of_each(self, document):
        """By a controller's name the milliseconds at least and at most, and how long it has to have led before. It isn't there where none are told:
        a premise fails, or nobody else may lead."""
        text = json.dumps(kept(document))
        if text not in self.known:
            self.known[text] = self.asked(text) if self.words else {}
        return self.known[text]

    def asked(self, text):
        try:
            said = subprocess.run([*self.words, 'bounds', '--json'], input=text, stdout=subprocess.PIPE, stderr=subprocess.DEVNULL, text=True,
                                  check=False).stdout
        except OSError:
            return {}
        told = json.loads(said) if said.startswith('{') else {'controllers': []}
        return {one['name']: (one['crashLeastMillis'], one['crashMostMillis'], 3 * told['delayMillis'])
                for one in told['controllers'] if one.get('crashMostMillis') is not None}

    def of_any(self, document):
        """The seconds at least and at most, whichever controller crashes; None where none are told of one."""
        spans = self.of_each(document)
        if len(spans) < len(document['controllers']) or not spans:
            return None
        return min(least for least, _, _ in spans.values()) / 1000, max(most for _, most, _ in spans.values()) / 1000
