"""What a sweep asks of a trace. Each answer is taken from the lines, that of a pod's delay from the document too: a number, `never`, or
None where there is nothing to tell."""
import collections

from cluster_sets import placed as placed_of_set


class Unknown(Exception):
    """A question that isn't known."""


class Trace:
    """The lines that a question looks at: turns of the lead and pauses, marks of silent nodes, taints, evictions, and what kubelets do."""

    def __init__(self, head, file):
        fields = dict(word.split('=') for word in head.split()[2:])
        self.millis, self.end, self.premise = int(fields['beat']), int(fields['end']), fields['premise']
        self.turns, self.unknown, self.taints, self.evictions, self.signs = [], [], [], [], []
        self.first_taints, self.tainted = [], set()
        for line in file:
            beat, actor, *words = line.split()
            self.take(int(beat), actor, words)

    def take(self, beat, actor, words):
        accepted = words[-1].startswith('v=') and words[-2] != 'conflict'
        if words[0] in ('lead', 'crash', 'stop', 'end'):
            self.turns.append((beat, actor, words[0], 0))
        if words[0] == 'pause':
            self.turns.append((beat, actor, words[0], int(words[1].removeprefix('beats='))))
        if actor.startswith('kubelet/'):
            self.signs.append((beat, actor[len('kubelet/'):].rpartition('_')[0]))
        if accepted and words[0] == 'unknown':
            self.unknown.append((beat, words[1]))
        if accepted and words[0] == 'taint':
            self.taints.append((beat, words[1]))
        if accepted and words[0] in ('taint', 'swap', 'untaint'):
            self.take_taint(beat, *words[:2])
        if accepted and words[0] == 'evict':
            self.evictions.append((beat, words[1]))

    def take_taint(self, beat, word, node):
        """A node that is tainted already can be tainted anew, which moves no eviction."""
        if word == 'taint' and node not in self.tainted:
            self.first_taints.append((beat, node))
        (self.tainted.discard if word == 'untaint' else self.tainted.add)(node)

    def seconds(self, beats):
        return beats * self.millis / 1000

    def acting(self):
        """The stretches in which a leader acts, from a beat to before another: its term, from its lead to before its end, without the beats in which
        a pause has it stand still."""
        since, still, found = {}, {}, []
        for beat, actor, turn, beats in self.turns:
            if actor in since and turn != 'lead':
                found.append((since[actor], beat))
            if turn == 'lead':
                since.setdefault(actor, max(beat, still.get(actor, 0)))
            elif turn == 'pause':
                still[actor] = max(still.get(actor, 0), beat + beats)
                since.update({actor: still[actor]} if actor in since else {})
            else:
                since.pop(actor, None)
        found += [(beat, self.end + 1) for beat in since.values()]
        return [stretch for stretch in found if stretch[0] < stretch[1]]

    def leaders(self):
        """How many act as the leader: spans of beats from, to before, and the count."""
        changes = collections.Counter()
        for since, until in self.acting():
            changes[since] += 1
            changes[until] -= 1
        spans, since, count = [], 0, 0
        for beat in sorted(beat for beat, change in changes.items() if change and beat <= self.end):
            spans.append((since, beat, count))
            since, count = beat, count + changes[beat]
        spans.append((since, self.end + 1, count))
        return [span for span in spans if span[0] < span[1]]


def leaderless(trace):
    return trace.seconds(sum(to - since for since, to, count in trace.leaders() if count == 0))


def two_leaders(trace):
    return trace.seconds(sum(to - since for since, to, count in trace.leaders() if count > 1))


def failover(trace):
    spans = trace.leaders()
    while spans and spans[0][2] == 0:
        spans.pop(0)
    gaps = [to - since for since, to, count in spans if count == 0]
    if gaps and spans[-1][2] == 0:
        return 'never'
    return trace.seconds(max(gaps)) if gaps else None


def evictions(trace):
    return len(trace.evictions)


def taints_a_minute(trace):
    """The most in any minute: from one of them on, up to but not with a minute later."""
    beats, most, last = [beat for beat, _ in trace.taints], 0, 0
    for first, beat in enumerate(beats):
        while last < len(beats) and (beats[last] - beat) * trace.millis < 60_000:
            last += 1
        most = max(most, last - first)
    return most


def eviction_delay(trace, node=None):
    marked = [mark for mark in trace.unknown if node in (None, mark[1])]
    if not marked:
        return None
    beat, node = marked[0]
    signs = [at for at, name in trace.signs if name == node and at <= beat]
    after = [at for at, _ in trace.evictions if at >= beat]
    return trace.seconds(after[-1] - signs[-1]) if signs and after else None


class Told:
    """What the document tells: the node of each pod, and when something befell a kubelet: a crash, a pause, or the loss of its requests."""

    def __init__(self, document):
        items = (document.get('objects') or {}).get('items', [])
        events = document.get('events', [])
        placed = [item for item in items if item.get('kind') == 'Pod']
        placed += [event['object'] for event in events if event['type'] == 'put' and event['object'].get('kind') == 'Pod']
        self.pods = {'%s/%s' % (pod['metadata'].get('namespace', 'default'), pod['metadata']['name']): pod.get('spec', {}).get('nodeName')
                     for pod in placed}
        for each in document.get('podSets', []):
            self.pods.update(('%s/%s' % (each.get('namespace', 'default'), name), node) for name, node in placed_of_set(each))
        self.strokes = [(event['beat'], event['process'].removeprefix('kubelet/')) for event in events
                        if event['type'] in ('crash', 'pause') or event['type'] == 'loss' and (event['requests'] or event['replies'])]


def pod_lives(trace, told):
    """Of each pod that was evicted, or whose node was marked or tainted: its node, since when that was silent, when it was marked, when tainted, and
    when the pod was evicted, each the first time after the stroke that led to it; and the seconds from silent to evicted. What was
    so before the trace begins isn't told."""
    gone = {}
    for beat, pod in trace.evictions:
        gone.setdefault(pod, beat)
    lives = []
    taints, marks, strokes, signs = map(by_node, (trace.first_taints, trace.unknown, told.strokes, trace.signs))
    for pod, node in told.pods.items():
        evicted = gone.get(pod)
        tainted = last(taints.get(node, ()), evicted)
        unknown = last(marks.get(node, ()), tainted)
        if unknown is None and tainted is None:
            if evicted is not None:
                lives.append((pod, node, None, None, None, trace.seconds(evicted), None))
            continue
        until = unknown if unknown is not None else tainted
        silent = last(strokes.get(node, ()), until)
        if silent is None:
            silent = last(signs.get(node, ()), until)
        times = [None if beat is None else trace.seconds(beat) for beat in (silent, unknown, tainted, evicted)]
        lives.append((pod, node, *times, times[3] - times[0] if times[3] is not None and times[0] is not None else None))
    return lives


def by_node(found):
    """The beats at which something was found of each node."""
    beats = {}
    for beat, node in found:
        beats.setdefault(node, []).append(beat)
    return beats


def last(beats, until):
    """The last of the beats, up to one where that is known."""
    before = beats if until is None else [beat for beat in beats if beat <= until]
    return before[-1] if before else None


def pod_delay(trace, told, pod=None):
    """The longest of all pods, or that of one. A pod that a toleration keeps has none; of one whose node was silent before the trace begins it isn't known."""
    lives = {life[0]: life for life in pod_lives(trace, told)}
    if pod:
        return lives[pod][-1] if pod in lives and lives[pod][-2] is not None else 'never'
    return max((life[-1] for life in lives.values() if life[-1] is not None), default=None)


QUESTIONS = {
    'leaderless': (leaderless, 'seconds without a leader'),
    'failover': (failover, 'seconds from the loss of the leader, also to a pause, until one acts again; the longest, `never` where none follows'),
    'two-leaders': (two_leaders, 'seconds in which two or more act as the leader'),
    'evictions': (evictions, 'evictions'),
    'taints-a-minute': (taints_a_minute, 'taints in the minute with most of them'),
    'eviction-delay': (eviction_delay, "seconds from the last line of a silent node's kubelet to the last eviction; "
                                       '`eviction-delay:NODE` for one node, else the first that is marked Unknown'),
    'pod-delay': (pod_delay, "seconds from the silence of a pod's node to the pod's eviction; the longest of all pods, "
                             '`pod-delay:NAMESPACE/NAME` that of one, `never` where it stays'),
}
WITH_MORE = ('eviction-delay', 'pod-delay')


def find(question):
    """The function of a question, and what stands behind its colon."""
    name, _, more = question.partition(':')
    if name not in QUESTIONS or (more and name not in WITH_MORE):
        raise Unknown('no question %s; there are %s' % (question, ', '.join(QUESTIONS)))
    return QUESTIONS[name][0], [more] if more else []


def title(question):
    return QUESTIONS[question.partition(':')[0]][1].partition(';')[0]


def need_document(asked):
    return any(question.partition(':')[0] == 'pod-delay' for question in asked)


def told():
    return '\n'.join('%-16s %s' % (name, words) for name, (_, words) in QUESTIONS.items())


def answers(file, asked, told_by=None):
    """The premise, the outcome (`done`, or the line of a refusal) and the answers of a trace."""
    head = file.readline().strip()
    if not head.startswith('trace 1 '):
        return {'premise': '', 'outcome': head, **dict.fromkeys(asked)}
    trace, row = Trace(head, file), {}
    for question in asked:
        ask, more = find(question)
        row[question] = ask(trace, told_by, *more) if ask is pod_delay else ask(trace, *more)
    return {'premise': trace.premise, 'outcome': 'done', **row}
