#!/usr/bin/env python3
"""Compares what `kube_lens summary` answers with a reference in Python, on the examples' traces and on traces made from seeds.

    tools/test/test_lens_summary.py [--count 200] [--seed 1] [--program PROGRAM] [--traces FOLDER]

The reference shares nothing with the program: it splits the lines into words and asks of each beat who leads in it and isn't paused. FOLDER may have more
traces, one a file. PROGRAM is by default the built kube_lens; where it isn't built it runs unproved, by `rt try --cases`. The exit status is 1
where anything differs. Nothing here is a proof.
"""
import os

import lens_frame
import test_lens_trace

KINDS = ('start', 'crash', 'stop', 'end', 'pause', 'stall', 'lead', 'create-election', 'update-election', 'nodelease', 'status', 'put', 'remove',
         'unknown', 'mode', 'zone', 'taint', 'swap', 'untaint', 'evict')
NODES = ('n1', 'n2', 'n3.example')
ANSWERS = ('v=3', 'v=18446744073709551615', 'conflict v=12', 'absent')


def answered(dice, form):
    return f'{form} {dice.choice(ANSWERS)}'


def line(dice):
    """What an identity may say, and who may."""
    node = dice.choice(NODES)
    leader = dice.choice(('c0_1', 'c0_2', 'host-a_1'))
    kubelet = f'kubelet/{node}_1'
    return dice.choice((
        (leader, 'lead v=1'), (leader, 'lead v=9'), (leader, dice.choice(test_lens_trace.ENDINGS)), (leader, 'start'),
        (leader, f'pause beats={dice.choice((1, 7, 7, 900, 604_800_000))}'),
        (leader, dice.choice(('create election v=1 t=0', 'create election exists', 'update election v=2 t=1', 'update election conflict v=7',
                              'update election absent'))),
        (leader, dice.choice(('mode on', 'mode off'))),
        (leader, f'zone r1/z{dice.randrange(3)} {dice.choice(("Normal", "PartialDisruption", "FullDisruption"))} rate={dice.choice((0, 10, 100))}'),
        (leader, answered(dice, f'unknown {node} NodeStatusUnknown')), (leader, answered(dice, f'taint {node} unreachable')),
        (leader, answered(dice, f'swap {node} not-ready')), (leader, answered(dice, f'untaint {node}')),
        (leader, answered(dice, f'evict default/web-{dice.randrange(4)} due=2024-01-01T00:01:15Z')),
        (kubelet, dice.choice(('start', 'crash', 'pause beats=3', f'create nodelease {node} v=3', f'create nodelease {node} exists',
                               f'update nodelease {node} conflict v=8', f'update nodelease {node} absent'))),
        (kubelet, f'status {node} {dice.choice(("True", "False"))} {dice.choice(("v=3", "absent"))}'),
        ('script', dice.choice(('put pod/default/web v=8', f'put node/{node} v=9', 'remove lease/default/db v=10', 'stall beats=7')))))


def trace(dice):
    """A trace with all forms of lines."""
    end = dice.choice((0, 7, 90, 40_000, 604_800_000))
    beats = sorted(dice.randint(0, end) for _ in range(dice.choice((0, 1, 3, 12, 60))))
    lines = [f'{beat} {who} {says}' for beat, (who, says) in ((beat, line(dice)) for beat in beats)]
    millis = dice.choice((1, 10, 25, 100, 999, 1000))
    return '\n'.join([f'trace 1 beat={millis} end={end} premise={dice.choice(("yes", "no"))}'] + lines) + '\n'


def traces(words):
    """Those of the examples and of a folder, and as many more as wanted, one in ten of them broken."""
    more = lens_frame.texts(os.path.abspath(words.traces), '*') if words.traces else []
    return lens_frame.example_traces() + more + list(lens_frame.from_seed(words.seed, words.count, trace, lens_frame.broken))


class Trace:
    """A trace's numbers and lines, as words."""

    def __init__(self, text):
        first, *rest = text.splitlines()
        words = dict(word.split('=') for word in first.split()[2:])
        self.millis, self.end, self.premise = int(words['beat']), int(words['end']), words['premise']
        self.lines = [line.split() for line in rest]

    def at(self, beat):
        """A beat, or a number of beats, and the time."""
        tenths = beat * self.millis // 100
        minutes, tenths = divmod(tenths, 600)
        return f'{beat} ({minutes // 60}:{minutes % 60:02}:{tenths // 10:02}.{tenths % 10})'

    def terms(self):
        """Who leads from when until when, and how it ended."""
        for number, (beat, who, *says) in enumerate(self.lines):
            if says[0] == 'lead':
                ends = [(int(line[0]), line[2]) for line in self.lines[number + 1:] if line[1] == who and line[2] in test_lens_trace.ENDINGS]
                yield (who, int(beat), *(ends or [(self.end + 1, 'trace-end')])[0])

    def pauses(self):
        """Who stands still from when until when."""
        return [(who, int(beat), int(beat) + int(says[1].removeprefix('beats='))) for beat, who, *says in self.lines if says[0] == 'pause']

    def marks(self):
        """The beats at which it may change who acts, those at which terms and pauses begin or end. Between two of them it is the same at each."""
        spans = [(since, until) for _, since, until, _ in self.terms()] + [(since, until) for _, since, until in self.pauses()]
        return sorted({0, self.end + 1, *(beat for span in spans for beat in span if beat <= self.end)})

    def acting(self, beat):
        """Who acts in a beat: who leads and isn't paused."""
        paused = {who for who, since, until in self.pauses() if since <= beat < until}
        return {who for who, since, until, _ in self.terms() if since <= beat < until} - paused

    def began(self, who, beat):
        """Since which beat somebody acts who does at a beat, and by which line: the last one at which it began to lead or was paused."""
        leads, since = False, None
        for number, (at, name, *says) in enumerate(self.lines, 2):
            if name == who and int(at) <= beat:
                if says[0] == 'pause' or says[0] == 'lead' and not leads:
                    since = int(at), number
                leads = says[0] == 'lead' or leads and says[0] not in test_lens_trace.ENDINGS
        first = next(mark for mark in sorted({since[0], *self.marks()}) if mark >= since[0] and who in self.acting(mark))
        return first, since[1]

    def overlap(self):
        """The line by which the second one begins of the first two that act at once, or `-`."""
        for beat in self.marks():
            if beat <= self.end and len(self.acting(beat)) > 1:
                return str(sorted(self.began(who, beat) for who in self.acting(beat))[1][1])
        return '-'

    def shared(self):
        """At how many beats two identities act."""
        marks = self.marks()
        return sum(until - since for since, until in zip(marks, marks[1:]) if len(self.acting(since)) > 1)

    def quiet(self):
        """How long each span is in which nobody acts."""
        marks, spans, joined = self.marks(), [], False
        for since, until in zip(marks, marks[1:]):
            if self.acting(since):
                joined = False
            elif joined:
                spans[-1] += until - since
            else:
                spans.append(until - since)
                joined = True
        return spans


def kind(says):
    if says[1:2] == ['election']:
        return f'{says[0]}-election'
    return says[1] if says[1:2] == ['nodelease'] else says[0]


def answer(says):
    """How what a line writes was answered, or `-`."""
    if kind(says) in ('start', 'crash', 'stop', 'end', 'pause', 'stall', 'lead', 'mode', 'zone'):
        return '-'
    return next(word for word in ('conflict', 'absent', 'exists', 'written') if word == 'written' or word in says[1:])


def totals(trace):
    for name in KINDS + ('all',):
        answers = [answer(says) for _, _, *says in trace.lines if name in ('all', kind(says))]
        if answers or name == 'all':
            yield [name, str(len(answers)), *(str(answers.count(word)) for word in ('written', 'conflict', 'absent', 'exists'))]


def tables(trace):
    """Heading and rows of each table."""
    at = trace.at
    yield [['BEAT-MILLIS', 'LAST-BEAT', 'PREMISE', 'TWO-LEAD-FROM-LINE', 'TWO-LEAD-BEATS'],
           [str(trace.millis), at(trace.end), trace.premise, trace.overlap(), at(trace.shared())]]
    yield [['LEADER', 'FROM', 'UNTIL', 'LASTED', 'ENDED']] + [[who, at(since), at(until), at(until - since), how] for who, since, until, how in trace.terms()]
    quiet = trace.quiet()
    yield [['SPANS-WITHOUT-LEADER', 'LONGEST', 'SUM'], [str(len(quiet)), at(max(quiet, default=0)), at(sum(quiet))]]
    yield [['ZONE', 'SINCE', 'STATE', 'RATE', 'BY']] + [[says[1], at(int(beat)), says[2], says[3][5:], who]
                                                       for beat, who, *says in trace.lines if says[0] == 'zone']
    yield [['NODE', 'SINCE', 'CHANGE', 'REASON', 'BY']] + [[says[1], at(int(beat)), says[0], says[2] if says[0] != 'untaint' else '-', who]
                                                           for beat, who, *says in trace.lines
                                                           if says[0] in ('unknown', 'taint', 'swap', 'untaint') and says[-1].startswith('v=') and 'conflict' not in says]
    yield [['POD', 'DUE', 'EVICTED', 'BY']] + [[says[1], says[2][4:], at(int(beat)), who] for beat, who, *says in trace.lines
                                               if says[0] == 'evict' and says[3].startswith('v=')]
    yield [['KIND', 'LINES', 'WRITTEN', 'CONFLICT', 'ABSENT', 'EXISTS']] + list(totals(trace))


def aligned(rows):
    widths = [max(map(len, column)) for column in zip(*rows)]
    return ''.join('   '.join(cell.ljust(width) for cell, width in zip(row[:-1], widths)) + '   ' + row[-1] + '\n' for row in rows)


def wanted(text, replay):
    """The text wanted: for a text that is no trace the refusal of `audit`."""
    said = lens_frame.text_of(replay, 'audit', text)
    if said.startswith('refused 40 '):
        return said
    return '\n'.join(aligned(rows) for rows in tables(Trace(text)) if len(rows) > 1)


def status(wanted):
    return 1 if wanted.startswith('refused ') else 0


def main():
    words = lens_frame.options(__doc__, 200)
    words.add_argument('--traces')
    words = lens_frame.given(words, may_lack_lens=True)
    cases = [(text, wanted(text, words.replay)) for text in traces(words)]
    print(f"{len(cases)} traces, {sum(told.startswith('refused ') for _, told in cases)} refused", flush=True)
    lens_frame.compare(words, 'summary', cases, status)


if __name__ == '__main__':
    main()
