#!/usr/bin/env python3
"""Compares the JSON of `kube_lens lines --json`, `leaders --json` and `summary --json` with the lines of traces, that of `summary --document --json`
with documents and their traces, that of `kube_lens margin --json` with the numbers of documents and of flags, and that of `kube_lens explain --json`
with the places in documents, on the examples and on traces, documents and flags made from seeds.

    tools/test/test_lens_json.py [--count 200] [--seed 1] [--program PROGRAM] [--traces FOLDER]

What is wanted of `lines` is made of each line's words as docs/lens-lines.md tells, of `leaders` it is what tools/test/test_lens_trace.py asks of each
beat, of `margin` what tools/test/test_lens.py finds by trying, also of the document that flags describe, of `summary` the tables of
tools/test/test_lens_summary.py, and beside a document the evictions of tools/test/test_lens_lateness.py, with no look at the program; what `explain` tells is
judged by tools/test/test_lens_explain.py, which asks `check` and finds the places itself. Python's own reader reads the JSON, and names, values and their
order are compared. FOLDER may have more traces, one a file.
The exit status is 1 where anything differs. Nothing here is a proof.
"""
import json
import random

import lens_frame
import test_lens
import test_lens_explain
import test_lens_lateness
import test_lens_summary
import test_lens_trace

# the names of a kind's words that have no name of their own
NAMES = {'put': ['key'], 'remove': ['key'], 'status': ['node', 'ready'], 'unknown': ['node', 'reason'], 'taint': ['node', 'taint'],
         'swap': ['node', 'taint'], 'untaint': ['node'], 'evict': ['pod'], 'zone': ['zone', 'state'], 'mode': ['mode'],
         'create': ['object', 'node'], 'update': ['object', 'node']}
ANSWERS = ('conflict', 'absent', 'exists')


def named(word):
    """`NAME=VALUE`: a number, but for a time of day."""
    name, value = word.split('=')
    return name, value if name == 'due' else int(value)


def members(line):
    """The members of a line behind the first, in order."""
    beat, actor, kind, *rest = line.split(' ')
    names = iter(NAMES.get(kind, []))
    found = [('beat', int(beat)), ('actor', actor), ('kind', kind)]
    for word in rest:
        if '=' in word:
            found.append(named(word))
        elif word in ANSWERS:
            found.append(('answer', word))
        else:
            found.append((next(names), word))
    return found


def first(line):
    """The members of the first line."""
    trace, version, millis, end, premise = line.split(' ')
    return [('kind', trace), ('version', int(version)), ('beatMillis', int(millis.split('=')[1])), named(end), ('premise', premise.split('=')[1])]


def lines_wanted(text, replay):
    """The refusal of `audit`, or the members of each line."""
    said = lens_frame.text_of(replay, 'audit', text)
    if said.startswith('refused 40 '):
        return said
    head, *lines = text.splitlines()
    return [first(head)] + [members(line) for line in lines]


def leaders_wanted(text, replay):
    """The refusal of `audit`, or the one object of what `leaders` tells in lines."""
    said = test_lens_trace.wanted(text, replay)
    if said.startswith('refused '):
        return said
    terms, nobody, overlap = [], [], None
    for line in said.splitlines():
        who, *words = line.split()
        found = [(name, int(value) if value.isdigit() else value) for name, value in (word.split('=') for word in words if '=' in word)]
        if who == 'nobody':
            nobody.append(found)
        elif who == 'overlap':
            overlap = found
        elif words and words[0].startswith('from='):
            terms.append([('leader', who)] + found)
    return [[('terms', terms), ('nobody', nobody), ('overlap', overlap)]]


def number_if(word):
    """The number of a word in front of its unit, None for `none`."""
    return None if word == 'none' else int(word.rstrip('ms'))


def margin_wanted(doc, replay):
    """The refusal of `check`, or the one object of what `margin` tells in lines."""
    said = test_lens.expected(doc, replay)
    if said.startswith('refused '):
        return said
    *lines, last = said.splitlines()
    controllers, late = [], None
    for line in lines:
        name, *words = line.split()
        if name.startswith('late-reply='):
            late = [('event', int(name.split('/')[-1])), ('beat', int(words[0].split('=')[1])), ('name', words[1].split('=')[1].rstrip(':'))]
            continue
        lease, must, slack, least, stall = (number_if(word.split('=')[1]) for word in words)
        controllers.append([('name', name), ('leaseMillis', lease), ('mustExceedMillis', must), ('slackMillis', slack), ('leastLeaseSeconds', least),
                            ('longestStallMillis', stall)])
    return [[('controllers', controllers), ('lateReply', late), ('safe', last == 'safe')]]


class Flags:
    """Settings as flags, with what they come to by the lease premise of the two controllers that they describe, tried."""

    def __init__(self, dice):
        self.dice, self.timings = dice, test_lens.timings(dice)
        self.skew = dice.choice((0, 0, 1, 1000, 20000, 499999, 500000, dice.randint(0, 500000)))
        self.beat = dice.choice((1, 7, 100, 1000, dice.randint(1, 1000)))
        self.release, self.acting = test_lens.releases(dice)
        self.is_given = self.timings['renewDeadlineMillis'] > 600000 or dice.random() < 0.6
        if not self.is_given:
            self.timings['callTimeoutMillis'] = self.timings['renewDeadlineMillis']

    def words(self):
        """The flags in any order, each in one word or two, and `--json` among them."""
        times = [('lease', 'leader-elect-lease-duration', 'leaseDurationSeconds'), ('renew', 'leader-elect-renew-deadline', 'renewDeadlineMillis'),
                 ('retry', 'leader-elect-retry-period', 'retryPeriodMillis')] + [('timeout', 'timeout', 'callTimeoutMillis')] * self.is_given
        flags = [(self.dice.choice((own, other)), f'{self.timings[key]}{"s" if own == "lease" else "ms"}') for own, other, key in times]
        flags += [('skew', f'{self.skew}ppm'), ('beat', f'{self.beat}ms'), ('release', self.release), ('in-release', self.acting)]
        self.dice.shuffle(flags)
        groups = [[f'--{name}={value}'] if self.dice.random() < 0.5 else [f'--{name}', value] for name, value in flags]
        groups.insert(self.dice.randint(0, len(groups)), ['--json'])
        return [word for group in groups for word in group]

    def at(self, skew):
        """The reference for the document of these settings and a skew: the slowest controller, and the fastest."""
        return test_lens.Reference({'settings': {'endBeat': 0, 'beatMillis': self.beat, 'release': self.release, 'inRelease': self.acting, **self.timings},
                                    'controllers': [{'name': 'slow', 'ratePpm': 1000000 - skew}, {'name': 'fast', 'ratePpm': 1000000 + skew}],
                                    'events': [{'beat': 0, 'type': 'loss', 'process': 'slow', 'requests': False, 'replies': True}]})

    def is_safe(self, skew):
        return self.acting == 'still' and skew < 1000000 and self.timings['leaseDurationSeconds'] * 1000 > max(self.at(skew).bound(place, 0) for place in (0, 1))

    def wanted(self):
        lease, must, slack, least, stall = (number_if(word.split('=')[1]) for word in self.at(self.skew).line(0).split()[1:])
        greatest = test_lens.Reference.last(self.is_safe) if self.is_safe(0) else None
        return [[('timeoutMillis', self.timings['callTimeoutMillis']), ('timeoutIsRenewDeadline', not self.is_given), ('skewPpm', self.skew),
                 ('release', self.release), ('inRelease', self.acting),
                 ('leaseMillis', lease), ('mustExceedMillis', must), ('slackMillis', slack), ('leastLeaseSeconds', least), ('longestStallMillis', stall),
                 ('greatestSkewPpm', greatest), ('safe', self.is_safe(self.skew))]]


PLACE = ('line', 'column', 'found')
COUNTS = ('controllers', 'kubelets', 'objects', 'skipped', 'events')


def place_line(line, column, found):
    return f'line {line}, column {column}: {found}\n'


def explained(told):
    """The lines of `explain` that an object stands for, where its members are those that docs/lens-explain.md has, in that order."""
    names, found = [name for name, _ in told], dict(told)
    if names == ['wellFormed', 'code', 'path', *PLACE, 'why'] and found['wellFormed'] is False:
        return f"refused {found['code']} {found['path']}\n{place_line(*(found[name] for name in PLACE))}{found['why']}"
    if names != ['wellFormed', *COUNTS, 'warnings', 'units', 'noKubelets'] or found['wellFormed'] is not True:
        return f'no such members: {names}'
    lines = 'well-formed ' + ' '.join(f'{name}={found[name]}' for name in COUNTS) + '\n'
    for warning in found['warnings']:
        if [name for name, _ in warning] != [*PLACE, 'againLine', 'againColumn', 'againFound']:
            return f'no such members: {warning}'
        places = [value for _, value in warning]
        lines += 'warning: a key is here twice, and the last one counts\n' + place_line(*places[:3]) + place_line(*places[3:])
    for unit in found['units']:
        if [name for name, _ in unit] != ['path', 'value', 'likely']:
            return f'no such members: {unit}'
        lines += test_lens_explain.unit_line(*(value for _, value in unit))
    return lines + (test_lens_explain.UNHEARD if found['noKubelets'] else '')


def explain_fault(program, replay, text):
    """What is wrong in the object on a document, if anything."""
    status, said = lens_frame.answer(program, ['explain', '--json'], text)
    try:
        objects = lens_frame.objects(said.decode().splitlines())
    except ValueError as fault:
        return f'no JSON: {fault}: {said}'
    if len(objects) != 1:
        return f'{len(objects)} objects'
    return test_lens_explain.fault(text, lens_frame.answer(replay, ['check'], text), (status, explained(objects[0]).encode()))


# the tables of `summary` by their members, and whether it is one object
SUMMARY = (('header', True), ('terms', False), ('spansWithoutLeader', True), ('zones', False), ('nodes', False), ('evictions', False), ('totals', False))
TEXTS = ('premise', 'leader', 'ended', 'zone', 'state', 'by', 'node', 'change', 'reason', 'pod', 'due', 'kind')


def column(heading):
    """The name of a member by its column: `LAST-BEAT` is `lastBeat`."""
    first, *more = heading.lower().split('-')
    return 'count' if heading == 'SPANS-WITHOUT-LEADER' else first + ''.join(word.capitalize() for word in more)


def cell(name, text):
    """What a member has by its cell: a beat without the time behind it."""
    if text == '-':
        return None
    return text if name in TEXTS else int(text.split(' ')[0])


def summary_wanted(text, replay):
    """The refusal of `audit`, or the one object of what stands in the tables of `summary`."""
    said = test_lens_summary.wanted(text, replay)
    if said.startswith('refused '):
        return said
    found = []
    for (table, lone), (heading, *rows) in zip(SUMMARY, test_lens_summary.tables(test_lens_summary.Trace(text))):
        objects = [[(name, cell(name, word)) for name, word in zip(map(column, heading), row)] for row in rows]
        found.append((table, objects[0] if lone else objects))
    return [found]


LATE = ('pod', 'due', 'evicted', 'by', 'lateByItsClockMicros', 'lateInTrueTimeMicros')


def late_wanted(text, trace, replay):
    """The refusal of `check` or `audit` or of a trace with other beats, or the object of the trace, whose evictions also tell how late they were."""
    said = lens_frame.text_of(replay, 'check', text)
    right = said if said.startswith('refused ') else summary_wanted(trace, replay)
    if isinstance(right, str):
        return right
    document = json.loads(text)
    if dict(dict(right[0])['header'])['beatMillis'] != document['settings'].get('beatMillis', 100):
        return 'refused 44 /1\n'
    evictions = [list(zip(LATE, eviction)) for eviction in test_lens_lateness.evictions(document, trace)]
    return [[(name, evictions if name == 'evictions' else has) for name, has in right[0]]]


def late_cases(words):
    """Documents and their traces, with the flags in both orders."""
    for number, (text, trace) in enumerate(test_lens_lateness.cases(words)):
        flags = ['--document', '--json'] if number % 2 else ['--json', '--document']
        yield ['summary', *flags], text + '\n' + trace, late_wanted(text, trace, words.replay)


def told(program, words, text):
    """The exit status and what the program tells: a refusal as it is, and of objects their members."""
    status, said = lens_frame.answer(program, words, text)
    if said.startswith('refused ') or not said.endswith('\n'):
        return status, said
    return status, lens_frame.objects(said[:-1].split('\n'))


def status(command, right):
    """The exit status wanted: 1 for a refusal, where `leaders` finds two at once, and where a lease is too short."""
    if isinstance(right, str):
        return 1
    return int((command == 'leaders' and dict(right[0])['overlap'] is not None) or (command == 'margin' and not dict(right[0])['safe']))


def all_cases(words):
    """The words, the text and the members wanted of each command but `explain`."""
    replay, dice = words.replay, random.Random(words.seed)
    for command, wanted, texts in (('lines', lines_wanted, test_lens_summary.traces(words)),
                                   ('leaders', leaders_wanted, test_lens_trace.traces(words.seed, words.count)),
                                   ('summary', summary_wanted, test_lens_summary.traces(words))):
        yield from (([command, '--json'], text, wanted(text, replay)) for text in texts)
    yield from late_cases(words)
    yield from ((['margin', '--json'], json.dumps(doc), margin_wanted(doc, replay)) for doc in test_lens.documents(words.seed, words.count))
    yield from ((['margin', *flags.words()], '', flags.wanted()) for flags in (Flags(dice) for _ in range(words.count)))


def main():
    words = lens_frame.options(__doc__, 200)
    words.add_argument('--traces')
    words = lens_frame.given(words)
    cases = list(all_cases(words))
    refused = sum(isinstance(right, str) for _, _, right in cases)
    print(f'{len(cases)} texts, {refused} refused, {sum(len(right) for _, _, right in cases if isinstance(right, list))} objects', flush=True)
    wrong = [f'{said}: {text}' for said, text, right in cases if told(words.program, said, text) != (status(said[0], right), right)]
    documents = test_lens_explain.texts(words.seed, words.count, [])
    print(f'{len(documents)} documents to explain', flush=True)
    faults = [(explain_fault(words.program, words.replay, text), text) for text in documents]
    wrong += [f'explain: {fault}: {text}' for fault, text in faults if fault]
    lens_frame.report(wrong, tried=refused < len(cases))


if __name__ == '__main__':
    main()
