#!/usr/bin/env python3
"""Compares what `kube_lens summary --document` answers with a reference in Python, on the examples and on documents made from seeds.

    tools/test/test_lens_lateness.py [--count 300] [--seed 1] [--program PROGRAM] [--replay PROGRAM]

A document from a seed is one of the examples whose controllers have other clocks: other rates from the start and at beats, other offsets, another
epoch. Its trace is what the built kube_replay writes of it. Some are put beside a document that isn't theirs, or are broken. The reference shares
nothing with the program: it reads the document with Python's JSON, adds up what a clock ran in each beat in exact fractions, and takes dates from
Python. What stands before the table of lateness is what `kube_lens summary` answers, which tools/test/test_lens_summary.py compares. PROGRAM is by
default the built kube_lens. The exit status is 1 where anything differs. Nothing here is a proof.
"""
import copy
import datetime
import json
import random
import re

import lens_frame
from test_lens_summary import aligned

ZERO = datetime.datetime(1970, 1, 1, tzinfo=datetime.timezone.utc)
HEADING = ['POD', 'DUE', 'EVICTED', 'BY', 'LATE-BY-ITS-CLOCK', 'LATE-IN-TRUE-TIME']


def micros(text):
    """A time of RFC 3339 in microseconds since 1970; what is below a microsecond is dropped."""
    whole, fraction, zone = re.fullmatch(r'(\d{4}-\d\d-\d\dT\d\d:\d\d:\d\d)(?:\.(\d+))?(Z|[+-]\d\d:\d\d)', text).groups()
    at = datetime.datetime.fromisoformat(whole + ('+00:00' if zone == 'Z' else zone))
    return (at - ZERO) // datetime.timedelta(microseconds=1) + int(((fraction or '') + '000000')[:6])


class Clocks:
    """What the clocks of a document's controllers show."""

    def __init__(self, document):
        settings = document['settings']
        self.beat_micros, self.end = settings.get('beatMillis', 100) * 1000, settings['endBeat']
        self.epoch = micros(settings.get('epoch', '2024-01-01T00:00:00Z'))
        self.controllers = {controller['name']: controller for controller in document['controllers']}
        self.rates = {name: sorted(((event['beat'], place, event['ratePpm']) for place, event in enumerate(document.get('events', []))
                                    if event['type'] == 'rate' and event['process'] == name), key=lambda rate: rate[:2])
                      for name in self.controllers}

    def true(self, beat):
        return self.epoch + beat * self.beat_micros

    def own(self, name, beat):
        """The time of day of a controller at a beat: each stretch of beats at one rate is added up; a set counts from its beat on."""
        if name not in self.controllers or beat > self.end:
            return None
        controller = self.controllers[name]
        since, rate, ran = 0, controller.get('ratePpm', 1_000_000), 0
        for at, _, ppm in self.rates[name]:
            if at >= beat:
                break
            ran, since, rate = ran + (at - since) * rate, at, ppm
        ran = (ran + (beat - since) * rate) * self.beat_micros
        return self.epoch + ran // 1_000_000 + controller.get('offsetMillis', 0) * 1000


def late(after):
    if after is None:
        return '-'
    tenths = abs(after) // 100_000
    return f'{"-" if after < 0 else ""}{tenths // 10}.{tenths % 10}s'


def evictions(document, trace):
    """The evictions that the store took: pod, due, beat and who, and how late by its clock and in true time, in microseconds."""
    clocks = Clocks(document)
    for line in trace.splitlines()[1:]:
        beat, who, *says = line.split()
        if says[0] == 'evict' and says[3].startswith('v='):
            beat, due = int(beat), micros(says[2][4:])
            own = clocks.own(who.rsplit('_', 1)[0], beat)
            yield says[1], says[2][4:], beat, who, None if own is None else own - due, clocks.true(beat) - due


def table(document, trace):
    """The rows on the evictions that the store took."""
    for pod, due, beat, who, by_clock, in_true_time in evictions(document, trace):
        tenths = beat * document['settings'].get('beatMillis', 100) // 100
        at = f'{beat} ({tenths // 36000}:{tenths // 600 % 60:02}:{tenths // 10 % 60:02}.{tenths % 10})'
        yield [pod, due, at, who, late(by_clock), late(in_true_time)]


def wanted(words, text, trace):
    """The status and the text wanted of a document's text and a trace."""
    said = lens_frame.text_of(words.replay, 'check', text)
    if said.startswith('refused '):
        return 1, said
    told = lens_frame.answer(words.program, ['summary'], trace)
    if told[0] != 0:
        return told
    document = json.loads(text)
    if f'trace 1 beat={document["settings"].get("beatMillis", 100)} ' != trace[:trace.index('end=')]:
        return 1, 'refused 44 /1\n'
    rows = list(table(document, trace))
    return 0, told[1] + ('\n' + aligned([HEADING] + rows) if rows else '')


def skewed(dice, given):
    """An example's document with other clocks of controllers and another epoch."""
    document = copy.deepcopy(given)
    settings = document['settings']
    epoch = dice.choice((None, '2024-02-29T23:59:30Z', '2031-07-01T12:00:00.123456789+05:30', '2000-01-01T00:00:00Z', '2199-12-31T23:00:00-00:30'))
    if epoch:
        settings['epoch'] = epoch
    for controller in document['controllers']:
        if dice.random() < 0.7:
            controller['ratePpm'] = dice.choice((500_000, 2_000_000, 999_999, 1_000_001, dice.randint(900_000, 1_100_000), 950_000, 1_050_000))
        if dice.random() < 0.5:
            controller['offsetMillis'] = dice.choice((-31_536_000_000, 31_536_000_000, -1, 1, 999, dice.randint(-100_000, 100_000)))
    names = [controller['name'] for controller in document['controllers']]
    sets = [{'beat': dice.randint(0, settings['endBeat']), 'type': 'rate', 'process': dice.choice(names),
             'ratePpm': dice.choice((1_000_000, 1_200_000, 800_000, dice.randint(500_000, 2_000_000)))} for _ in range(dice.choice((0, 0, 1, 2, 5)))]
    document['events'] = sorted(document.get('events', []) + sets, key=lambda event: event['beat'])
    return document


def strange(dice, document, trace):
    """A document and a trace that don't belong together, or of which one is broken."""
    kind = dice.randrange(6)
    if kind == 0:
        document['settings']['beatMillis'] = dice.choice((10, 20, 250))
        document['settings']['endBeat'] = min(document['settings']['endBeat'], 604_800_000 // 250)
    elif kind == 1:
        for event in document.get('events', []):
            event.pop('process', None)
    elif kind == 2:
        trace = lens_frame.broken(dice, trace)
    elif kind == 3:
        document['settings']['endBeat'] = max((event['beat'] for event in document['events']), default=0)
    elif kind == 4:
        trace = re.sub(r'^(\d+) [a-z0-9.-]+_', r'\1 nobody_', trace, flags=re.MULTILINE)
    else:
        trace = ''
    return json.dumps(document, indent=dice.choice((None, 1))), trace


def cases(words):
    """Documents as texts and traces."""
    documents = []
    for text in lens_frame.texts('examples', '*', 'document*.json'):
        trace = lens_frame.text_of(words.replay, 'replay', text)
        yield text, trace
        if ' evict ' in trace and len(trace) < 200_000:
            documents.append(json.loads(text))
    dice = random.Random(words.seed)
    for number in range(words.count):
        document = skewed(dice, dice.choice(documents))
        trace = lens_frame.text_of(words.replay, 'replay', json.dumps(document))
        yield strange(dice, document, trace) if number % 5 == 4 else (json.dumps(document, indent=dice.choice((None, 2))), trace)


def main():
    words = lens_frame.given(lens_frame.options(__doc__, 300))
    tried, refused, rows, early, wrong = 0, 0, 0, 0, []
    for text, trace in cases(words):
        right = wanted(words, text, trace)
        told = lens_frame.answer(words.program, ['summary', '--document'], text + '\n' + trace)
        tried, refused = tried + 1, refused + right[1].startswith('refused ')
        late_rows = right[1].partition('LATE-IN-TRUE-TIME\n')[2].splitlines()
        rows, early = rows + len(late_rows), early + sum(row.split()[-1].startswith('-') for row in late_rows)
        if told != right:
            wrong.append(f'{text}\n{told[1]}')
    print(f'{tried} documents, {refused} refused, {rows} evictions, {early} of them early in true time')
    lens_frame.report(wrong, tried=rows > 0)


if __name__ == '__main__':
    main()
