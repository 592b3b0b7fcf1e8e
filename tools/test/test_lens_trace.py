#!/usr/bin/env python3
"""Compares what `kube_lens leaders` answers with a reference in Python, on the examples' traces and on traces made from seeds.

    tools/test/test_lens_trace.py [--count 500] [--seed 1] [--program PROGRAM] [--replay crates/kube_replay/out/kube_replay]

The reference shares nothing with the program: it asks of each beat who leads in it and isn't paused. Some traces are broken on purpose; of these the built
kube_replay's `audit` is the judge. PROGRAM is by default the built kube_lens; where it isn't built it runs unproved, by `rt try --cases`. The
exit status is 1 where anything differs. Nothing here is a proof.
"""
import sys

import lens_frame

ENDINGS = ('end', 'stop', 'crash')
OTHERS = ('start', 'create election exists', 'update election v=7 t=1', 'zone a/b Normal rate=100', 'mode on',
          'unknown n1 NodeStatusUnknown v=3', 'taint n1 unreachable v=4', 'untaint n1 absent', 'evict default/web due=2024-01-01T00:01:15Z v=40')


def trace(dice):
    """A trace of some identities, with beats that don't go down."""
    end = dice.choice((0, 1, 5, 30, 200))
    people = [f'c{host}_{start}' for host in range(dice.randint(1, 4)) for start in (1, 2)]
    beats = sorted(dice.randint(0, end) for _ in range(dice.choice((0, 1, 2, 5, 12, 40))))
    pauses = [f'pause beats={beats}' for beats in dice.choice(((), (1, 3), (2, 10, 40), (1, 5, 20, 300), (7, 604_800_000)))]
    says = ('lead v=1', 'lead v=22', *ENDINGS, *(() if pauses else ENDINGS), *pauses, dice.choice(OTHERS))
    lines = [f'{beat} {dice.choice(people)} {dice.choice(says)}' for beat in beats]
    return '\n'.join([f'trace 1 beat=100 end={end} premise={dice.choice(("yes", "no"))}'] + lines) + '\n'


def traces(seed, count):
    """Those of the examples, and as many more as wanted, one in ten of them broken."""
    return lens_frame.example_traces() + list(lens_frame.from_seed(seed, count, trace, lens_frame.broken))


class Term:
    """Who leads in which beats."""

    def __init__(self, lines, at, end):
        self.number, (beat, self.who) = at + 1, lines[at].split()[:2]
        self.first = int(beat)
        self.until, self.how = end + 1, 'trace-end'
        for line in lines[at + 1:]:
            words = line.split()
            if words[1] == self.who and words[2] in ENDINGS:
                self.until, self.how = int(words[0]), words[2]
                break

    def beats(self):
        return range(self.first, self.until)


class Acting:
    """Who acts in which beats: who leads, but where a pause of its own has it stand still."""

    def __init__(self, lines, terms, end):
        self.terms, self.end = terms, end
        self.own = [(number, int(words[0]), *words[1:3], words[3:]) for number, words in enumerate((line.split() for line in lines[1:]), 2)]
        self.pauses = [(who, beat, beat + int(more[0].removeprefix('beats='))) for _, beat, who, word, more in self.own if word == 'pause']

    def has(self, who, beat):
        return any(t.who == who and beat in t.beats() for t in self.terms) and not any(
            name == who and since <= beat < over for name, since, over in self.pauses)

    def at(self, beat):
        """Those who act in a beat, who began first before the others: since when, by which line, who."""
        return sorted(self.began(who, beat) for who in {t.who for t in self.terms} if self.has(who, beat))

    def began(self, who, beat):
        """The line since which somebody acts: its last pause, or the `lead` line that made it lead; and the first beat of it."""
        ends = [number for number, at, name, word, _ in self.own if name == who and word in ENDINGS and at <= beat]
        since = [(number, at, word) for number, at, name, word, _ in self.own
                 if name == who and word in ('lead', 'pause') and at <= beat and number > max(ends, default=0)]
        leads = [number for number, _, word in since if word == 'lead']
        number, at = [(number, at) for number, at, word in since if number == leads[0] or word == 'pause' and number > leads[0]][-1]
        return next(first for first in range(at, beat + 1) if self.has(who, first)), number, who


def each_beat(acting, end):
    """Who acts in each beat. Only at the beats of lines, behind them, and where a pause is over can it be others than in the beat before."""
    changes = {0, end + 1}
    for _, beat, _, _, _ in acting.own:
        changes |= {beat, beat + 1}
    for _, _, over in acting.pauses:
        changes |= {over, over + 1}
    beats = sorted(beat for beat in changes if beat <= end + 1)
    each = []
    for first, behind in zip(beats, beats[1:]):
        each += [acting.at(first)] * (behind - first)
    return each


def expected(text):
    """The text wanted for a trace."""
    lines = text.splitlines()
    end = int(lines[0].split()[3].split('=')[1])
    terms = [Term(lines, at, end) for at in range(1, len(lines)) if lines[at].split()[2] == 'lead']
    told = [f'{t.who} from={t.first} until={t.until} ended={t.how}' for t in terms]
    acting = Acting(lines, terms, end)
    each = each_beat(acting, end)
    for beat in range(end + 1):
        if not each[beat] and (beat == 0 or each[beat - 1]):
            until = next((later for later in range(beat + 1, end + 1) if each[later]), end + 1)
            told.append(f'nobody from={beat} until={until}')
    for both in each:
        if len(both) > 1:
            (_, _, beside), (since, number, who), *_ = both
            return '\n'.join(told + [f'overlap line={number} from={since} who={who} beside={beside}']) + '\n'
    return '\n'.join(told + ['one at a time']) + '\n'


def wanted(text, replay):
    """The text wanted: for a text that is no trace the refusal of `audit`."""
    said = lens_frame.text_of(replay, 'audit', text)
    if said.startswith('refused 40 '):
        return said
    told = expected(text)
    if ' pause beats=' in text:
        # `audit` judges terms, and a pause is no end of one
        return told
    line = said.split('/')[1].strip() if said.startswith('refused 41 ') else None
    if (line is None) != told.endswith('one at a time\n') or (line and f'\noverlap line={line} ' not in '\n' + told):
        sys.exit(f'audit and the reference differ: {said}{told}{text}')
    return told


def status(wanted):
    return 0 if wanted.endswith('one at a time\n') else 1


def main():
    words = lens_frame.given(lens_frame.options(__doc__, 500), may_lack_lens=True)
    cases = [(text, wanted(text, words.replay)) for text in traces(words.seed, words.count)]
    ends = [told.splitlines()[-1].split()[0] for _, told in cases]
    print(f"{len(cases)} traces: {ends.count('one')} with one at a time, {ends.count('overlap')} with two, {ends.count('refused')} refused", flush=True)
    lens_frame.compare(words, 'leaders', cases, status)


if __name__ == '__main__':
    main()
