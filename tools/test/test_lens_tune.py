#!/usr/bin/env python3
"""Compares `kube_lens tune` with a reference in Python that tries all plans in whole steps, on sets of flags from a seed, and with answers worked out by
hand.

    tools/test/test_lens_tune.py [--count 300] [--seed 1] [--program PROGRAM]

PROGRAM is by default the built kube_lens. The exit status is 1 where anything differs. Nothing here is a proof.
"""
import json
import math
import os
import random
import re
import sys
from fractions import Fraction

import lens_frame
import tune_reference as reference

# Leases of more seconds aren't tried for the least failover. With such a one nobody leads for as long, so what is found is the least up to there.
LONGEST = 9

USAGE = ('usage: kube_lens tune --failover 10s [--timeout 10s|half] [--skew 0ppm] [--wait-factor 2.2] [--stall 0s] [--delay 100ms] [--least-retry 100ms] '
         '[--beat 10ms] [--json]\n')

# Worked out by hand. Two ways of 100 ms are 200 ms, and 202 ms by a clock that is 1 % fast; a call timeout is at most 10 minutes.
BY_HAND = (
    ('--failover 10s --timeout 199ms', 1, 'timeout=199ms two-ways=200ms\nleast-failover=none\nnone\n'),
    ('--timeout=201ms --failover=24h --skew=1%', 1, 'timeout=201ms two-ways=202ms\nleast-failover=none\nnone\n'),
    ('--timeout=199ms --failover=1s --json', 1, '{"failoverMillis":1000,"twoWaysMillis":200,"leastFailoverMillis":null,"fits":false}\n'),
    ('--failover 24h --delay 10m', 1, 'least-lease=none\nleast-failover=none\nnone\n'),
    ('--failover 24h --timeout half --delay 5001ms --beat 1s --stall 24h', 1, 'least-lease=none\nleast-failover=none\nnone\n'),
)

# A word that isn't taken is told whole, as `margin` tells it.
WRONG = (
    ('', '--failover has to be given, as --failover 10s'),
    ('--timeout 3s', '--failover has to be given, as --failover 10s'),
    ('--failover', '--failover stands without a value'),
    ('--failover 10', '--failover takes a duration from 1ms to 24h, as 10s, not 10'),
    ('--failover 0s', '--failover takes a duration from 1ms to 24h, as 10s, not 0s'),
    ('--failover 10s --timeout quarter', '--timeout takes a duration from 1ms to 10m, as 3s, or half, not quarter'),
    ('--failover half', '--failover takes a duration from 1ms to 24h, as 10s, not half'),
    ('--failover 10s --skew 51%', '--skew takes a percentage up to 50% or parts per million up to 500000ppm, as 1% or 500ppm, not 51%'),
    ('--failover 10s --skew 1.000%', '--skew takes a percentage up to 50% or parts per million up to 500000ppm, as 1% or 500ppm, not 1.000%'),
    ('--failover 10s --wait-factor 0.99', '--wait-factor takes a number from 1 to 10 with at most two decimals, as 2.2, not 0.99'),
    ('--failover 10s --wait-factor 10.01', '--wait-factor takes a number from 1 to 10 with at most two decimals, as 2.2, not 10.01'),
    ('--failover 10s --wait-factor 2.', '--wait-factor takes a number from 1 to 10 with at most two decimals, as 2.2, not 2.'),
    ('--failover 10s --stall=', '--stall takes a duration from 0s to 24h, as 2s, not --stall='),
    ('--failover 10s --delay 601s', '--delay takes a duration from 1ms to 10m, as 100ms, not 601s'),
    ('--failover 10s --least-retry 50ms', '--least-retry takes tenths of a second from 100ms to 24h, as 500ms or 2s, not 50ms'),
    ('--failover 10s --beat 2s', '--beat takes a duration from 1ms to 1s, as 10ms, not 2s'),
    ('--failover 10s --lease 8s', 'no such flag: --lease'),
    ('10s', 'no such flag: 10s'),
)


def skew_words(dice, skew):
    return dice.choice((f'{skew}ppm', f'{skew // 10000}.{skew // 100 % 100:02}%' if skew % 100 == 0 else f'{skew}ppm'))


def words_of(dice, wish):
    """The flags of a wish, in any order, each in one word or two; what is usual may be left out."""
    timeout = wish.timeout if isinstance(wish.timeout, str) else f'{wish.timeout}ms'
    given = [('failover', f'{wish.failover}ms', False), ('timeout', timeout, wish.timeout == reference.RENEW_DEADLINE),
             ('skew', skew_words(dice, wish.skew), wish.skew == 0), ('wait-factor', f'{wish.wait // 100}.{wish.wait % 100:02}', wish.wait == 220),
             ('stall', f'{wish.stall}ms', wish.stall == 0), ('delay', f'{wish.delay}ms', wish.delay == 100),
             ('least-retry', f'{wish.retry}00ms', wish.retry == 1), ('beat', f'{wish.beat}ms', wish.beat == 10)]
    flags = [(name, value) for name, value, is_usual in given if value != reference.RENEW_DEADLINE and not (is_usual and dice.random() < 0.5)]
    dice.shuffle(flags)
    return [word for name, value in flags for word in ([f'--{name}={value}'] if dice.random() < 0.5 else [f'--{name}', value])]


def two_ways(wish):
    """In milliseconds by the fastest clock, rounded up."""
    return math.ceil(2 * math.ceil(Fraction(wish.delay, wish.beat)) * wish.beat * wish.fast)


def none_text(wish, least):
    """Why no plan fits, where the least failover is this one, or there is none."""
    ways = two_ways(wish)
    if least is not None:
        return f'crash nobody-leads at-most={least}ms failover={wish.failover}ms\nleast-failover={least}ms\nnone\n'
    is_short = not isinstance(wish.timeout, str) and wish.timeout < ways
    return (f'timeout={wish.timeout}ms two-ways={ways}ms\n' if is_short else 'least-lease=none\n') + 'least-failover=none\nnone\n'


class Wanted:
    """What the reference finds: the exit status, the lines and the object."""

    def __init__(self, wish):
        found = wish.greatest()
        self.fits = found is not None
        self.status = 0 if self.fits else 1
        if self.fits:
            self.take_plan(wish, *found)
        else:
            self.least = wish.least_failover(LONGEST)
            self.text = none_text(wish, self.least)
            self.object = {'failoverMillis': wish.failover, 'twoWaysMillis': two_ways(wish), 'leastFailoverMillis': self.least, 'fits': False}

    def take_plan(self, wish, lease, retry, renew, bound):
        one = wish.controller(lease, retry, renew)
        self.text = (f'--leader-elect-lease-duration={lease}s --leader-elect-renew-deadline={renew}00ms --leader-elect-retry-period={retry}00ms\n'
                     f'crash nobody-leads at-most={bound}ms spare={wish.failover - bound}ms\nfits\n')
        self.object = {'failoverMillis': wish.failover, 'leaseMillis': lease * 1000, 'renewMillis': renew * 100, 'retryMillis': retry * 100,
                       'timeoutMillis': one.timeout * 1000, 'waitMillis': one.wait * 1000, 'crashMostMillis': bound,
                       'spareMillis': wish.failover - bound, 'fits': True}

    @property
    def is_sure(self):
        """Whether no lease that wasn't tried could do better."""
        return self.fits or self.least is not None and self.least <= (LONGEST + 1) * 1000

    def is_beyond(self, said):
        """Whether the program tells a least failover of a longer lease than the reference tries, or none where the reference finds none either."""
        told = re.search(r'^least-failover=(?:none|([0-9]+)ms)$', said, re.MULTILINE)
        if told is None or not said.endswith('none\n'):
            return False
        if told[1] is None:
            return self.least is None
        return int(told[1]) > (LONGEST + 1) * 1000 and (self.least is None or int(told[1]) <= self.least)


def differs(program, words, wish, wanted):
    """The words where an answer isn't the one wanted."""
    found = lens_frame.answer(program, ['tune', *words], '')
    if not wanted.is_sure and found[0] == 1 and wanted.is_beyond(found[1]):
        return []
    status, said = lens_frame.answer(program, ['tune', *words, '--json'], '')
    is_so = found == (wanted.status, wanted.text) and status == wanted.status and said.endswith('}\n') and json.loads(said) == wanted.object
    return [] if is_so else [f'{" ".join(words)}\nsaid {found} {said}wanted {wanted.status} {wanted.text}']


def by_hand(program):
    """The answers that differ from those worked out by hand."""
    rows = [(line, (status, text)) for line, status, text in BY_HAND] + [(line, (2, f'{USAGE}{about}\n')) for line, about in WRONG]
    return [f'{line}\nwanted {wanted}' for line, wanted in rows if lens_frame.answer(program, ['tune', *line.split()], '') != wanted]


def main():
    found = lens_frame.options(__doc__, 300).parse_args()
    program = os.path.abspath(found.program)
    if not os.path.exists(program):
        sys.exit(f'{program} is not built')
    wrong, dice, ends = by_hand(program), random.Random(found.seed), []
    for _ in range(found.count):
        wish = reference.wish(dice)
        wanted = Wanted(wish)
        ends.append('fits' if wanted.fits else 'later' if wanted.is_sure else 'beyond')
        wrong += differs(program, words_of(dice, wish), wish, wanted)
    fit, later, beyond = (ends.count(end) for end in ('fits', 'later', 'beyond'))
    print(f'{len(ends)} sets of flags: {fit} have a plan, {later} a later one, {beyond} none that is sure by leases of up to {LONGEST} s')
    lens_frame.report(wrong, {'fits', 'later', 'beyond'} <= set(ends) or found.count < 100)


if __name__ == '__main__':
    main()
