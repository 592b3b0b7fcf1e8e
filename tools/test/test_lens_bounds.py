#!/usr/bin/env python3
"""Compares the lines and the JSON of `kube_lens bounds` with a reference in Python, on documents and flags made from seeds.

    tools/test/test_lens_bounds.py [--count 2000] [--seed 1] [--program PROGRAM] [--replay crates/kube_replay/out/kube_replay]

The documents are those of examples/, some with numbers that were worked out by hand, and as many from a seed as wanted; then come as many lists of
flags. The reference shares nothing with the program: it has the bounds of calm spans from their statements, in fractions. Some documents are broken
on purpose; of these the built kube_replay's `check` is the judge. A line or member that the program doesn't have, of any document or flags, is named
and not compared: it comes with its proof. The exit status is 1 where anything differs. Nothing here is a proof.
"""
import json
import math
import random
from dataclasses import dataclass, field, replace
from fractions import Fraction
from typing import Optional

import lens_frame
import test_lens

UNREACHABLE = 'node.kubernetes.io/unreachable'
DEFAULTS = {'leaseDurationSeconds': 15, 'renewDeadlineMillis': 10000, 'retryPeriodMillis': 2000, 'callTimeoutMillis': 2000}


# The bounds, in beats. A time is in seconds; `slow` and `fast` are the seconds that the slowest and the fastest clock goes on in a beat.

@dataclass
class Calm:
    """What messages and clocks do in a calm span."""
    beat: int
    near: int
    far: int
    slow: Fraction
    fast: Fraction
    releases_by_stop: bool = True

    def enough(self, time):
        """So many beats are enough for a time on each clock."""
        return math.ceil(time / self.slow)

    def needed(self, time):
        """And so many are needed on the fastest."""
        return math.ceil(time / self.fast)


@dataclass
class Controller:
    """The timings of one, in seconds."""
    name: str
    lease: Fraction
    renew: Fraction
    retry: Fraction
    timeout: Fraction
    wait: Optional[Fraction] = None
    least_wait: Optional[Fraction] = None

    @property
    def longest_wait(self):
        return self.retry if self.wait is None else self.wait

    @property
    def shortest_wait(self):
        return self.retry if self.least_wait is None else self.least_wait


def looks(calm, least, most):
    """The least and greatest number of beats between two looks, of which the wait is this."""
    return calm.needed(least) + 2 * calm.near, calm.enough(most) + 2 * calm.far


def found_at_most(near, far, beats):
    """From a first look to the one that finds so many beats over, where looks are from `near` to `far` apart."""
    last = beats - 1
    return min((last // near + 1) * far, last + far)


def found_at_least(near, far, beats):
    return max(beats, near * math.ceil(Fraction(beats, far)))


def over_at_most(calm, one, lease):
    near, far = looks(calm, one.shortest_wait, one.longest_wait)
    return found_at_most(near, far, calm.enough(lease)) if lease else 0


def over_at_least(calm, one, lease):
    near, far = looks(calm, one.shortest_wait, one.longest_wait)
    return found_at_least(near, far, calm.needed(lease)) if lease else 0


def replies_count(calm, one):
    return 2 * calm.far * calm.fast <= one.timeout


def stays(calm, one):
    renewed = (calm.enough(one.retry) + 5 * calm.far - calm.near) * calm.fast
    return replies_count(calm, one) and 4 * calm.far * calm.fast <= one.renew and renewed < one.lease


def crash(calm, leader, other, is_fast):
    gone = calm.enough(leader.retry) + (1 if is_fast else 3) * calm.far
    return (over_at_least(calm, other, leader.lease) + 3 * calm.near - gone,
            over_at_most(calm, other, leader.lease) + calm.enough(other.longest_wait) + 6 * calm.far - 2 + is_fast)


def stop(calm, other):
    return 4 * calm.near, calm.enough(other.longest_wait) + 6 * calm.far - 1


def acts_on(calm, leader):
    return 2 * calm.far - 1 + calm.enough(leader.retry + leader.renew)


def leads_by(calm, lease, other, busy=0):
    """The first acts by then, where a record has this lease, and `busy` beats pass before it is free of what was before."""
    free = max(math.floor(other.timeout / calm.slow), 4 * calm.far - 1, busy)
    return free + calm.enough(other.longest_wait) + over_at_most(calm, other, lease) + 4 * calm.far


def stays_by(calm, everyone, other):
    old = max(acts_on(calm, one) for one in everyone)
    return leads_by(calm, max(one.lease for one in everyone), other, old + 4 * calm.far - 1)


@dataclass
class Nodes:
    """What the end of a node depends on besides: `post` is what the slowest and the fastest clock of a kubelet goes on in a beat."""
    post: tuple
    timeout: Fraction
    monitor: Fraction = Fraction(5)
    grace: Fraction = Fraction(40)
    lease: Fraction = Fraction(40)
    rate: int = 100
    ahead: int = 0
    are_posted: bool = True
    has_work: bool = False
    has_own_judgement: bool = True
    has_own_evictions: bool = True

    def are_marked(self, calm):
        return calm.releases_by_stop and self.are_posted and not self.has_work and 2 * calm.far * self.post[1] <= self.timeout

    def are_tainted(self, calm):
        return self.are_marked(calm) and self.has_own_judgement and self.rate > 0

    def are_gone(self, calm):
        return self.are_tainted(calm) and self.has_own_evictions

    def marked(self, calm):
        near, far = calm.needed(self.monitor), calm.enough(self.monitor)
        silent = max(math.ceil(self.lease / 4 / self.post[0]), 6 * calm.far)
        heard = 5 * calm.near - 4 * calm.far - silent, calm.far - 1 - 1 + far
        quick, slow = math.floor(self.grace / calm.fast) + 1, math.floor(self.grace / calm.slow)
        return (heard[0] + max(quick, math.ceil(Fraction(quick, far)) * near), heard[1] + min((slow // near + 1) * far, slow + far))

    def tainted(self, calm):
        """At least, at most, and at most where the token is there at the mark."""
        least, most = self.marked(calm)
        interval = Fraction(-(-10 ** 15 // self.rate), 10 ** 12)
        near, far = calm.needed(interval), calm.enough(interval)
        return least + self.ahead * near, most + (self.ahead + 1) * far, most + self.ahead * far

    def gone(self, calm, seconds):
        least, most, soon = self.tainted(calm)
        kept = math.floor((seconds - 1) / calm.fast) + 1 if seconds > 0 else 0
        return least + kept, most + calm.enough(seconds), soon + calm.enough(seconds)


# What is told: numbers in milliseconds, None for `none`

@dataclass
class Bounds:
    """Those of a leader, with the names that the JSON has for them."""
    crash: Optional[tuple]
    stop: Optional[tuple]
    acts_on: Optional[int]
    leads: Optional[int]
    stays_from: Optional[int]


def all_stay(calm, everyone, by_own=False):
    """Whether each stays that may lead; `by_own` where each respects a record for its own lease's time alone."""
    shortest = min(one.lease for one in everyone)
    return calm.releases_by_stop and all(stays(calm, replace(one, lease=shortest) if by_own else one) for one in everyone)


def bounds_of(calm, everyone, place, is_fast=False, by_own=False):
    """Of the leader at this place, whoever of the others is up; where there is no other it may lead again itself."""
    seen = lambda one: replace(leader, lease=one.lease) if by_own else leader
    leader, others = everyone[place], [one for at, one in enumerate(everyone) if at != place]
    millis = lambda beats: beats * calm.beat
    are_answered = calm.releases_by_stop and all(replies_count(calm, one) for one in everyone)
    is_calm = all_stay(calm, everyone, by_own)
    after, again = (others if is_calm else []), others or [leader]
    crashes, stops = [crash(calm, seen(one), one, is_fast) for one in after], [stop(calm, one) for one in after]
    widest = lambda pairs: (millis(min(least for least, _ in pairs)), millis(max(most for _, most in pairs))) if pairs else None
    return Bounds(widest(crashes), widest(stops), millis(acts_on(calm, leader)) if are_answered else None,
                  millis(max(leads_by(calm, seen(one).lease, one) for one in again)) if are_answered else None,
                  millis(max(stays_by(calm, everyone, one) for one in again)) if is_calm else None)


@dataclass
class Told:
    """All that is told of a document or of flags."""
    first: str
    leaders: list
    nodes: Nodes
    calm: Calm
    tolerations: list
    stays: bool
    safe: bool
    head: list = field(default_factory=list)

    def at(self, beats):
        return None if beats is None else tuple(beat * self.calm.beat for beat in beats)

    def unknown(self):
        return self.at(self.nodes.marked(self.calm)) if self.nodes.are_marked(self.calm) else None

    def tainted(self):
        return self.at(self.nodes.tainted(self.calm)) if self.nodes.are_tainted(self.calm) else None

    def gone(self, seconds):
        return self.at(self.nodes.gone(self.calm, seconds)) if self.nodes.are_gone(self.calm) else None

    # Lines

    def text(self):
        lines = [self.first]
        for name, found in self.leaders:
            lines += self.of_leader(name + ' ' if name else '', found)
        lines += ['node unknown' + spread(self.unknown()), f'node tainted ahead={self.nodes.ahead}' + spread(self.tainted())]
        lines += [f'pods gone toleration={seconds}s' + spread(self.gone(seconds)) for seconds in self.tolerations]
        return '\n'.join(lines + ['stays' if self.stays else 'may-end']) + '\n'

    def of_leader(self, name, found):
        who = 'nobody-leads' if self.safe else 'leads'
        return [f'{name}crash {who}' + spread(found.crash), f'{name}stop {who}' + spread(found.stop),
                f'{name}cut-off' + most(found.acts_on, 'acts-on-at-most'),
                f'{name}calm leads' + most(found.leads) + ' stays-from' + most(found.stays_from)]

    # JSON

    def object_of_flags(self):
        [(_, found)] = self.leaders
        [seconds] = self.tolerations
        return [*self.head, ('crash', members(found.crash)), ('stop', members(found.stop)), ('actsOnMillis', found.acts_on),
                ('calmMillis', found.leads), ('staysFromMillis', found.stays_from), *self.of_nodes(), ('tolerationSeconds', seconds),
                ('gone', members(self.gone(seconds))), ('stays', self.stays), ('safe', self.safe)]

    def object_of_document(self):
        return [*self.head, ('controllers', [controller_members(name, found) for name, found in self.leaders]), *self.of_nodes(),
                ('gone', [[('tolerationSeconds', seconds)] + (members(self.gone(seconds)) or members((None, None, None)))
                          for seconds in self.tolerations]), ('stays', self.stays), ('safe', self.safe)]

    def of_nodes(self):
        return [('unknown', members(self.unknown())), ('ahead', self.nodes.ahead), ('taint', members(self.tainted()))]


WORDS = ('at-least', 'at-most', 'at-most-with-token')
MEMBERS = ('leastMillis', 'mostMillis', 'mostWithTokenMillis')


def spread(numbers):
    return ' none' if numbers is None else ''.join(f' {word}={number}ms' for word, number in zip(WORDS, numbers))


def most(number, word='at-most'):
    return ' none' if number is None else f' {word}={number}ms'


def members(numbers):
    return None if numbers is None else list(zip(MEMBERS, numbers))


def controller_members(name, found):
    pair = lambda numbers: numbers or (None, None)
    return [('name', name), *zip(('crashLeastMillis', 'crashMostMillis'), pair(found.crash)),
            *zip(('stopLeastMillis', 'stopMostMillis'), pair(found.stop)), ('actsOnMillis', found.acts_on), ('calmMillis', found.leads),
            ('staysFromMillis', found.stays_from)]


# Documents

# the keys of version 4 that the bounds go by, as Kubernetes has them
OF_1_20 = {'respect': 'own', 'probe': 'record', 'judge': 'pass', 'firstSight': 'strip', 'bucket': 'full', 'evictFrom': 'seen', 'evictBurst': 30, 'readyMillis': 100}
PRESETS = {'own': {}, '1.20': OF_1_20, '1.36': {**OF_1_20, 'respect': 'record', 'release': 'reread', 'evictBurst': 15, 'fastRenew': True}}


def seconds_of(doc, controller):
    value = {key: Fraction(controller.get(key, doc['settings'].get(key, default))) for key, default in DEFAULTS.items()}
    usual = [1000 if doc['settings'].get('rules', 'own') == 'own' else 1600]
    waits = [wait for one in doc['controllers'] for wait in one.get('waits', usual)]
    retry = value['retryPeriodMillis'] / 1000
    return Controller(controller['name'], value['leaseDurationSeconds'], value['renewDeadlineMillis'] / 1000, retry, value['callTimeoutMillis'] / 1000,
                      retry * max(waits) / 1000, retry * min(waits) / 1000)


def of_processes(doc, processes, names):
    """The greatest delay, and the least and greatest rate, that a document sets for these processes."""
    events = [event for event in doc.get('events', []) if event.get('process') in names]
    delays = [1] + [event[key] for event in events if event['type'] == 'delay' for key in ('requestBeats', 'replyBeats')]
    rates = [process.get('ratePpm', 1000000) for process in processes] + [event['ratePpm'] for event in events if event['type'] == 'rate']
    return max(delays), rates


def tolerated(pod):
    """For how many seconds a pod tolerates the taint of a node that isn't heard of; None for ever."""
    for one in pod.get('spec', {}).get('tolerations') or []:
        key, operator, effect = one.get('key') or '', one.get('operator') or 'Equal', one.get('effect') or 'NoExecute'
        is_like = key in ('', UNREACHABLE) if operator == 'Exists' else key == UNREACHABLE and not one.get('value')
        if is_like and effect == 'NoExecute':
            seconds = one.get('tolerationSeconds')
            return None if seconds is None else max(0, seconds)
    return 0


def tolerations(doc):
    put = [event['object'] for event in doc.get('events', []) if event['type'] == 'put']
    pods = [one for one in (doc.get('objects') or {}).get('items', []) + put if one['kind'] == 'Pod' and one['apiVersion'] == 'v1']
    return [seconds for seconds in dict.fromkeys(map(tolerated, pods)) if seconds is not None]


def told_of_document(doc):
    settings, controllers, kubelets = {**PRESETS[doc['settings'].get('rules', 'own')], **doc['settings']}, doc['controllers'], doc.get('kubelets', [])
    beat = settings.get('beatMillis', 100)
    passes = lambda ppm: Fraction(beat * ppm, 1000 * 1000000)
    far, rates = of_processes(doc, controllers, [one['name'] for one in controllers])
    posted, posts = of_processes(doc, kubelets, ['kubelet/' + one['node'] for one in kubelets])
    calm = Calm(beat, 1, far, passes(min(rates)), passes(max(rates)), settings.get('release', 'stop') == 'stop')
    everyone, by_own = [seconds_of(doc, one) for one in controllers], settings.get('respect') == 'own'
    of = lambda key, default: Fraction(settings.get(key, default))
    nodes = Nodes((passes(min(posts)), passes(max(posts))) if posts else (1, 1), of('callTimeoutMillis', 2000) / 1000,
                  of('monitorPeriodMillis', 5000) / 1000, of('gracePeriodMillis', 40000) / 1000, of('nodeLeaseDurationSeconds', 40),
                  settings.get('primaryRate', 100), are_posted=bool(kubelets) and settings.get('probe', 'run') == 'run',
                  has_work=settings.get('readyMillis', 0) > 0,
                  has_own_judgement=all(settings.get(key, own) == own for key, own in (('judge', 'tick'), ('firstSight', 'keep'), ('bucket', 'empty'))),
                  has_own_evictions=settings.get('evictFrom', 'added') == 'added' and settings.get('evictBurst', 0) == 0)
    margin = test_lens.Reference(doc)
    waited = lambda one: min(each.lease for each in everyone) if by_own else one.lease
    safe = margin.late() is None and all(waited(one) * 1000 > margin.bound(place, 0) for place, one in enumerate(everyone))
    return Told(f'delay={beat}ms..{far * beat}ms',
                [(one.name, bounds_of(calm, everyone, place, bool(settings.get('fastRenew', False)), by_own)) for place, one in enumerate(everyone)], nodes,
                replace(calm, far=max(far, posted)), tolerations(doc), all_stay(calm, everyone, by_own), safe,
                [('beatMillis', beat), ('leastDelayMillis', beat), ('delayMillis', far * beat)])


def pod(dice, number):
    spec = {'nodeName': 'n1'}
    if dice.random() < 0.8:
        spec['tolerations'] = [toleration(dice) for _ in range(dice.randint(1, 3))]
    return {'apiVersion': 'v1', 'kind': 'Pod', 'metadata': {'name': f'p{number}'}, 'spec': spec}


def toleration(dice):
    one = dice.choice(({'key': UNREACHABLE, 'operator': 'Exists'}, {'key': UNREACHABLE}, {'operator': 'Exists'}, {'key': 'other'},
                       {'key': UNREACHABLE, 'operator': 'Equal', 'value': 'x'}))
    if dice.random() < 0.7:
        return {**one, 'effect': 'NoExecute', **({'tolerationSeconds': dice.choice((0, 1, 30, 300, -5, 86400))} if dice.random() < 0.8 else {})}
    return {**one, **({'effect': 'NoSchedule'} if dice.random() < 0.5 else {})}


def mild(dice, doc):
    """The same with a kubelet, and with usual timings and clocks."""
    for one in [doc['settings'], *doc['controllers']]:
        for key in DEFAULTS:
            one.pop(key, None)
    doc['kubelets'] = doc['kubelets'] or [{'node': 'n1'}]
    for one in doc['controllers'] + doc['kubelets'] + doc['events']:
        if 'ratePpm' in one:
            one['ratePpm'] = dice.choice((1000000, 990000, 1010000, dice.randint(980000, 1020000)))
    if dice.random() < 0.3:
        dice.choice(doc['controllers'])['leaseDurationSeconds'] = dice.choice((20, 60))
    return doc


def with_nodes(dice, doc):
    """The same with delays, and with what the end of a node depends on; half of them are mild."""
    if dice.random() < 0.5:
        doc = mild(dice, doc)
    settings, names = doc['settings'], [one['name'] for one in doc['controllers']] + ['kubelet/' + one['node'] for one in doc['kubelets']]
    timeout = settings.get('callTimeoutMillis', 2000)
    longest = max(1, min(6000, dice.choice((timeout // (2 * settings['beatMillis']), timeout // settings['beatMillis'], 3))))
    delays = [{'beat': 0, 'type': 'delay', 'process': dice.choice(names), 'requestBeats': dice.randint(1, longest), 'replyBeats': dice.randint(1, 2)}
              for _ in range(dice.choice((0, 0, 1, 3)))]
    pods = [pod(dice, number) for number in range(dice.choice((0, 1, 4)))]
    late = [{'beat': settings['endBeat'], 'type': 'put', 'object': pod(dice, 9)} for _ in range(dice.choice((0, 0, 1)))]
    doc['events'] = sorted(delays + doc['events'], key=lambda event: event['beat']) + late
    if pods:
        doc['objects'] = {'apiVersion': 'v1', 'kind': 'List', 'items': pods}
    for key, values in (('monitorPeriodMillis', (1, 1000, 7000)), ('gracePeriodMillis', (1, 50000, 604800000)), ('primaryRate', (0, 10, 3, 1000000)),
                        ('nodeLeaseDurationSeconds', (1, 40, 86400)), ('fastRenew', (True, False))):
        if dice.random() < 0.3:
            settings[key] = dice.choice(values)
    if 'primaryRate' in settings:
        settings['secondaryRate'] = 0
    for key, values in (('evictFrom', ('added', 'seen')), ('evictBurst', (0, 1, 30)), ('evictRate', (0, 20000)), ('readyMillis', (0, 1, 100)), ('readyBurst', (0, 15)),
                        ('probe', ('run', 'record')), ('judge', ('tick', 'pass')), ('firstSight', ('keep', 'strip')), ('bucket', ('empty', 'full'))):
        if doc['version'] == 4 and dice.random() < 0.2:
            settings[key] = dice.choice(values)
    for one in doc['controllers']:
        if doc['version'] == 4 and dice.random() < 0.6:
            one['waits'] = [dice.choice((1000, 2200, dice.randint(1000, 2200))) for _ in range(dice.randint(1, 4))]
    return doc


def documents(seed, count):
    found = [json.loads(text) for text in lens_frame.example_documents()]
    return found + list(lens_frame.from_seed(seed, count, lambda dice: with_nodes(dice, test_lens.document(dice)), test_lens.broken))


# Flags

class Flags:
    """Settings as flags, some of them left out."""

    def __init__(self, dice):
        self.dice = dice
        self.timings = test_lens.timings(dice) if dice.random() < 0.7 else {**DEFAULTS}
        if dice.random() < 0.4 or self.timings['callTimeoutMillis'] > 600000:
            self.timings['callTimeoutMillis'] = dice.choice((1000, 2000, 5000))
        self.is_given = dice.random() < 0.8 or self.timings['renewDeadlineMillis'] > 600000
        retry = self.timings['retryPeriodMillis']
        draw = lambda chance, values: dice.choice(values) if dice.random() < chance else None
        self.skew = draw(0.5, (0, 1, 1000, 20000, 500000, dice.randint(0, 500000)))
        self.beat = draw(0.6, (1, 7, 100, 1000, dice.randint(1, 1000)))
        self.wait = draw(0.5, (retry, min(86400000, retry * 22 // 10), min(86400000, retry + 1)))
        self.delay = draw(0.6, (1, 100, 600000, dice.randint(1, 3000)))
        self.least = draw(0.4, (1, self.delay or 100, dice.randint(1, self.delay or 100)))
        self.grace, self.monitor = draw(0.4, (1, 50000, 86400000)), draw(0.4, (1, 1000, 86400000))
        self.node_lease, self.rate = draw(0.4, (1, 40, 86400)), draw(0.4, (0, 10, 3, 1000000))
        self.ahead, self.toleration = draw(0.4, (0, 3, 1000000)), draw(0.4, (0, 1, 30, 86400))

    def given(self):
        """The flags by their names."""
        times = self.timings
        found = {self.dice.choice(('lease', 'leader-elect-lease-duration')): f'{times["leaseDurationSeconds"]}s',
                 self.dice.choice(('renew', 'leader-elect-renew-deadline')): f'{times["renewDeadlineMillis"]}ms',
                 self.dice.choice(('retry', 'leader-elect-retry-period')): f'{times["retryPeriodMillis"]}ms'}
        if self.is_given:
            found['timeout'] = f'{times["callTimeoutMillis"]}ms'
        units = (('skew', self.skew, 'ppm'), ('beat', self.beat, 'ms'), ('wait', self.wait, 'ms'), ('delay', self.delay, 'ms'),
                 ('least-delay', self.least, 'ms'), ('grace', self.grace, 'ms'), ('monitor', self.monitor, 'ms'),
                 ('node-lease', self.node_lease, 's'), ('rate', self.rate, ''), ('ahead', self.ahead, ''), ('toleration', self.toleration, 's'))
        return {**found, **{name: f'{value}{unit}' for name, value, unit in units if value is not None}}

    def words(self):
        """In any order, each in one word or two."""
        flags = list(self.given().items())
        self.dice.shuffle(flags)
        return [word for name, value in flags for word in ([f'--{name}={value}'] if self.dice.random() < 0.5 else [f'--{name}', value])]

    def told(self):
        times, beat, skew = self.timings, self.beat or 10, self.skew or 0
        renew, retry = times['renewDeadlineMillis'], times['retryPeriodMillis']
        timeout = times['callTimeoutMillis'] if self.is_given else renew
        wait = retry if self.wait is None else self.wait
        near, far = max(1, (self.least or beat) // beat), -(-(self.delay or 100) // beat)
        slow, fast = (Fraction(beat * (1000000 + off), 10 ** 9) for off in (-skew, skew))
        of = lambda value, default: Fraction(default if value is None else value)
        one = Controller('', Fraction(times['leaseDurationSeconds']), Fraction(renew, 1000), Fraction(retry, 1000), Fraction(timeout, 1000),
                         Fraction(wait, 1000))
        calm = Calm(beat, near, far, slow, fast)
        nodes = Nodes((slow, fast), Fraction(timeout, 1000), of(self.monitor, 5000) / 1000, of(self.grace, 40000) / 1000, of(self.node_lease, 40),
                      100 if self.rate is None else self.rate, self.ahead or 0)
        by = '' if self.is_given else '(renew-deadline)'
        first = f'timeout={timeout}ms{by} wait={retry}ms..{wait}ms delay={near * beat}ms..{far * beat}ms skew={skew}ppm'
        head = [('beatMillis', beat), ('leastDelayMillis', near * beat), ('delayMillis', far * beat), ('skewPpm', skew),
                ('leaseMillis', times['leaseDurationSeconds'] * 1000), ('timeoutMillis', timeout), ('timeoutIsRenewDeadline', not self.is_given),
                ('retryMillis', retry), ('waitMillis', wait)]
        safe = one.lease * slow > (one.timeout + one.retry + one.renew) * fast
        return Told(first, [('', bounds_of(calm, [one, one], 0))], nodes, calm, [300 if self.toleration is None else self.toleration],
                    stays(calm, one), safe, head)

    @property
    def is_told(self):
        return (self.least or 1) <= (self.delay or 100)


# The comparison, in which what the program never tells is left out

def parts(text):
    """Lines, of which one with two bounds is two."""
    return text.replace(' stays-from', '\nstays-from').splitlines()


def kind(line):
    """What a line is on: its words without a controller's name and numbers."""
    words = [word for word in line.split() if '=' not in word]
    at = next((at for at, word in enumerate(words) if word in ('crash', 'stop', 'cut-off', 'calm', 'node', 'pods', 'stays-from')), 0)
    return ' '.join(words[at:at + 2] if words and words[at] in ('node', 'pods', 'calm') else words[at:at + 1]) or 'settings'


class Comparison:
    """What the program says beside what is wanted, and what of this it tells never."""

    def __init__(self, program):
        self.program, self.wrong, self.there, self.lacking, self.tried = program, [], set(), set(), 0

    def lines_agree(self, said, wanted):
        """Whether lines are those wanted, but for some that aren't there."""
        left = parts(said)[::-1]
        for line in parts(wanted):
            is_here = bool(left) and left[-1] == line
            (self.there if is_here else self.lacking).add(kind(line))
            if is_here:
                left.pop()
        return not left

    def values_agree(self, said, wanted, of='JSON'):
        """The same of a value that was read from JSON; an object is a list of pairs."""
        if not isinstance(said, list) or not isinstance(wanted, list):
            return said == wanted
        if all(isinstance(one, tuple) for one in wanted) and wanted:
            return self.members_agree(said, wanted, of)
        return len(said) == len(wanted) and all(self.values_agree(*both, of) for both in zip(said, wanted))

    def members_agree(self, said, wanted, of):
        left = said[::-1]
        for name, value in wanted:
            is_here = bool(left) and left[-1][0] == name
            (self.there if is_here else self.lacking).add(f'{of} {name}')
            if is_here and not self.values_agree(left.pop()[1], value, f'{of} {name}'):
                return False
        return not left

    def compare(self, words, text, told):
        """The lines and the JSON of a document, or of flags where the text is None."""
        status = 0 if told.stays else 1
        found, said = lens_frame.answer(self.program, ['bounds', *words], text or '')
        self.take(found == status and self.lines_agree(said, told.text()), words, text, said, told.text())
        found, said = lens_frame.answer(self.program, ['bounds', *words, '--json'], text or '')
        wanted = told.object_of_flags() if text is None else told.object_of_document()
        is_json = found == status and said.startswith('{') and said.count('\n') == 1
        self.take(is_json and self.values_agree(lens_frame.objects([said])[0], wanted), words, text, said, wanted)

    def refusal(self, text, wanted):
        for words in ([], ['--json']):
            found = lens_frame.answer(self.program, ['bounds', *words], text)
            self.take(found == (1, wanted), words, text, found, wanted)

    def usage(self, words, about):
        """Words that aren't taken: two lines, the second of which names what it is about."""
        found, said = lens_frame.answer(self.program, ['bounds', *words], '')
        lines = said.splitlines()
        self.take(found == 2 and len(lines) == 2 and lines[0].startswith('usage: kube_lens bounds ') and about in lines[1], words, None, said, about)

    def take(self, agrees, *said):
        self.tried += 1
        if not agrees:
            self.wrong.append('\n'.join(map(str, said)))

    def report(self):
        """What is there in some answers has to be there in all."""
        self.wrong += [f'{name} is there in some answers alone' for name in sorted(self.there & self.lacking)]
        never = sorted(self.lacking - self.there)
        print(f'{self.tried} answers; ' + ('not told yet: ' + ', '.join(never) if never else 'all lines and members are told'))
        lens_frame.report(self.wrong)


# Worked out by hand

ROWS = [(['--timeout', '2s', '--wait', '4400ms', '--delay', '100ms'], lens_frame.USUAL_BOUNDS), (['--timeout', '2s', '--beat', '100ms', '--delay', '100ms'], """\
timeout=2000ms wait=2000ms..2000ms delay=100ms..100ms skew=0ppm
crash nobody-leads at-least=13400ms at-most=17800ms
stop nobody-leads at-least=400ms at-most=2500ms
cut-off acts-on-at-most=12100ms
calm leads at-most=19800ms stays-from at-most=30200ms
node unknown at-least=35100ms at-most=49900ms
node tainted ahead=0 at-least=35100ms at-most=59900ms at-most-with-token=49900ms
pods gone toleration=300s at-least=334200ms at-most=359900ms at-most-with-token=349900ms
stays
""")]
CRASHES = [(['--timeout=2s', '--beat=1ms', '--delay=1ms', '--wait=4400ms'], 'crash nobody-leads at-least=13000ms at-most=23805ms'),
           (['--timeout=2s', '--beat=2ms', '--delay=2ms'], 'crash nobody-leads at-least=14032ms at-most=18040ms'),
           (['--timeout=2s', '--lease=120s', '--retry=20s', '--renew=60s', '--beat=1s', '--delay=1s'],
            'crash nobody-leads at-least=112000ms at-most=156000ms')]
MISUSED = [(['--wait', '1s'], 'longest wait'), (['--least-delay', '200ms'], 'least delay'), (['--lease'], '--lease'), (['--later', '1s'], '--later'),
           (['--ahead', '-1'], '--ahead'), (['--renew', '20s'], 'lease')]


def by_hand(comparison):
    """What stands on the pages, and words that aren't taken; the reference itself keeps what was worked out."""
    for words, wanted in ROWS:
        found, said = lens_frame.answer(comparison.program, ['bounds', *words], '')
        comparison.take(found == 0 and comparison.lines_agree(said, wanted), words, None, said, wanted)
    for words, wanted in CRASHES:
        found, said = lens_frame.answer(comparison.program, ['bounds', *words], '')
        here = [line for line in said.splitlines() if line.startswith('crash')] or [wanted]
        comparison.take(found == 0 and here == [wanted], words, None, said, wanted)
    for words, about in MISUSED:
        comparison.usage(words, about)


def main():
    words = lens_frame.given(lens_frame.options(__doc__, 2000))
    comparison, ends = Comparison(words.program), []
    by_hand(comparison)
    for doc in documents(words.seed, words.count):
        text = json.dumps(doc)
        said = lens_frame.text_of(words.replay, 'check', text)
        if said.startswith('refused '):
            comparison.refusal(text, said)
            ends.append('refused')
            continue
        told = told_of_document(doc)
        if told.safe != said.endswith(' premise=yes\n'):
            comparison.take(False, 'check and the reference differ on the premise', text)
        comparison.compare([], text, told)
        ends.append('stays' if told.stays else 'may-end')
    dice = random.Random(words.seed)
    for _ in range(words.count):
        flags = Flags(dice)
        if flags.is_told:
            comparison.compare(flags.words(), None, flags.told())
            ends.append('stays' if flags.told().stays else 'may-end')
        else:
            comparison.usage(flags.words(), 'least delay')
            ends.append('refused')
    print(f"{len(ends)} documents and lists of flags: {ends.count('stays')} stays, {ends.count('may-end')} may-end, {ends.count('refused')} refused")
    comparison.report()


if __name__ == '__main__':
    main()
