#!/usr/bin/env python3
"""Compares the lines of `kube_lens margin` with a reference in Python, on documents made from seeds.

    tools/test/test_lens.py [--count 2000] [--seed 1] [--program PROGRAM] [--replay crates/kube_replay/out/kube_replay]

The documents are those of examples/ and as many from a seed as wanted. The reference shares nothing with the program: it goes through the beats one by one for a clock's rates, and finds each number by trying
the lease premise itself, in fractions. Some documents are broken on purpose; of these, and of whether the last line is `safe`, the built
kube_replay's `check` is the judge. PROGRAM is by default the built kube_lens; where it isn't
built it runs unproved, by `rt try --cases`, in half an hour. The exit status is 1 where anything differs. Nothing here is a proof.
"""
import json
import sys
from fractions import Fraction

import lens_frame

DAY = 86400

# by preset whose lease duration is respected, how a leader gives up its Lease, and whether it acts meanwhile
PRESETS = {'own': ('record', 'stop', 'still'), '1.20': ('own', 'stop', 'still'), '1.36': ('record', 'reread', 'acts')}

# the calls after its deadline by which a release may reach the store, or let its leader act
CALLS = {('reread', 'still'): 1, ('own', 'acts'): 1, ('checked', 'acts'): 2, ('reread', 'acts'): 2}


def timings(dice):
    """A lease, renew deadline, retry period and call timeout that go together, mostly not far from the premise's edge."""
    lease = dice.choice((1, 2, 15, 15, 20, 23, 57, 60, 3600, DAY, dice.randint(1, DAY)))
    renew = dice.randint(1, lease * 1000 - 1)
    retry = dice.randint(1, max(1, 5 * renew // 6 - 1))
    if 6 * retry >= 5 * renew:
        renew, retry = max(2, min(renew, lease * 1000 - 1)), 1
    timeout = dice.choice((1, 2000, 5000, 600000, dice.randint(1, max(1, min(600000, abs(lease * 1000 - renew - retry) + 3)))))
    return {'leaseDurationSeconds': lease, 'renewDeadlineMillis': renew, 'retryPeriodMillis': retry, 'callTimeoutMillis': timeout}


def rate(dice):
    return dice.choice((1000000, 1000000, 500000, 2000000, 999999, 1000001, dice.randint(990000, 1010000), dice.randint(500000, 2000000)))


def releases(dice):
    """A rule of releases, and whether a leader acts in one."""
    release = dice.choice(('stop', 'own', 'checked', 'reread', 'reread'))
    return release, 'still' if release == 'stop' else dice.choice(('still', 'acts'))


def rules(dice):
    """Keys of version 4."""
    found = {}
    if dice.random() < 0.2:
        found['rules'] = dice.choice(sorted(PRESETS))
    if dice.random() < 0.5:
        found['respect'] = dice.choice(('own', 'own', 'record'))
    if dice.random() < 0.7:
        found['release'], found['inRelease'] = releases(dice)
    return found


def event(dice, version, beat, names):
    kind = dice.choice(('rate', 'rate', 'rate', 'crash', 'start', 'loss', 'delay', 'delay') + ('pause', 'pause') * (version > 2))
    says = {'rate': {'ratePpm': rate(dice)}, 'loss': {'requests': dice.random() < 0.5, 'replies': dice.random() < 0.3},
            'delay': {'requestBeats': dice.randint(1, 9), 'replyBeats': dice.choice((1, 2, 3, 3, 3, 4, 6000))}, 'pause': {'beats': dice.choice((1, 2, 3, 30))}}
    return {'beat': beat, 'type': kind, 'process': dice.choice(names), **says.get(kind, {})}


def document(dice):
    """A document that is mostly read."""
    end = dice.randint(0, 60)
    settings = {'endBeat': end, 'beatMillis': dice.choice((1, 7, 100, 1000, dice.randint(1, 1000)))}
    version = dice.choice((2, 2, 3, 4, 4, 4))
    if version == 4:
        settings.update(rules(dice))
    if dice.random() < 0.6:
        settings.update(timings(dice))
    controllers = []
    for place in range(dice.choice((1, 1, 2, 2, 3, 16))):
        controller = {'name': f'c{place}'}
        if dice.random() < 0.6:
            controller['ratePpm'] = rate(dice)
        if dice.random() < 0.4:
            controller.update(timings(dice))
        controllers.append(controller)
    kubelets = [{'node': 'n1', 'ratePpm': rate(dice)}] if dice.random() < 0.3 else []
    names = [c['name'] for c in controllers] + ['kubelet/n1'] * len(kubelets)
    events = []
    for beat in sorted(dice.randint(0, end) for _ in range(dice.randint(0, 9))):
        events.append(event(dice, version, beat, names))
    return {'version': version, 'settings': settings, 'controllers': controllers, 'kubelets': kubelets, 'events': events}


def broken(dice, doc):
    """The same with one fault."""
    where = dice.choice([doc, doc['settings'], doc['controllers'][-1]] + doc['events'][-1:])
    key = dice.choice(sorted(where))
    where[key] = dice.choice((0, -1, 'x', None, 10 ** 10, [], {}, 1.5))
    if dice.random() < 0.3:
        where['leaseDuration'] = where.pop(key)
    return doc


def documents(seed, count):
    """Those of the examples, and as many more as wanted, one in ten of them broken."""
    return [json.loads(text) for text in lens_frame.example_documents()] + list(lens_frame.from_seed(seed, count, document, broken))


class Reference:
    """The numbers of a document by the lease premise, tried."""

    def __init__(self, doc):
        self.doc, self.beat = doc, doc['settings'].get('beatMillis', 100)
        self.rates = [self.rates_of(c) for c in doc['controllers']]
        self.fastest = max(max(rates) for rates in self.rates)

    def rates_of(self, controller):
        rates, now = [], controller.get('ratePpm', 1000000)
        for beat in range(self.doc['settings']['endBeat'] + 1):
            for event in self.doc.get('events', []):
                if event['beat'] == beat and event['type'] == 'rate' and event['process'] == controller['name']:
                    now = event['ratePpm']
            rates.append(now)
        return rates

    def timing(self, place, key, default):
        return self.doc['controllers'][place].get(key, self.doc['settings'].get(key, default))

    def rule(self, place, key):
        preset = PRESETS[self.doc['settings'].get('rules', 'own')]
        return self.doc['settings'].get(key, preset[place])

    def lease(self, place):
        """The seconds that others wait: the controller's lease, or the shortest of all where each goes by its own."""
        leases = [self.timing(each, 'leaseDurationSeconds', 15) for each in range(len(self.rates))]
        return min(leases) if self.rule(0, 'respect') == 'own' else leases[place]

    def calls(self):
        return CALLS.get((self.rule(1, 'release'), self.rule(2, 'inRelease')), 0)

    def pauses(self, place):
        """The beats of the pauses that the document itself has for a controller."""
        name = self.doc['controllers'][place]['name']
        return [event['beats'] for event in self.doc.get('events', []) if event['type'] == 'pause' and event['process'] == name]

    def bound(self, place, more):
        """What the lease must be longer than, in milliseconds, with one more pause of so many beats; 0 is none."""
        timeout, retry, renew = (self.timing(place, key, default) for key, default in
                                 (('callTimeoutMillis', 2000), ('retryPeriodMillis', 2000), ('renewDeadlineMillis', 10000)))
        pauses = sorted(self.pauses(place) + [more] * (more > 0))[-2:] if self.calls() else [max([more, *self.pauses(place)])]
        waits = timeout + retry + renew + min(self.calls() * timeout, renew)
        stands = sum((pause + 1) * self.beat for pause in pauses if pause)
        return Fraction(waits * self.fastest, min(self.rates[place])) + Fraction(stands * self.fastest, 1000000)

    def late(self):
        """The place of the first event that loses a reply to a controller or delays it by more than 3 beats, where leaders act in their releases."""
        names = [controller['name'] for controller in self.doc['controllers']]
        if self.rule(2, 'inRelease') != 'acts':
            return None
        return next((place for place, event in enumerate(self.doc.get('events', [])) if event.get('process') in names
                     and (event['type'] == 'loss' and event['replies'] or event['type'] == 'delay' and event['replyBeats'] > 3)), None)

    def late_line(self):
        if self.late() is None:
            return []
        found = self.doc['events'][self.late()]
        name = found['process']
        return [f"late-reply=/events/{self.late()} beat={found['beat']} controller={name}: no lease is enough, since {name} acts in its release"
                ' until it has the answer']

    def line(self, place):
        lease = self.lease(place)
        bound = self.bound(place, 0)
        must = -(-bound.numerator // bound.denominator)
        least = next((str(s) + 's' for s in self.near(bound) if s * 1000 > bound), 'none') if self.late() is None else 'none'
        stall = f'{self.beat * self.last(lambda n: lease * 1000 > self.bound(place, n))}ms' if lease * 1000 > bound else 'none'
        name = self.doc['controllers'][place]['name']
        return f'{name} lease={lease * 1000}ms must-exceed={must}ms slack={lease * 1000 - must}ms least-lease={least} longest-stall={stall}'

    @staticmethod
    def near(bound):
        """The leases of at most a day from two seconds below the bound on: all below are too short."""
        return range(max(1, int(bound) // 1000 - 2), DAY + 1)

    @staticmethod
    def last(holds):
        """The last number for which it holds: it does for 0, and fails from some number on."""
        high = 1
        while holds(high):
            high *= 2
        low = high // 2
        while high - low > 1:
            middle = (low + high) // 2
            low, high = (middle, high) if holds(middle) else (low, middle)
        return low

    def text(self):
        safe = self.late() is None and all(self.lease(p) * 1000 > self.bound(p, 0) for p in range(len(self.rates)))
        lines = [self.line(place) for place in range(len(self.rates))] + self.late_line()
        return '\n'.join(lines + ['safe' if safe else 'unsafe']) + '\n', safe


def expected(doc, replay):
    """The text wanted: for a refused document the refusal of `check`."""
    said = lens_frame.text_of(replay, 'check', json.dumps(doc))
    if said.startswith('refused '):
        return said
    text, safe = Reference(doc).text()
    if said.endswith(' premise=yes\n') != safe:
        sys.exit(f'check and the reference differ on the premise: {said}{text}{json.dumps(doc)}')
    return text


def status(wanted):
    return 0 if wanted.endswith('\nsafe\n') else 1


def main():
    words = lens_frame.given(lens_frame.options(__doc__, 2000), may_lack_lens=True)
    cases = [(json.dumps(doc), expected(doc, words.replay)) for doc in documents(words.seed, words.count)]
    ends = [text.splitlines()[-1].split()[0] for _, text in cases]
    print(f"{len(cases)} documents: {ends.count('safe')} safe, {ends.count('unsafe')} unsafe, {ends.count('refused')} refused", flush=True)
    lens_frame.compare(words, 'margin', cases, status)


if __name__ == '__main__':
    main()
