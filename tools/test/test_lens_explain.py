#!/usr/bin/env python3
"""Compares `kube_lens explain` with `kube_replay check`, and the places that it tells with a reference in Python.

    tools/test/test_lens_explain.py [--count 2000] [--seed 1] [--program PROGRAM] [--replay crates/kube_replay/out/kube_replay] [FILE ..]

The documents are those of examples/, of the rows of check_tables, the FILEs, and as many from a seed as wanted: examples with faults of many
sorts. Where `check` refuses one, the first line of `explain` has to be its line; the next one has to tell a line and a column at which the
text shown stands. That is the place of the value at the refusal's path, or of the last value on the way to it that is there; for an unknown
key that of a key of that object, and of the planted one where one was planted. Of an input that isn't JSON, Python's reader has to take what stands
before the place, with an end, and not what stands up to behind the text, word or bracket there. Where `check` takes the document, `explain` has to tell its
counts, of each key that an object has twice both places, of each timing that is likely meant in the other unit its warning, and whether there are
Nodes and no kubelets. PROGRAM is by default the built kube_lens. The exit status is 1 where anything
differs. Nothing here is a proof.
"""
import glob
import json
import os
import random
import re

import lens_frame
from places import TOP

PLANTED = 'leaseDurations'
# The timings that are looked at, those that a controller may have first, with their defaults.
STANDARD = {'leaseDurationSeconds': 15, 'renewDeadlineMillis': 10000, 'retryPeriodMillis': 2000, 'callTimeoutMillis': 2000,
            'monitorPeriodMillis': 5000, 'gracePeriodMillis': 40000, 'startupGraceMillis': 60000, 'nodeLeaseDurationSeconds': 40}
TIMINGS = list(STANDARD)
UNHEARD = ('warning: there are Nodes and no kubelets, so all nodes fall silent together, which taints none: a pod is evicted only for a taint that is '
           'there already or put. Give each node a kubelet, and epoch the time of the list.\n')
TWICE = b'warning: a key is here twice, and the last one counts'
LINE = re.compile(rb'line (\d+), column (\d+): (.*)')


class Places:
    """Where each value of a JSON text begins, by its path, and each key of an object, by the object's path. Of a key that is there twice
    the last one counts."""

    def __init__(self, text):
        self.text, self.values, self.keys, self.twice = text, {}, {}, []
        self.value(self.blanks(0), '')

    def blanks(self, at):
        while self.text[at:at + 1] in (b' ', b'\t', b'\n', b'\r'):
            at += 1
        return at

    def string(self, at):
        end = at + 1
        while self.text[end] != ord('"'):
            end += 2 if self.text[end] == ord('\\') else 1
        return end + 1

    def value(self, at, path):
        self.values[path] = at
        first = self.text[at:at + 1]
        if first == b'"':
            return self.string(at)
        if first in (b'{', b'['):
            return self.members(self.blanks(at + 1), path, first == b'{')
        return at + len(re.match(rb'[^\s,\]}]*', self.text[at:]).group())

    def members(self, at, path, is_object):
        place, seen = 0, {}
        if is_object:
            self.keys[path] = []
        while self.text[at:at + 1] not in (b'}', b']'):
            name = str(place)
            if is_object:
                self.keys[path].append(at)
                end = self.string(at)
                name = self.text[at + 1:end - 1].decode()
                if name in seen:
                    self.twice.append((seen[name], at))
                seen[name] = at
                at = self.blanks(self.blanks(end) + 1)
                for old in [p for p in self.values if p.startswith(f'{path}/{name}/')]:
                    del self.values[old]
            at = self.blanks(self.value(at, f'{path}/{name}'))
            if self.text[at:at + 1] == b',':
                at = self.blanks(at + 1)
            place += 1
        return at + 1

    def nearest(self, path):
        """The place of the value at a path, or of the last one on the way to it."""
        path = path.rstrip('/')
        while path not in self.values:
            path = path.rpartition('/')[0]
        return self.values[path]


TOKEN = re.compile(rb'"(?:[^"\\]|\\.)*"|[{}\[\],:]|[^\s{}\[\],:"]+', re.DOTALL)
ENDS = ('0', '', ':0', '"":0')


def no_constant(word):
    raise ValueError(word)


def is_taken(text):
    """Whether Python's reader takes a text as JSON."""
    try:
        json.loads(text.decode(), parse_constant=no_constant)
        return True
    except ValueError:
        return False


def can_end(front):
    """Whether a beginning of a text is JSON with a value, nothing, the value of a key or a member, and what is open closed; by Python's reader."""
    closing = ''
    for token in TOKEN.findall(front):
        if token in (b'{', b'['):
            closing = ('}' if token == b'{' else ']') + closing
        elif token in (b'}', b']'):
            closing = closing[1:]
    return any(is_taken(front + (end + closing).encode()) for end in ENDS)


def stops(text, place):
    """Whether a text stops to be JSON at a place."""
    token = TOKEN.match(text, place)
    is_last = place == len(text) or (token.end() == len(text) if token else text[place] == ord('"'))
    # Python's reader knows no limit of depth or of a number's size.
    is_last = is_last or is_taken(text)
    return can_end(text[:place]) and (is_last or (token is not None and not can_end(text[:token.end()])))


def spots(value, path=()):
    """The paths of all objects and arrays in a value."""
    if isinstance(value, dict):
        yield path
        for key in value:
            yield from spots(value[key], path + (key,))
    elif isinstance(value, list):
        yield path
        for place, item in enumerate(value[:40]):
            yield from spots(item, path + (place,))


def broken(dice, doc):
    """A document with some faults, as text."""
    for _ in range(dice.choice((0, 1, 1, 1, 2))):
        where = doc
        for step in dice.choice(list(spots(doc))):
            where = where[step]
        if isinstance(where, dict):
            change_key(dice, where)
        else:
            change_item(dice, where)
    text = json.dumps(doc, indent=dice.choice((None, None, 1, 2)), ensure_ascii=dice.random() < 0.5).encode()
    if dice.random() < 0.15:
        text = cut(dice, text)
    elif dice.random() < 0.15:
        text = doubled(dice, text)
    return text


def doubled(dice, text):
    """The text with a member of an object once more."""
    found = list(re.finditer(rb'("[A-Za-z]+": *(?:[0-9]+|"[^"\\\\]*"|true|false)),', text))
    if not found:
        return text
    one = dice.choice(found)
    return text[:one.end()] + one[1] + b',' + text[one.end():]


def change_key(dice, where):
    key = dice.choice(sorted(where) or [PLANTED])
    kind = dice.randrange(4)
    if kind == 0 and key in where:
        del where[key]
    elif kind == 1:
        where[PLANTED] = where.pop(key, 1)
    elif kind == 2:
        where[dice.choice((PLANTED, 'nam', 'Up', 'beat', 'version', 'spec', 'a/b', 'a~b', 'ü', '"', ''))] = dice.choice((1, 'x', {}, [], None))
    else:
        where[key] = odd(dice)


def change_item(dice, where):
    kind = dice.randrange(3)
    if kind == 0 and where:
        where.append(where[dice.randrange(len(where))])
    elif kind == 1 and where:
        where[dice.randrange(len(where))] = odd(dice)
    else:
        where.reverse()


def odd(dice):
    return dice.choice((0, 10, 15000, -1, 1.5, 10 ** 12, 10 ** 25, '', 'x', 'Ü', '60', 'a"b\\', None, True, [], {}, [[]], {'a': {'b': []}}))


def cut(dice, text):
    """The text with some bytes lost, doubled or changed."""
    at = dice.randrange(len(text))
    return dice.choice((text[:at], text[at:], text[:at] + text[at + 1:], text[:at] + bytes([dice.randrange(256)]) + text[at + 1:],
                        text + b'}', text.replace(b'"', b"'"), text.replace(b'}', b',}', 1), b'# a comment\n' + text, b'\xef\xbb\xbf' + text, b''))


def read(path):
    with open(path, 'rb') as file:
        return file.read()


def rows():
    """The documents of check_tables' rows."""
    tables = sorted(glob.glob(os.path.join(TOP, 'crates', 'check_tables', 'data', 'documents', '*.txt')))
    return [line.split(b'\t')[1] for path in tables for line in read(path).split(b'\n') if line.count(b'\t') == 1]


def texts(seed, count, files):
    """Documents as bytes: those of the examples, of the files and of the rows, and as many more as wanted, which are examples with faults."""
    examples = [text.encode() for text in lens_frame.example_documents()]
    cases = examples + [read(path) for path in files] + rows()
    small = [json.loads(text) for text in examples if len(text) < 20000]
    dice = random.Random(seed)
    for _ in range(count):
        cases.append(broken(dice, json.loads(json.dumps(dice.choice(small)))))
    return cases


def counts(said):
    """The line of `explain` for the line of `check`."""
    n = dict(word.split('=') for word in said.decode().split()[1:])
    objects = int(n['nodes']) + int(n['leases']) + int(n['pods'])
    return f"well-formed controllers={n['controllers']} kubelets={n['kubelets']} objects={objects} skipped={n['skipped']} events={n['events']}\n".encode()


def place_in(text, told):
    """The place that a line tells, if what it shows stands there."""
    found = LINE.fullmatch(told)
    if not found:
        return None
    line, column, shown = int(found[1]), int(found[2]), found[3]
    lines = text.split(b'\n')
    if line > len(lines) or column > len(lines[line - 1]) + 1 or not lines[line - 1][column - 1:].startswith(shown):
        return None
    return sum(len(l) + 1 for l in lines[:line - 1]) + column - 1


def unit_line(path, value, likely):
    """The warning of a value that is likely meant in the other unit."""
    units = ('ms', 'seconds') if path.endswith('Millis') else ('s', 'milliseconds')
    return f'warning: {path} is {value} {units[0]}: were {units[1]} meant? Then write {likely}.\n'


def units_of(values, path):
    """The warnings of the timings in an object, in the order of docs/document.md."""
    for key in TIMINGS:
        value = values.get(key)
        if value is None:
            continue
        if key.endswith('Millis') and value < 100:
            yield unit_line(f'{path}/{key}', value, value * 1000)
        elif key.endswith('Seconds') and value >= 1000 and value % 1000 == 0:
            yield unit_line(f'{path}/{key}', value, value // 1000)


def doubts(doc):
    """The warnings of a well-formed document beside those of keys that are there twice."""
    settings = {key: doc['settings'].get(key, STANDARD[key]) for key in TIMINGS}
    lines = list(units_of(settings, '/settings'))
    for place, one in enumerate(doc['controllers']):
        own = {key: one[key] for key in TIMINGS[:4] if key in one and one[key] != settings[key]}
        lines += units_of(own, f'/controllers/{place}')
    nodes = [item for item in doc.get('objects', {}).get('items') or [] if (item['apiVersion'], item['kind']) == ('v1', 'Node')]
    return ''.join(lines) + (UNHEARD if nodes and not doc.get('kubelets') else '')


def fault(text, checked, explained):
    """What is wrong in the answer to a document, if anything."""
    status, said = checked
    ended, told = explained
    if status != ended:
        return f'status {ended}, not {status}'
    if status == 0:
        more = doubts(json.loads(text)).encode()
        warned = told[len(counts(said)):len(told) - len(more)].splitlines()
        places = [place_in(text, line) for number, line in enumerate(warned) if number % 3]
        twice = Places(text).twice[:20]
        right = places == [at for both in twice for at in both] and warned[::3] == [TWICE] * len(twice)
        return None if right and told.startswith(counts(said)) and told.endswith(more) else f'{told} of {said}, and {more}'
    first, second, rest = (told.split(b'\n', 2) + [b'', b''])[:3]
    place = place_in(text, second)
    if first + b'\n' != said or place is None or not rest.endswith(b'\n'):
        return f'{told} of {said}'
    code, path = first.decode().split(' ')[1:]
    if code == '1':
        return None if stops(text, place) else f'{told} tells {place}, where it does not stop to be JSON'
    places = Places(text)
    wanted = [places.nearest(path)]
    if code == '3' and path.rstrip('/') in places.keys:
        wanted = places.keys[path.rstrip('/')]
        planted = [at for at in wanted if text[at:].startswith(f'"{PLANTED}"'.encode())]
        wanted = planted if planted and len(wanted) == len(planted) else wanted
    return None if place in wanted else f'{told} tells {place}, not {wanted}'


def main():
    words = lens_frame.options(__doc__, 2000)
    words.add_argument('files', nargs='*', metavar='FILE')
    words = lens_frame.given(words)
    seen, wrong = {}, []
    for text in texts(words.seed, words.count, words.files):
        checked = lens_frame.answer(words.replay, ['check'], text)
        found = fault(text, checked, lens_frame.answer(words.program, ['explain'], text))
        kind = checked[1].split(b' ')[1].decode() if checked[0] == 1 else 'ok'
        seen[kind] = seen.get(kind, 0) + 1
        if found:
            wrong.append(f'{found}\n{text}')
    print(f'{sum(seen.values())} documents:', *(f'{kind}: {seen[kind]}' for kind in sorted(seen)))
    lens_frame.report(wrong)


if __name__ == '__main__':
    main()
