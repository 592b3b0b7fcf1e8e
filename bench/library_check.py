#!/usr/bin/env python3
"""Tries c/libkube_replay.so on many inputs, each with five buffers, and compares it with the program.

    bench/library_check.py --program FILE             5,000 inputs: statuses and bytes are those of this build of kube_replay
    bench/library_check.py --valgrind --count 500     under valgrind, which has to find nothing; with --program it compares too
    bench/library_check.py --cases FILE               the cases of a file: lines with the lengths of words and input, then their bytes

The inputs are documents of examples/ with a few changes, traces, small lists for questions on pods, and bytes that are none of these; the
words are commands, commands with odd numbers, and words that are none. The same --seed gives the same inputs. The exit status is 1 where
anything differs. tools/shared-library makes the library.
"""
import argparse
import glob
import io
import os
import random
import re
import subprocess
import sys
import tempfile
import time

TOP = os.path.dirname(os.path.dirname(os.path.abspath(__file__)))
LARGEST = 30_000
COMMANDS = (b'replay', b'check', b'state 0', b'state 60', b'state 364', b'audit', b'collect', b'place', b'generate 7 3 9 120')
NO_COMMANDS = (b'state 01', b'state', b'generate 1 0 0 0', b'', b' ', b'replay ', b' replay', b'replay  check', b'Replay', b'version',
               b'st\xc3\xa4te 1')
NOT_UTF8 = (b'replay\xff', b'\xc3', b'state \xed\xa0\x80')
NUMBERS = (0, 1, 2, 9, 60, 999, 10 ** 6, 2 ** 32, 2 ** 64, 10 ** 40)
KEYS = (b'"endBeat"', b'"beatMillis"', b'"version"', b'"leaseDurationSeconds"', b'"ratePpm"', b'"beat"')


def seeds():
    """The documents and traces that inputs are made of."""
    found = [b'', b'[]', b'{"version":1,"settings":{"endBeat":60},"controllers":[{"name":"c1"}]}']
    for path in sorted(glob.glob(os.path.join(TOP, 'examples', '*', '*'))):
        if os.path.isfile(path) and os.path.getsize(path) <= LARGEST and path.endswith(('.json', '.trace', '.txt')):
            with open(path, 'rb') as file:
                found.append(file.read())
    return found


def changed(dice, text):
    """The text with one change."""
    kind, place = dice.randrange(6), dice.randrange(len(text) + 1)
    if kind == 0:
        return text[:place]
    if kind == 1:
        return text[:place] + bytes([dice.randrange(256)]) + text[place + 1:]
    if kind == 2:
        return text[:place] + text[place + dice.randrange(1, 9):]
    numbers = list(re.finditer(rb'\d+', text))
    if kind == 3 and numbers:
        number = dice.choice(numbers)
        return text[:number.start()] + str(dice.choice(NUMBERS)).encode() + text[number.end():]
    if kind == 4:
        key = dice.choice(KEYS)
        return text.replace(key, dice.choice(KEYS), 1) if key in text else text + key
    return text[:place] + dice.choice((b'{', b'}', b'[', b'"', b',', b'null', b'-1', b'\n', b'\\u0000', b'\xf0\x9f\x98\x80')) + text[place:]


def cases(seed, count):
    """Pairs of words and input."""
    dice, texts = random.Random(seed), seeds()
    for _ in range(count):
        text = dice.choice(texts)
        for _ in range(dice.choice((0, 0, 1, 1, 2, 5))):
            text = changed(dice, text)
        kind = dice.randrange(20)
        yield dice.choice(COMMANDS if kind > 3 else NO_COMMANDS if kind > 0 else NOT_UTF8), text


def framed(every):
    return b''.join(b'%d %d\n%s%s' % (len(words), len(text), words, text) for words, text in every)


def unframed(data):
    """The cases of a file."""
    file = io.BytesIO(data)
    while True:
        head = file.readline().split()
        if len(head) != 2:
            return
        yield file.read(int(head[0])), file.read(int(head[1]))


def call(every, room, valgrind):
    """What the library gives for each case, its status and its text."""
    tool = os.path.join(room, 'library_calls')
    folder, source = os.path.join(TOP, 'c'), os.path.join(TOP, 'bench', 'library_calls.c')
    subprocess.run([os.environ.get('CC', 'cc'), '-Wall', '-Wextra', '-O1', '-g', '-I', folder, source, '-L', folder, '-lkube_replay',
                    '-Wl,-rpath,' + folder, '-o', tool], check=True)
    command = ['valgrind', '--quiet', '--error-exitcode=9', '--leak-check=full'] if valgrind else []
    ran = subprocess.run([*command, tool], input=framed(every), stdout=subprocess.PIPE)
    if ran.returncode != 0:
        sys.exit(f'library_check: the calls ended with {ran.returncode}')
    file, found = io.BytesIO(ran.stdout), []
    for _ in every:
        status, length = file.readline().split()
        found.append((int(status), file.read(int(length))))
    return found


def by_program(program, words, text):
    """What the program gives."""
    ran = subprocess.run([program, *words.split(b' ')], input=text, stdout=subprocess.PIPE, stderr=subprocess.DEVNULL)
    return ran.returncode, ran.stdout


def main():
    words = argparse.ArgumentParser(description=__doc__, formatter_class=argparse.RawDescriptionHelpFormatter)
    words.add_argument('--program', metavar='FILE', help='a build of kube_replay to compare with')
    words.add_argument('--cases', metavar='FILE', help='the cases, in place of made ones')
    words.add_argument('--count', type=int, default=5000)
    words.add_argument('--seed', type=int, default=1)
    words.add_argument('--valgrind', action='store_true')
    given = words.parse_args()
    if given.cases:
        with open(given.cases, 'rb') as file:
            every = list(unframed(file.read()))
    else:
        every = list(cases(given.seed, given.count))
    since = time.time()
    with tempfile.TemporaryDirectory() as room:
        found = call(every, room, given.valgrind)
    seconds, statuses, wrong = time.time() - since, {}, 0
    for (said, text), got in zip(every, found):
        statuses[got[0]] = statuses.get(got[0], 0) + 1
        if given.program and by_program(given.program, said, text) != got:
            wrong += 1
            print(f'differs: {said!r} with {text[:200]!r}')
    print(f'{len(every)} inputs, {seconds:.1f} s for five calls each, statuses {dict(sorted(statuses.items()))}, '
          + (f'{wrong} differ from the program' if given.program else 'not compared'))
    return 1 if wrong else 0


if __name__ == '__main__':
    sys.exit(main())
