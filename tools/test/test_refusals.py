#!/usr/bin/env python3
"""Makes an input for each row of the table of refusals in docs/document.md, and compares what the program says with the row's line.

    tools/test/test_refusals.py [--program COMMAND]

COMMAND is the program, by default the built one. The inputs stand in tools/test/data/refusals.json: for each code the command's words, and either a
text, or changes of the smallest document: the value at each place. The lines that are wanted are the page's. The exit status is 1 where anything differs.
"""
import argparse
import copy
import json
import os
import re
import shlex
import subprocess
import sys

from places import HERE, TOP, built

SMALLEST = {'version': 1, 'settings': {'endBeat': 60}, 'controllers': [{'name': 'cp-east-1'}]}


def rows_of_page():
    """The code and the line of each row of the table."""
    with open(os.path.join(TOP, 'docs', 'document.md'), encoding='utf-8') as file:
        found = re.findall(r'^\| (\d+) \|.*\| `(refused [^`]*)` \|$', file.read(), re.M)
    return {int(code): line for code, line in found}


def changed(changes):
    """The smallest document with other values; a place is the keys that lead there."""
    document = copy.deepcopy(SMALLEST)
    for place, value in changes.items():
        *before, last = place.split('/')
        inner = document
        for key in before:
            inner = inner.setdefault(key, {})
        inner[last] = value
    return json.dumps(document)


def input_of(case):
    if 'changes' in case:
        return changed(case['changes']).encode()
    text = '\n'.join(case['lines']) + '\n' if 'lines' in case else case['text']
    return text.encode() + b' ' * case.get('blanks', 0)


def main():
    options = argparse.ArgumentParser(description=__doc__, formatter_class=argparse.RawDescriptionHelpFormatter)
    options.add_argument('--program', default=built('kube_replay'))
    program = shlex.split(options.parse_args().program)
    with open(os.path.join(HERE, 'data', 'refusals.json'), encoding='utf-8') as file:
        cases = {case['code']: case for case in json.load(file)}
    wanted = rows_of_page()
    wrong = sorted(set(wanted) ^ set(cases))
    if wrong:
        print('codes without a row or without an input: %s' % wrong)
    for code, line in sorted(wanted.items()):
        if code not in cases:
            continue
        done = subprocess.run([*program, *cases[code]['words']], input=input_of(cases[code]), stdout=subprocess.PIPE, stderr=subprocess.DEVNULL, check=False)
        said = (done.returncode, done.stdout.decode())
        if said != (1, line + '\n'):
            wrong.append(code)
        print('%3d  %s' % (code, 'same' if said == (1, line + '\n') else 'says %r, and the page %r' % (said, line)), flush=True)
    return 1 if wrong else 0


if __name__ == '__main__':
    sys.exit(main())
