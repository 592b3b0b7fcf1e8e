#!/usr/bin/env python3
"""Compares the shared library, as the package calls it, with the program: statuses and bytes on fuzzed inputs.

    PYTHONPATH=python python3 python/trials/compare.py [COUNT] [SEED]

The library and the program are those that the package finds, or those that KUBE_REPLAY_LIBRARY and KUBE_REPLAY_PROGRAM name. The exit
status is 1 where anything differs.
"""
from __future__ import annotations

import argparse
import collections
import os
import shlex
import sys

from fuzzed import TOP, cases

from kube_replay import engine

__all__ = ['TOP', 'engines']


def engines() -> tuple[engine.Library, engine.Program]:
    """Both engines."""
    named = os.environ.get(engine.LIBRARY_VARIABLE)
    library = engine.Library(named) if named else engine.find_library()
    words = os.environ.get(engine.PROGRAM_VARIABLE)
    program = engine.Program(shlex.split(words)) if words else engine.find_program()
    if library is None or program is None:
        sys.exit('compare: both the shared library and the program are needed')
    return library, program


def main() -> int:
    """Compares, and counts the statuses."""
    parser = argparse.ArgumentParser(description=__doc__, formatter_class=argparse.RawDescriptionHelpFormatter)
    parser.add_argument('count', type=int, nargs='?', default=20_000)
    parser.add_argument('seed', type=int, nargs='?', default=1)
    given = parser.parse_args()
    library, program = engines()
    print(f'{library.place} against {program.place}')
    statuses: collections.Counter[int] = collections.Counter()
    differences = length = 0
    for words, data in cases(given.seed, given.count):
        encoded = [word.encode() for word in words]
        found, wanted = library.run(encoded, data), program.run(encoded, data)
        statuses[wanted.status] += 1
        length += len(wanted.text)
        if found != wanted:
            differences += 1
            print(f'DIFFERS {words} {data[:200]!r}: {found.status} {found.text[:80]!r}, the program {wanted.status} {wanted.text[:80]!r}')
    print(f'{given.count} inputs, seed {given.seed}: {differences} differ; {length} bytes; statuses {dict(sorted(statuses.items()))}')
    return 1 if differences else 0


if __name__ == '__main__':
    sys.exit(main())
