#!/usr/bin/env python3
"""Calls a second of a small document: by the package in this process, and by a process each.

    PYTHONPATH=python python3 python/trials/speed.py [SECONDS]

The exit status is 1 where the package makes less than 20 times as many calls as processes do.
"""
from __future__ import annotations

import sys
import time
from typing import Callable

from compare import TOP, engines

import kube_replay
from kube_replay import engine

DOCUMENT = (TOP / 'examples' / 'uneven-clocks' / 'document.json').read_bytes()
WANTED = 20


def rate(call: Callable[[], object], seconds: float) -> float:
    """Calls a second."""
    call()
    begin, count = time.perf_counter(), 0
    while time.perf_counter() - begin < seconds:
        call()
        count += 1
    return count / (time.perf_counter() - begin)


def main() -> int:
    """Measures, a line each."""
    seconds = float(sys.argv[1]) if len(sys.argv) > 1 else 5.0
    library, program = engines()
    rates: dict[str, float] = {}
    used: dict[str, engine.Engine] = {'library': library, 'program': program}
    for name, each in used.items():
        engine.use(each)
        rates[name] = rate(lambda: kube_replay.replay(DOCUMENT), seconds)
        print(f'{name}: {rates[name]:.0f} replays a second')
        print(f'{name}: {rate(lambda: kube_replay.replay(DOCUMENT).terms(), seconds):.0f} with the lines read')
        print(f'{name}: {rate(lambda: kube_replay.check(DOCUMENT), seconds):.0f} checks a second')
    print(f'{rates["library"] / rates["program"]:.0f} times as many replays by the library')
    return 0 if rates['library'] >= WANTED * rates['program'] else 1


if __name__ == '__main__':
    sys.exit(main())
