#!/usr/bin/env python3
"""What the hunt is wanted to find, and not to find. It runs outside the gate; with the shared library, on one idle core, some minutes.

    PYTHONPATH=python python3 python/trials/hunts.py [two-leaders] [no-two-leaders] [failover] [bounded]

- two-leaders: from the settings of examples/uneven-clocks, within 60 s of processor time, a script of at most four events with two leaders.
- no-two-leaders: with the longer lease of examples/uneven-clocks-longer-lease, which rules them out, none in 100,000 scripts.
- failover: with default settings, a crash and delays of up to 5 beats, a script that keeps everybody from leading at least as long as the
  worst of a sweep over every beat of the crash with all delays at 5.
- bounded: with the same delays and a crash of a leader that has led for a while, in 100,000 scripts none above the 227 beats that
  `kube_lens bounds` tells of them, and one that is within a tenth of that.

The exit status is 1 where one of them fails.
"""
from __future__ import annotations

import json
import sys
import time
from pathlib import Path
from typing import Any, Callable

import kube_replay
from kube_replay import engine
from kube_replay.hunt import MEASURES, Found, Hunt, Run, read_bounds

TOP = Path(__file__).resolve().parents[2]
HUNTS = TOP / 'docs' / 'hunt'
LONG = 3_600.0
# Beats without a leader after a crash with delays of 1 to 5 beats and default settings, by `kube_lens bounds`.
AT_MOST = 227


def load(path: Path) -> Any:
    """The JSON value of a file."""
    return json.loads(path.read_bytes())


def hunt_of(measure: str, document: Any, bounds: str, scripts: int, seconds: float) -> Hunt:
    """A hunt with bounds of docs/hunt."""
    return Hunt(document, read_bounds(load(HUNTS / f'{bounds}.json'), document), MEASURES[measure], scripts, seconds)


def told(found: Found | None) -> str:
    """What was found, in words."""
    if found is None:
        return 'nothing found'
    return f'{found.value:.0f} beats, {len(found.script.events)} events: {list(found.script.events)}'


def two_leaders() -> bool:
    """Two leaders, by at most four events."""
    hunt = hunt_of('two-lead', load(HUNTS / 'uneven-clocks.json'), 'two-leaders', 1_000_000, LONG)
    begin, processor = time.perf_counter(), time.process_time()
    found = hunt.run(at_least=1)
    spent = time.process_time() - processor
    print(f'two-leaders: {told(found)}; {hunt.tried} scripts, {spent:.1f} s of processor time, {time.perf_counter() - begin:.1f} s')
    return found is not None and len(found.script.events) <= 4 and spent <= 60


def no_two_leaders(scripts: int = 100_000) -> bool:
    """No two leaders where the settings rule them out."""
    document = load(TOP / 'examples' / 'uneven-clocks-longer-lease' / 'document.json')
    document['events'] = []
    document['settings']['endBeat'] = 400
    assert kube_replay.check(document).premise
    hunt = hunt_of('two-lead', document, 'hostile', scripts, LONG)
    begin, found = time.process_time(), hunt.run()
    print(f'no-two-leaders: {told(found)}; {hunt.tried} scripts, {time.process_time() - begin:.1f} s of processor time')
    return found is None and hunt.tried == scripts


def worst_of_sweep(document: dict[str, Any], measure: str) -> float:
    """The worst over every beat of the crash of the first leader, with all delays at 5."""
    delays = [{'beat': 0, 'type': 'delay', 'process': each['name'], 'requestBeats': 5, 'replyBeats': 5} for each in document['controllers']]
    values = []
    for beat in range(101):
        swept = {**document, 'events': [*delays, {'beat': beat, 'type': 'crash', 'process': document['controllers'][0]['name']}]}
        values.append(MEASURES[measure].value(Run(swept, kube_replay.replay(swept))) or 0)
    return max(values)


def failover(measure: str = 'failover') -> bool:
    """A failover as long as the worst of the sweep, or longer."""
    document = load(HUNTS / 'three-controllers.json')
    worst = worst_of_sweep(document, measure)
    hunt = hunt_of(measure, document, 'one-crash', 20_000, LONG)
    begin, found = time.process_time(), hunt.run()
    print(f'failover: {told(found)}; {hunt.tried} scripts, {time.process_time() - begin:.1f} s of processor time')
    print(f'failover: the worst of the sweep is {worst:.0f} beats')
    return found is not None and found.value >= worst


def bounded(scripts: int = 100_000) -> bool:
    """No failover above the bound, and one that is near it."""
    hunt = hunt_of('failover', load(HUNTS / 'three-controllers.json'), 'calm-crash', scripts, LONG)
    begin, found = time.process_time(), hunt.run()
    print(f'bounded: {told(found)}; {hunt.tried} scripts, {time.process_time() - begin:.1f} s of processor time')
    return found is not None and 0.9 * AT_MOST <= found.value <= AT_MOST


TRIALS: dict[str, Callable[[], bool]] = {
    'two-leaders': two_leaders,
    'no-two-leaders': no_two_leaders,
    'failover': failover,
    'bounded': bounded,
}


def main() -> int:
    """Runs those that are named, or all."""
    print(engine.engine().place)
    results = {name: TRIALS[name]() for name in sys.argv[1:] or TRIALS}
    print(' '.join(f'{name}={"passed" if passed else "FAILED"}' for name, passed in results.items()))
    return 0 if all(results.values()) else 1


if __name__ == '__main__':
    sys.exit(main())
