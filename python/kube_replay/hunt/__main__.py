"""`python -m kube_replay.hunt`: the command line of a hunt."""
from __future__ import annotations

import argparse
import json
import sys
import time
from random import Random
from typing import TYPE_CHECKING, Any, Mapping

from kube_replay.commands import check
from kube_replay.errors import KubeReplayError
from kube_replay.hunt.bounds import Bounds, read_bounds

if TYPE_CHECKING:
    from kube_replay.hunt.search import Found

ABOUT = """Searches scripts within bounds for the one that makes MEASURE worst, shrinks it to the smallest that is still so bad, and writes
the document with it to standard output. What it has found stands on standard error.

Exit status: 0 found, 1 none of the scripts that were tried has anything to measure, 2 the words, the document or the bounds are wrong.
"""
FOUND, NOTHING, WRONG = 0, 1, 2


def options() -> argparse.Namespace:
    """The words of the command line."""
    from kube_replay.hunt.measures import MEASURES

    told = 'measures:\n' + '\n'.join(f'  {measure.name:16} {measure.words}, in {measure.unit}' for measure in MEASURES.values())
    parser = argparse.ArgumentParser(
        prog='python3 -m kube_replay.hunt', description=ABOUT, epilog=told, formatter_class=argparse.RawDescriptionHelpFormatter
    )
    parser.add_argument('measure', metavar='MEASURE', choices=MEASURES)
    parser.add_argument('document', metavar='DOCUMENT', help='a file with a document; - is standard input')
    parser.add_argument('bounds', metavar='BOUNDS', help='a file with the bounds, as JSON')
    parser.add_argument('--scripts', type=int, default=20_000, help='how many scripts at most, before the shrinking (%(default)s)')
    parser.add_argument('--seconds', type=float, default=60.0, help='for how long at most, before the shrinking (%(default)s)')
    parser.add_argument('--at-least', type=float, metavar='VALUE', help='end at the first script that is so bad, and shrink that')
    parser.add_argument('--seed', type=int, help="the same seed tries the same scripts again, where the seconds don't end it")
    parser.add_argument('--dask', metavar='ADDRESS', help='hunt on the workers of the Dask scheduler there; `local` starts one')
    return parser.parse_args()


def load(path: str) -> Any:
    """The JSON value of a file."""
    with sys.stdin if path == '-' else open(path, encoding='utf-8') as file:
        return json.load(file)


def written(document: Mapping[str, Any]) -> str:
    """A document as text, with its events a line each."""
    events = ',\n'.join('    ' + json.dumps(event) for event in document['events'])
    rest = json.dumps({**document, 'events': []}, indent=2)
    # Keys of the document itself, and no others, stand behind two blanks.
    return rest.replace('\n  "events": []', f'\n  "events": [\n{events}\n  ]') if events else rest


def hunt_here(given: argparse.Namespace, document: Any, bounds: Bounds) -> tuple[Found | None, int, str]:
    """What a hunt in this process has found, how many scripts it has tried, and what is told of how."""
    from kube_replay.hunt.measures import MEASURES
    from kube_replay.hunt.search import Hunt

    hunt = Hunt(document, bounds, MEASURES[given.measure], given.scripts, given.seconds, given.seed)
    return hunt.run(given.at_least), hunt.tried, ''


def hunt_on_workers(given: argparse.Namespace, document: Any, bounds: Bounds) -> tuple[Found | None, int, str]:
    """The same on the workers of a Dask scheduler."""
    from kube_replay.hunt.generations import Generations, Ground
    from kube_replay.hunt.measures import MEASURES
    from kube_replay.workers import Progress, connected

    measure, millis = MEASURES[given.measure], document['settings'].get('beatMillis', 100)
    seed, progress = Random().randrange(10**6) if given.seed is None else given.seed, Progress(given.scripts, 'scripts')

    def tell(count: int, value: float | None) -> None:
        progress.step(count, '' if value is None else f'; the worst so far: {measure.told(value, millis)}')

    with connected(given.dask) as workers:
        ground = Ground(document, bounds, given.measure, given.at_least)
        hunt = Generations(workers, ground, given.scripts, given.seconds, seed, tell=tell)
        return hunt.run(), hunt.tried, f', --seed {seed}'


def run(given: argparse.Namespace) -> int:
    """Hunts, writes what is found, and gives the exit status."""
    # Where Hypothesis is missing, that is told before anything is read.
    import kube_replay.hunt.search  # noqa: F401
    from kube_replay.hunt.measures import MEASURES

    document, began = load(given.document), time.monotonic()
    check(document)
    measure, bounds = MEASURES[given.measure], read_bounds(load(given.bounds), document)
    found, count, how = (hunt_on_workers if given.dask else hunt_here)(given, document, bounds)
    tried = f'{count:,} scripts in {time.monotonic() - began:.0f} s{how}'
    if found is None:
        print(f'hunt: nothing found: {measure.words}; {tried}', file=sys.stderr)
        return NOTHING
    value = measure.told(found.value, document['settings'].get('beatMillis', 100))
    print(f'hunt: {measure.words}: {value}, by {len(found.script.events)} events; {tried}', file=sys.stderr)
    print(written(found.document))
    return FOUND


def main() -> int:
    """The command line; a fault is told in a sentence."""
    try:
        return run(options())
    except (KubeReplayError, OSError, ValueError) as fault:
        print(f'hunt: {fault}', file=sys.stderr)
    except ImportError as fault:
        if (fault.name or '').split('.')[0] != 'hypothesis':
            raise
        print("hunt: a hunt needs Hypothesis, which isn't installed: apt install python3-hypothesis, or pip install hypothesis", file=sys.stderr)
    return WRONG


if __name__ == '__main__':
    sys.exit(main())
