"""Work on the workers of a Dask scheduler: what they are sent, and hunts by generations, with hands that are made up."""
from __future__ import annotations

import io
import json
import subprocess
import sys
import zipfile
from pathlib import Path
from typing import Any, Callable, Iterator, Sequence

import pytest
from conftest import TOP

from kube_replay import engine
from kube_replay.workers import LOCAL, Progress, archive_of, named, sources

pytest.importorskip('hypothesis')

import kube_replay.hunt.generations as generations_module  # noqa: E402
from kube_replay.hunt import read_bounds  # noqa: E402
from kube_replay.hunt.generations import SHARES, Generations, Ground, searched, size_of  # noqa: E402
from kube_replay.hunt.scripts import Script  # noqa: E402

DOCUMENT: dict[str, Any] = {'version': 1, 'settings': {'endBeat': 100}, 'controllers': [{'name': 'a'}], 'events': []}
BOUNDS = {'crashes': {'most': 3, 'beats': [0, 90]}}


class Made:
    """An engine that is made up: nobody leads from the first crash on, for as many tenfold beats as there are crashes."""

    place = 'made'

    def run(self, words: Sequence[bytes], data: bytes) -> engine.Answer:
        crashes = [event['beat'] for event in json.loads(data)['events'] if event['type'] == 'crash']
        lines = ['trace 1 beat=100 end=100 premise=no', '0 a_1 lead v=1']
        if crashes:
            lines += [f'{crashes[0]} a_1 crash', f'{min(100, crashes[0] + 10 * len(crashes))} b_1 lead v=2']
        return engine.Answer(0, '\n'.join([*lines, '']).encode())


class Hands:
    """Does the tasks of a hunt in an order of its own, and some of them twice, as where a worker is lost."""

    def __init__(self, backwards: bool) -> None:
        self.backwards = backwards
        self.handed_out: list[list[Any]] = []

    def results(self, function: Callable[[Any, Any], Any], common: Any, tasks: Sequence[Any]) -> Iterator[tuple[int, Any]]:
        self.handed_out.append(list(tasks))
        places = list(range(len(tasks)))
        for place in reversed(places) if self.backwards else places:
            if self.backwards and place % 3 == 0:
                function(common, tasks[place])
            yield place, function(common, tasks[place])


def hunt(hands: Hands, seed: int = 5, at_least: float | None = None, scripts: int = 160) -> Generations:
    engine.use(Made())
    return Generations(hands, Ground(DOCUMENT, read_bounds(BOUNDS, DOCUMENT), 'failover', at_least), scripts, 600, seed)


def test_the_same_whoever_does_what_in_which_order() -> None:
    found = hunt(Hands(False)).run()
    again = hunt(Hands(True)).run()
    assert found is not None and again is not None
    assert found == again
    # Three crashes are worst. The earliest beats are the smallest ones, and what begins at 0 isn't from one leader to the next.
    assert found.value == 30
    assert [event['beat'] for event in found.script.events] == [1, 1, 1]


def test_an_end_at_what_is_bad_enough() -> None:
    hands = Hands(False)
    found = hunt(hands, at_least=20, scripts=100_000).run()
    assert found is not None
    assert (found.value, [event['beat'] for event in found.script.events]) == (20, [1, 1])
    # One generation, and one shrinking.
    assert [len(tasks) for tasks in hands.handed_out] == [SHARES, 4]


def test_nothing_so_bad() -> None:
    assert hunt(Hands(False), at_least=31).run() is None


def test_generations_go_on_from_the_worst(monkeypatch: pytest.MonkeyPatch) -> None:
    monkeypatch.setattr(generations_module, 'SCRIPTS_A_SHARE', 20)
    hands = Hands(False)
    generations = hunt(hands, scripts=640)
    generations.run()
    first, second = hands.handed_out[0], hands.handed_out[1]
    assert {share.first for share in first} == {None}
    assert [share.first is None for share in second] == [True, False] * (SHARES // 2)
    assert len({share.seed for share in first + second}) == 2 * SHARES
    assert {share.scripts for share in first + second} == {20}
    assert generations.tried >= 640
    # A share that begins with a script is at least as bad.
    assert generations.worst is not None
    worst = searched(generations.ground, second[1])
    best = max(found.score for share in first if (found := searched(generations.ground, share)) is not None)
    assert worst is not None and worst.score >= best


def test_the_smaller_script() -> None:
    def script(*beats: int) -> Script:
        return Script({}, tuple({'beat': beat, 'type': 'crash', 'process': 'a'} for beat in beats))

    assert min([script(1, 2), script(10), script(9)], key=size_of) == script(9)


def test_an_archive_has_the_package() -> None:
    files = sources()
    assert {'kube_replay/__init__.py', 'kube_replay/hunt/generations.py', 'kube_replay/workers.py'} <= set(files)
    packed = archive_of(files)
    assert packed == archive_of(dict(reversed(list(files.items()))))
    with zipfile.ZipFile(io.BytesIO(packed)) as archive:
        assert {name: archive.read(name) for name in archive.namelist()} == files
    assert named('a', '.zip', b'1') != named('a', '.zip', b'2')


@pytest.mark.parametrize(
    'address, workers', [('local', None), ('local:3', '3'), ('local:0', 0), ('locally', 0), ('tcp://10.0.0.1:8786', 0)]
)
def test_addresses(address: str, workers: str | int | None) -> None:
    found = LOCAL.fullmatch(address)
    assert (found[1] if found else 0) == workers


def test_progress(capsys: pytest.CaptureFixture[str]) -> None:
    progress = Progress(4000, 'scripts')
    progress.step(1000)
    progress.step(3000, '; the worst so far: 3 beats')
    told = capsys.readouterr().err.splitlines()
    assert told[-1] == '[########################] 4,000 of 4,000 scripts, 0 s; the worst so far: 3 beats'


WITHOUT = """
import runpy, sys
sys.modules['distributed'] = None
sys.argv[1:] = sys.argv[1:] + ['--dask', 'local']
runpy.run_path(sys.argv.pop(1), run_name='__main__') if sys.argv[1].endswith('.py') else runpy.run_module(sys.argv.pop(1), run_name='__main__')
"""


@pytest.mark.parametrize(
    'name, words',
    [('hunt', ['kube_replay.hunt', 'failover', str(TOP / 'docs/hunt/three-controllers.json'), str(TOP / 'docs/hunt/one-crash.json')]),
     ('sweep', [str(TOP / 'tools/sweep.py'), 'all', str(TOP / 'examples/leader-crashes/document.json'), 'folder',
                '--vary', '/events/0/beat=5..6', '--program', sys.executable])],
)  # fmt: skip
def test_it_says_in_a_sentence_that_dask_is_missing(name: str, words: list[str], tmp_path: Path, real_engine: engine.Engine) -> None:
    ran = subprocess.run(
        [sys.executable, '-c', WITHOUT, *words], cwd=tmp_path, env={'PYTHONPATH': str(TOP / 'python')}, capture_output=True, text=True, check=False
    )
    assert (ran.returncode != 0, ran.stdout) == (True, '')
    assert ran.stderr == f"{name}: --dask needs Dask, which isn't installed: apt install python3-distributed, or pip install distributed\n"
