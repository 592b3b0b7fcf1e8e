"""Each line is read as docs/trace.md says, and is the same text again."""
from __future__ import annotations

from datetime import datetime, timezone
from pathlib import Path

import pytest
from conftest import EXAMPLES, TOP

import kube_replay
from kube_replay import Answer, Outcome, read_line

STORED = [*(path / 'trace.txt' for path in EXAMPLES), *sorted((TOP / 'view' / 'data').glob('*.txt'))]


@pytest.mark.parametrize('path', STORED, ids=lambda path: f'{path.parent.name}-{path.stem}')
def test_lines_are_their_text(path: Path) -> None:
    trace = kube_replay.Trace(path.read_bytes())
    assert [str(line) for line in trace] == path.read_text().splitlines()[1:]


def test_every_kind_of_line_is_among_the_stored_ones() -> None:
    kinds = {line.kind for path in STORED for line in kube_replay.Trace(path.read_bytes())}
    named = {kind.kind for kind in vars(kube_replay).values() if isinstance(kind, type) and issubclass(kind, kube_replay.Line)} - {''}
    assert named - kinds <= {'pause', 'stall'}


def test_fields() -> None:
    election = read_line('183 cp-west-1_1 update election v=4 t=1', 100)
    assert isinstance(election, kube_replay.UpdateElection)
    assert (election.beat, election.seconds, election.process, election.incarnation) == (183, 18.3, 'cp-west-1', 1)
    assert (election.answer, election.transitions) == (Answer(Outcome.ACCEPTED, 4), 1)
    refused = read_line('75 cp-east-1_1 update election conflict v=3', 100)
    assert isinstance(refused, kube_replay.UpdateElection)
    assert (refused.answer, refused.transitions, refused.answer.accepted) == (Answer(Outcome.CONFLICT, 3), None, False)
    pause = read_line('20 kubelet/worker-1_2 pause beats=180', 50)
    assert isinstance(pause, kube_replay.Pause)
    assert (pause.seconds, pause.process, pause.incarnation, pause.beats) == (1.0, 'kubelet/worker-1', 2, 180)
    stall = read_line('40 script stall beats=120', 100)
    assert isinstance(stall, kube_replay.Stall)
    assert (stall.seconds, stall.beats, stall.words()) == (4.0, 120, 'stall beats=120')


def test_an_eviction_has_its_due_as_a_time() -> None:
    line = read_line('755 cp-east-1_1 evict default/web due=2024-01-01T00:01:15Z v=40', 100)
    assert isinstance(line, kube_replay.Eviction)
    assert line.due_time == datetime(2024, 1, 1, 0, 1, 15, tzinfo=timezone.utc)


def test_a_zone_without_names() -> None:
    line = read_line('4 c1_1 zone / Normal rate=100', 100)
    assert isinstance(line, kube_replay.ZoneChange)
    assert (line.region, line.zone, line.state, line.rate) == ('', '', 'Normal', 100)


@pytest.mark.parametrize(
    'text',
    ['', '1', '1 c1_1', '1 c1_1 lead', '1 c1_1 lead v=', '1 c1_1 lead v=x', '1 c1_1 lead t=1', '1 c1_1 start now', '1 c1_1 sing',
     '1 c1_1 update election', '1 c1_1 update election v=3', '1 c1_1 mode maybe', '1 c1_1 status n maybe v=1', '-1 c1_1 start',
     '1 c1_1 taint n1 unreachable', '1 c1_1 create', '1 c1_1 untaint n1 conflict', '1 c1_1 evict web due=2024-01-01T00:01:15Z v=1'],
)  # fmt: skip
def test_what_is_no_line(text: str) -> None:
    with pytest.raises(kube_replay.NotATrace):
        read_line(text, 100)
