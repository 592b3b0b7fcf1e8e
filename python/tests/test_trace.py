"""What is read off a trace; the values are those of docs/trace.md, README.md and the examples' pages."""
from __future__ import annotations

import builtins
from typing import Any

import pytest
from conftest import example

import kube_replay
from kube_replay import Trace


def stored(name: str) -> Trace:
    return Trace(example(name, 'trace.txt'))


def test_first_line() -> None:
    trace = stored('leader-crashes')
    assert (trace.beat_millis, trace.end_beat, trace.premise, len(trace)) == (100, 240, True, 15)
    assert stored('uneven-clocks').premise is False


def test_terms() -> None:
    first, second = stored('uneven-clocks').terms()
    assert (first.identity, first.first_beat, first.last_beat) == ('cp-east-1_1', 4, 188)
    assert (second.identity, second.first_beat, second.last_beat, second.ended_by) == ('cp-west-1_1', 184, 210, None)
    assert isinstance(first.ended_by, kube_replay.End)
    assert (second.beats, second.seconds) == (27, 2.7)


def test_who_leads_when() -> None:
    trace = stored('leader-crashes')
    assert [(span.first_beat, span.last_beat) for span in trace.leaderless()] == [(0, 3), (40, 203)]
    assert trace.leaderless()[1].seconds == 16.4
    assert trace.two_leaders() == []
    both = stored('uneven-clocks').two_leaders()
    assert [(span.first_beat, span.last_beat, span.leaders, span.seconds) for span in both] == [(184, 188, 2, 0.5)]


def test_a_paused_leader_does_not_lead() -> None:
    trace = stored('leader-stalls')
    assert round(sum(span.seconds for span in trace.leaderless()), 3) == 22.357
    assert sum(span.seconds for span in trace.two_leaders()) == 10.0


@pytest.mark.parametrize(
    'lines, leaders',
    [
        # from the beat of its line on, as many beats as it says
        (['2 c1_1 lead v=1', '4 c1_1 pause beats=3'], [0, 0, 1, 1, 0, 0, 0, 1, 1, 1]),
        (['2 c1_1 lead v=1', '2 c1_1 pause beats=1'], [0, 0, 0, 1, 1, 1, 1, 1, 1, 1]),
        # one behind the other, and one within another
        (['1 c1_1 lead v=1', '3 c1_1 pause beats=2', '6 c1_1 pause beats=2'], [0, 1, 1, 0, 0, 1, 0, 0, 1, 1]),
        (['1 c1_1 lead v=1', '3 c1_1 pause beats=5', '4 c1_1 pause beats=1'], [0, 1, 1, 0, 0, 0, 0, 0, 1, 1]),
        # past the end of the trace, and past the end of the term
        (['1 c1_1 lead v=1', '6 c1_1 pause beats=604800000'], [0, 1, 1, 1, 1, 1, 0, 0, 0, 0]),
        (['1 c1_1 lead v=1', '3 c1_1 pause beats=2', '4 c1_1 crash'], [0, 1, 1, 0, 0, 0, 0, 0, 0, 0]),
        # begun before the lead, and one of another incarnation
        (['1 c1_1 pause beats=4', '3 c1_1 lead v=1'], [0, 0, 0, 0, 0, 1, 1, 1, 1, 1]),
        (['1 c1_1 lead v=1', '2 c1_1 pause beats=6', '3 c1_1 crash', '3 c1_2 start', '5 c1_2 lead v=2'], [0, 1, 0, 0, 0, 1, 1, 1, 1, 1]),
        # two terms that overlap, of which one stands still
        (['1 c1_1 lead v=1', '3 c1_1 pause beats=4', '4 c2_1 lead v=2'], [0, 1, 1, 0, 1, 1, 1, 2, 2, 2]),
    ],
)
def test_who_acts_in_each_beat(lines: list[str], leaders: list[int]) -> None:
    spans = Trace('\n'.join(['trace 1 beat=100 end=9 premise=no', *lines]) + '\n').leaders()
    assert [span.leaders for span in spans for _ in range(span.beats)] == leaders


def test_spans_follow_on_each_other() -> None:
    for name in ('rolling-restart', 'failover-in-a-wave', 'uneven-clocks'):
        spans, end = stored(name).leaders(), stored(name).end_beat
        assert [span.first_beat for span in spans] == [0, *(span.last_beat + 1 for span in spans[:-1])]
        assert spans[-1].last_beat == end


def test_evictions() -> None:
    (eviction,) = stored('dead-node').evictions()
    assert (eviction.beat, eviction.seconds, eviction.namespace, eviction.name) == (364, 364.0, 'default', 'web-c')
    assert eviction.due == '2024-01-01T00:06:04Z'


def test_a_refused_eviction_is_none() -> None:
    text = 'trace 1 beat=100 end=9 premise=no\n1 c1_1 lead v=1\n2 c1_1 evict default/web due=2024-01-01T00:00:00Z absent\n'
    assert Trace(text).evictions() == []
    assert len(Trace(text).of(kube_replay.Eviction)) == 1


def test_it_is_a_sequence() -> None:
    trace = stored('leader-crashes')
    assert str(trace[0]) == '0 cp-east-1_1 start'
    assert [line.beat for line in trace[-2:]] == [line.beat for line in trace][-2:]
    assert trace == stored('leader-crashes') and trace != stored('uneven-clocks')
    assert str(trace).encode() == example('leader-crashes', 'trace.txt')


@pytest.mark.parametrize('text', ['', 'refused 1 /\n', 'trace 2 beat=100 end=1 premise=no\n', 'trace 1 beat=100 end=1 premise=maybe\n'])
def test_what_is_no_trace(text: str) -> None:
    with pytest.raises(kube_replay.NotATrace):
        Trace(text)


def test_to_pandas() -> None:
    pytest.importorskip('pandas')
    table = stored('dead-node').to_pandas()
    assert len(table) == 29
    taint = table[table.kind == 'taint'].iloc[0]
    assert (taint.beat, taint.node, taint.condition, taint.outcome, taint.version) == (64, 'node-c', 'unreachable', 'accepted', 32)


def test_without_pandas(monkeypatch: pytest.MonkeyPatch) -> None:
    real = builtins.__import__

    def without(name: str, *more: Any) -> Any:
        if name == 'pandas':
            raise ImportError(name)
        return real(name, *more)

    monkeypatch.setattr(builtins, '__import__', without)
    with pytest.raises(ImportError, match='needs the package pandas'):
        stored('dead-node').to_pandas()
