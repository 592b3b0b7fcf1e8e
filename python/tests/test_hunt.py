"""The hunt: bounds, scripts, measures, and a search over an engine that is made up."""
from __future__ import annotations

import json
import subprocess
import sys
from pathlib import Path
from typing import Any, Sequence

import pytest
from conftest import TOP, Stub, example

from kube_replay import Trace, engine

pytest.importorskip('hypothesis')

from kube_replay.hunt import MEASURES, Hunt, Run, Script, WrongBounds, document_of, read_bounds  # noqa: E402
from kube_replay.hunt.bounds import Range, Waits  # noqa: E402
from kube_replay.hunt.measures import read_time  # noqa: E402

DOCUMENT: dict[str, Any] = {
    'version': 1,
    'settings': {'endBeat': 100},
    'controllers': [{'name': 'a'}, {'name': 'b', 'ratePpm': 900000}],
    'kubelets': [{'node': 'n1'}],
    'events': [{'beat': 5, 'type': 'crash', 'process': 'a'}],
}


def run_of(name: str) -> Run:
    return Run(json.loads(example(name)), Trace(example(name, 'trace.txt')))


def test_bounds() -> None:
    given = {
        'clocks': {'ratePpm': [900_000, 1_100_000]},
        'delays': {'most': 2, 'beats': [0, 50], 'requestBeats': [1, 5], 'replyBeats': 3},
        'crashes': [{'most': 1, 'processes': ['a']}, {'most': 2, 'processes': ['kubelet/*']}],
        'losses': {'most': 1, 'of': ['requests']},
    }
    bounds = read_bounds(given, DOCUMENT)
    (clock,) = bounds.clocks
    assert (clock.processes, clock.numbers) == (('a', 'b'), {'ratePpm': Range(900_000, 1_100_000)})
    delays, losses, leaders, nodes = bounds.allowances
    assert (delays.most, delays.beats, delays.processes) == (2, Range(0, 50), ('a', 'b'))
    assert delays.numbers == {'requestBeats': Range(1, 5), 'replyBeats': Range(3, 3)}
    assert losses.switches == ('requests',)
    assert (leaders.processes, leaders.beats, nodes.processes, nodes.most) == (('a',), Range(0, 100), ('kubelet/n1',), 2)


@pytest.mark.parametrize(
    'given, message',
    [([], '/: not an object'), ({'delay': {}}, '/delay: an unknown key'), ({'crashes': {}}, '/crashes/most: is missing'),
     ({'crashes': {'most': -1}}, '/crashes/most: not a range within 0 to 100'),
     ({'crashes': {'most': 1, 'beats': [0, 101]}}, '/crashes/beats: not a range within 0 to 100'),
     ({'crashes': {'most': 1, 'beats': [9, 2]}}, '/crashes/beats: not a range'),
     ({'crashes': [{'most': 1, 'processes': ['c']}]}, '/crashes/0/processes/0: the document has no process c'),
     ({'delays': {'most': 1, 'requestBeats': [1, 2]}}, '/delays/replyBeats: is missing'),
     ({'delays': {'most': 1, 'requestBeats': [1, 2], 'replyBeats': [0, 2]}}, '/delays/replyBeats: not a range within 1 to 6000'),
     ({'stops': {'most': 1, 'processes': ['kubelet/n1']}}, '/stops/processes: a `stop` is of controllers alone'),
     ({'losses': {'most': 1, 'of': ['all']}}, '/losses/of: not a list of requests, replies'),
     ({'clocks': {'ratePpm': [1, 2]}}, '/clocks/ratePpm: not a range within 500000 to 2000000'),
     ({'waits': {}}, '/waits/most: is missing'), ({'waits': {'most': 0}}, '/waits/most: not a range within 1 to 100'),
     ({'waits': {'most': 2, 'thousandths': [999, 1000]}}, '/waits/thousandths: not a range within 1000 to 2200'),
     ({'waits': {'most': 2, 'processes': ['kubelet/*']}}, '/waits/processes: waits are of controllers alone'),
     ({'crashes': {'most': True}}, '/crashes/most: not two whole numbers')],
)  # fmt: skip
def test_wrong_bounds(given: Any, message: str) -> None:
    with pytest.raises(WrongBounds) as wrong:
        read_bounds(given, DOCUMENT)
    assert str(wrong.value).startswith(message)


def test_a_script_is_added_to_a_document() -> None:
    crash = {'beat': 5, 'type': 'crash', 'process': 'b'}
    early = {'beat': 1, 'type': 'start', 'process': 'b'}
    added = document_of(Script({'a': {'ratePpm': 1_000_001}, 'kubelet/n1': {'offsetMillis': 7}}, (early, crash)), DOCUMENT)
    assert added['events'] == [early, DOCUMENT['events'][0], crash]
    assert added['controllers'] == [{'name': 'a', 'ratePpm': 1_000_001}, {'name': 'b', 'ratePpm': 900000}]
    assert added['kubelets'] == [{'node': 'n1', 'offsetMillis': 7}]
    assert (added['version'], added['settings']) == (1, {'endBeat': 100})


def test_waits() -> None:
    given = {'waits': [{'most': 3, 'processes': ['b']}, {'most': 2, 'thousandths': [1_500, 1_600], 'processes': ['a']}]}
    assert read_bounds(given, DOCUMENT).waits == (Waits(('b',), 3, Range(1_000, 2_200)), Waits(('a',), 2, Range(1_500, 1_600)))
    assert read_bounds({'waits': {'most': 1}}, DOCUMENT).waits == (Waits(('a', 'b'), 1, Range(1_000, 2_200)),)
    added = document_of(Script({}, (), {'b': (1_000, 2_200)}), DOCUMENT)
    assert added['controllers'] == [{'name': 'a'}, {'name': 'b', 'ratePpm': 900000, 'waits': [1_000, 2_200]}]
    assert (added['version'], added['kubelets'], added['events']) == (4, DOCUMENT['kubelets'], DOCUMENT['events'])
    paused = document_of(Script({}, ({'beat': 1, 'type': 'pause', 'process': 'a', 'beats': 4},)), {**DOCUMENT, 'version': 4})
    assert paused['version'] == 4


def test_settings() -> None:
    bounds = read_bounds({'settings': [{'release': 'stop'}, {'release': 'own', 'inRelease': 'acts'}]}, DOCUMENT)
    assert bounds.settings == ({'release': 'stop'}, {'release': 'own', 'inRelease': 'acts'})
    added = document_of(Script({}, (), settings=bounds.settings[1]), DOCUMENT)
    assert added['version'] == 4 and added['settings'] == {**DOCUMENT['settings'], 'release': 'own', 'inRelease': 'acts'}


def test_pauses_of_one_process_keep_their_distance() -> None:
    def pause(beat: int, beats: int, process: str = 'a') -> dict[str, Any]:
        return {'beat': beat, 'type': 'pause', 'process': process, 'beats': beats}

    script = Script({}, (pause(1, 4), pause(5, 1), pause(5, 1, 'b'), pause(6, 2), pause(8, 1)))
    added = document_of(script, {**DOCUMENT, 'events': []})
    assert added['version'] == 3
    assert added['events'] == [pause(1, 4), pause(5, 1, 'b'), pause(6, 2)]


@pytest.mark.parametrize(
    'measure, name, value',
    [('two-lead', 'uneven-clocks', 5), ('two-lead', 'upstream-timeouts', 11), ('two-lead', 'leader-crashes', None),
     ('nobody-leads', 'leader-crashes', 164), ('failover', 'leader-crashes', 164), ('failover', 'first-election', None),
     ('nobody-leads', 'first-election', 4), ('late-taint', 'dead-node', 42), ('late-taint', 'leader-crashes', None),
     ('late-eviction', 'dead-node', 0), ('late-eviction', 'leader-crashes', None), ('healthy-evicted', 'dead-node', None)],
)  # fmt: skip
def test_measures(measure: str, name: str, value: float | None) -> None:
    assert MEASURES[measure].value(run_of(name)) == value


def test_a_failover_ends_with_a_leader() -> None:
    head = 'trace 1 beat=100 end=50 premise=no\n4 a_1 lead v=1\n10 a_1 crash\n20 b_1 lead v=2\n'
    assert MEASURES['failover'].value(Run(DOCUMENT, Trace(head))) == 10
    assert MEASURES['failover'].value(Run(DOCUMENT, Trace(head + '40 b_1 pause beats=5\n'))) == 10
    # nobody leads at the end, where a sweep says `never`
    assert MEASURES['failover'].value(Run(DOCUMENT, Trace(head + '30 b_1 crash\n'))) is None
    assert MEASURES['nobody-leads'].value(Run(DOCUMENT, Trace(head + '30 b_1 crash\n'))) == 21


def test_pods_of_healthy_nodes() -> None:
    pods = [
        {'apiVersion': 'v1', 'kind': 'Pod', 'metadata': {'name': 'p' + node}, 'spec': {'nodeName': node}} for node in ('n1', 'n2', 'n3')
    ]
    kubelets = [{'node': 'n1'}, {'node': 'n2'}, {'node': 'n3', 'up': False}]
    objects = {'apiVersion': 'v1', 'kind': 'List', 'items': pods}
    document: dict[str, Any] = {**DOCUMENT, 'kubelets': kubelets, 'objects': objects}
    evicted = ''.join(f'9 a_1 evict default/p{node} due=2024-01-01T00:00:00Z v=7\n' for node in ('n1', 'n2', 'n3'))
    trace = Trace('trace 1 beat=1000 end=9 premise=no\n2 kubelet/n2_1 crash\n' + evicted)
    assert MEASURES['healthy-evicted'].value(Run(document, trace)) == 1
    assert MEASURES['late-eviction'].value(Run(document, trace)) == 9
    sets = [{'name': 'p', 'on': [{'node': 'n3', 'pods': 1}, {'node': 'n1', 'pods': 2}]}]
    by_sets = Run({**document, 'objects': None, 'podSets': sets}, trace)
    assert by_sets.nodes_of_pods == {'default/p-0': 'n3', 'default/p-1': 'n1', 'default/p-2': 'n1'}
    later = {**document, 'settings': {'epoch': '2024-01-01T01:00:00.5+01:00'}}
    assert MEASURES['late-eviction'].value(Run(later, trace)) == 9.5


def test_times() -> None:
    assert read_time('2024-01-01T00:00:00.123456789Z').microsecond == 123456
    with pytest.raises(ValueError):
        read_time('yesterday')


class OneLeads(Stub):
    """An engine in which nobody leads for as many beats as the greatest delay of a reply, after the start of `b`."""

    def __init__(self) -> None:
        super().__init__(0, b'')

    def run(self, words: Sequence[bytes], data: bytes) -> engine.Answer:
        events = json.loads(data)['events']
        wait = max((event['replyBeats'] for event in events if event['type'] == 'delay' and event['process'] == 'b'), default=1)
        return engine.Answer(0, b'trace 1 beat=100 end=100 premise=no\n%d a_1 lead v=1\n' % wait)


def test_the_worst_is_found_and_shrunk() -> None:
    engine.use(OneLeads())
    bounds = read_bounds({'delays': {'most': 3, 'requestBeats': [1, 30], 'replyBeats': [1, 30]}, 'crashes': {'most': 2}}, DOCUMENT)
    hunt = Hunt(DOCUMENT, bounds, MEASURES['nobody-leads'], scripts=1_500, seconds=600)
    found = hunt.run()
    assert found is not None and found.value == 30
    assert found.script.events == ({'beat': 0, 'type': 'delay', 'process': 'b', 'requestBeats': 1, 'replyBeats': 30},)
    assert found.document['events'] == [*found.script.events, *DOCUMENT['events']]


class LongWaits(Stub):
    """An engine in which nobody leads for as many beats as the second wait of `b` is longer than a retry period, in hundredths."""

    def __init__(self) -> None:
        super().__init__(0, b'')

    def run(self, words: Sequence[bytes], data: bytes) -> engine.Answer:
        waits = json.loads(data)['controllers'][1]['waits']
        return engine.Answer(0, b'trace 1 beat=100 end=100 premise=no\n%d a_1 lead v=1\n' % (1 + (waits[1] - 1_000) // 100))


def test_the_worst_waits_are_found_and_shrunk() -> None:
    engine.use(LongWaits())
    bounds = read_bounds({'waits': {'most': 3, 'processes': ['b']}, 'crashes': {'most': 2}}, DOCUMENT)
    found = Hunt(DOCUMENT, bounds, MEASURES['nobody-leads'], scripts=1_500, seconds=600).run()
    assert found is not None and found.value == 13
    assert (found.script.events, found.script.waits) == ((), {'b': (1_000, 2_200, 1_000)})


def test_a_hunt_ends_where_it_is_bad_enough() -> None:
    engine.use(OneLeads())
    bounds = read_bounds({'delays': {'most': 3, 'requestBeats': [1, 30], 'replyBeats': [1, 30]}}, DOCUMENT)
    found = Hunt(DOCUMENT, bounds, MEASURES['nobody-leads'], scripts=1_500, seconds=600).run(at_least=7)
    assert found is not None and found.value == 7
    assert [event['replyBeats'] for event in found.script.events] == [7]


def test_a_hunt_that_finds_nothing() -> None:
    engine.use(OneLeads())
    bounds = read_bounds({'crashes': {'most': 2}}, DOCUMENT)
    hunt = Hunt(DOCUMENT, bounds, MEASURES['two-lead'], scripts=300, seconds=600)
    assert hunt.run() is None
    assert 0 < hunt.tried <= 300


def test_a_hunt_without_room() -> None:
    engine.use(OneLeads())
    assert Hunt(DOCUMENT, read_bounds({}, DOCUMENT), MEASURES['two-lead'], scripts=50, seconds=600).run() is None
    assert Hunt(DOCUMENT, read_bounds({}, DOCUMENT), MEASURES['two-lead'], scripts=0, seconds=600).run() is None


def hunt(*words: str, folder: Path) -> subprocess.CompletedProcess[str]:
    environment = {
        'PYTHONPATH': str(TOP / 'python'),
        'PATH': '/usr/bin:/bin',
        'KUBE_REPLAY_PROGRAM': "/bin/sh -c 'echo refused 4 /version; exit 1'",
    }
    return subprocess.run(
        [sys.executable, '-m', 'kube_replay.hunt', *words], cwd=folder, env=environment, capture_output=True, text=True, check=False
    )


def test_command_line_faults(tmp_path: Path) -> None:
    (tmp_path / 'document.json').write_text('{}')
    assert hunt('two-lead', 'document.json', 'document.json', folder=tmp_path).stderr.startswith('hunt: refused 4 /version: ')
    assert hunt('two-lead', 'document.json', 'document.json', folder=tmp_path).returncode == 2
    assert hunt('two-lead', 'missing.json', 'document.json', folder=tmp_path).returncode == 2
    assert hunt('three-lead', 'document.json', 'document.json', folder=tmp_path).returncode == 2
