"""The commands as functions. What a real engine answers is compared with the examples' stored traces and with the pages."""
from __future__ import annotations

import json
import re
from pathlib import Path
from typing import Any

import pytest
from conftest import EXAMPLES, TOP, Stub, example

import kube_replay
from kube_replay import engine
from kube_replay.refusals import REFUSALS

SMALLEST: dict[str, Any] = {'version': 1, 'settings': {'endBeat': 60}, 'controllers': [{'name': 'cp-east-1'}]}


def rows(page: str, heading: str) -> list[list[str]]:
    """The rows of the first table under a heading of a page."""
    text = (TOP / 'docs' / page).read_text().split(heading, 1)[1]
    lines = re.search(r'(?m)(^\|.*\n)+', text)
    assert lines is not None
    return [[cell.strip() for cell in line.strip('|\n').split(' | ')] for line in str(lines[0]).splitlines()[2:]]


def test_the_meanings_are_those_of_the_pages() -> None:
    told = {int(code.strip('| ')): meaning for code, meaning, *_ in rows('document.md', '## Refusals')}
    traces = {int(code.strip('| ')) for code, *_ in rows('trace.md', '## Checking a trace')}
    assert set(told) | traces == set(REFUSALS)
    # Pauses have brought a rule of their own to code 7.
    assert {code for code, meaning in told.items() if meaning != REFUSALS[code]} <= {7}


@pytest.mark.parametrize('folder', EXAMPLES, ids=[folder.name for folder in EXAMPLES])
def test_examples(real_engine: engine.Engine, folder: Path) -> None:
    trace = kube_replay.replay(example(folder.name))
    assert trace.text.encode() == example(folder.name, 'trace.txt')


def test_forms_of_a_document(real_engine: engine.Engine) -> None:
    text = json.dumps(SMALLEST)
    forms: list[kube_replay.Document] = [SMALLEST, text, text.encode(), bytearray(text.encode())]
    traces = {kube_replay.replay(form).text for form in forms}
    assert len(traces) == 1


def test_check(real_engine: engine.Engine) -> None:
    checked = kube_replay.check(SMALLEST)
    assert checked == kube_replay.Checked(1, 0, 0, 0, 0, 0, 0, True)
    assert kube_replay.check(example('leader-crashes')).events == 2
    assert kube_replay.check(example('uneven-clocks')).premise is False


def test_audit(real_engine: engine.Engine) -> None:
    assert kube_replay.audit(kube_replay.Trace(example('leader-crashes', 'trace.txt'))) == kube_replay.Audited(16, 2, 0)
    with pytest.raises(kube_replay.Refused) as refused:
        kube_replay.audit(example('uneven-clocks', 'trace.txt'))
    assert (refused.value.code, refused.value.path) == (41, '/9')
    assert refused.value.meaning == 'two identities that lead at one beat: the line is the later `lead`'


def test_generate(real_engine: engine.Engine) -> None:
    assert kube_replay.generate(7, 100, 3000, 600) == kube_replay.Generated(3, 100, 3000, 600, 2, 17, 172)
    with pytest.raises(kube_replay.BadCommand):
        kube_replay.generate(7, 0, 0, 0)


def test_collect_and_place(real_engine: engine.Engine) -> None:
    collected = kube_replay.collect((TOP / 'docs' / 'pods' / 'collect.json').read_bytes())
    assert [(pod.namespace, pod.name, pod.cause) for pod in collected] == [
        ('default', 'web-1', 'orphaned'), ('default', 'db-1', 'out-of-service'), ('default', 'gone-1', 'unscheduled')]  # fmt: skip
    placed = kube_replay.place((TOP / 'docs' / 'pods' / 'place.json').read_bytes())
    assert [(pod.name, pod.tolerations, pod.nodes) for pod in placed] == [
        ('new-1', 2, ('worker-1',)), ('ds-1', 1, ('worker-1', 'worker-2', 'worker-3')), ('gone-1', 2, ('worker-1',))]  # fmt: skip


def test_state(real_engine: engine.Engine) -> None:
    stored = kube_replay.state(364, example('dead-node'))
    pods = [item['metadata']['name'] for item in stored['items'] if item['kind'] == 'Pod']
    assert pods == ['proxy-a', 'proxy-b', 'proxy-c', 'web-a', 'web-b']
    with pytest.raises(kube_replay.Refused, match='refused 34 /: '):
        kube_replay.state(365, example('dead-node'))
    with pytest.raises(kube_replay.BadCommand):
        kube_replay.state(-1, example('dead-node'))


@pytest.mark.parametrize(
    'document, code, path',
    [('{"version":1,', 1, '/'), ('\ud800', 1, '/'), ('{}', 4, '/version'), ({**SMALLEST, 'version': 9}, 2, '/version'),
     ({**SMALLEST, 'settings': {'endBeat': 60, 'beatMillis': 0}}, 6, '/settings/beatMillis'),
     ({**SMALLEST, 'controllers': [{'name': 'a'}, {'name': 'a'}]}, 31, '/controllers/1/name')],
)  # fmt: skip
def test_refusals(real_engine: engine.Engine, document: kube_replay.Document, code: int, path: str) -> None:
    with pytest.raises(kube_replay.Refused) as refused:
        kube_replay.replay(document)
    assert (refused.value.code, refused.value.path) == (code, path)


def test_a_path_may_have_blanks() -> None:
    engine.use(Stub(1, b'refused 3 /a key /b\n'))
    with pytest.raises(kube_replay.Refused) as refused:
        kube_replay.check(SMALLEST)
    assert refused.value.path == '/a key /b'


@pytest.mark.parametrize(
    'status, error',
    [(2, kube_replay.BadCommand), (3, kube_replay.InputFault), (4, kube_replay.OutputFault), (5, kube_replay.OutOfMemory),
     (6, kube_replay.BadWords), (70, kube_replay.ProgramFault), (-9, kube_replay.ProgramFault)],
)  # fmt: skip
def test_statuses(status: int, error: type[kube_replay.KubeReplayError]) -> None:
    engine.use(Stub(status, b''))
    with pytest.raises(error) as raised:
        kube_replay.check(SMALLEST)
    assert raised.value.status == status


def test_nothing_is_collected_or_placed() -> None:
    engine.use(Stub(0, b'collected pods=0\n'))
    assert kube_replay.collect('{}') == []
    engine.use(Stub(0, b'place default/a tolerations=2 nodes=-\nplaced pods=1 feasible=0\n'))
    assert kube_replay.place('{}') == [kube_replay.Placed('default', 'a', 2, ())]


def test_words_and_input() -> None:
    stub = Stub(0, b'{}')
    engine.use(stub)
    kube_replay.state(5, SMALLEST)
    assert stub.asked == [([b'state', b'5'], json.dumps(SMALLEST, separators=(',', ':')).encode())]
