"""What the tests share. Expected values come from the repository's pages and from the examples' stored traces."""
from __future__ import annotations

from pathlib import Path
from typing import Iterator, Sequence

import pytest

from kube_replay import engine
from kube_replay.errors import NoEngine

TOP = Path(__file__).resolve().parents[2]
EXAMPLES = sorted(path.parent for path in TOP.glob('examples/*/trace.txt'))


class Stub:
    """An engine that gives one answer, and keeps what it was asked."""

    place = 'stub'

    def __init__(self, status: int, text: bytes) -> None:
        self.answer = engine.Answer(status, text)
        self.asked: list[tuple[list[bytes], bytes]] = []

    def run(self, words: Sequence[bytes], data: bytes) -> engine.Answer:
        self.asked.append((list(words), data))
        return self.answer


@pytest.fixture
def real_engine() -> engine.Engine:
    """The shared library or the program; tests that need one are skipped where there is neither."""
    try:
        return engine.engine()
    except NoEngine as fault:
        pytest.skip(str(fault))


@pytest.fixture(autouse=True)
def found_anew() -> Iterator[None]:
    """No test leaves its engine behind."""
    yield
    engine.use(None)


def example(name: str, file: str = 'document.json') -> bytes:
    """A file of an example."""
    return (TOP / 'examples' / name / file).read_bytes()
