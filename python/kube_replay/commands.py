"""The commands of kube_replay as functions. docs/document.md has what a document is, docs/trace.md what a trace is."""
from __future__ import annotations

import json
from dataclasses import dataclass
from typing import Any, Mapping, Union

from kube_replay.engine import engine
from kube_replay.errors import BY_STATUS, KubeReplayError, ProgramFault, Refused
from kube_replay.trace import Trace

Document = Union[Mapping[str, Any], str, bytes, bytearray, memoryview]
"""A document: what `json.loads` gives, or its JSON as text or bytes."""


@dataclass(frozen=True)
class Checked:
    """What `check` says of a document. `skipped` counts objects of kinds that aren't read."""

    controllers: int
    kubelets: int
    nodes: int
    leases: int
    pods: int
    skipped: int
    events: int
    premise: bool
    """Whether two leaders at one beat are ruled out."""


@dataclass(frozen=True)
class Generated:
    """What `generate` counts: `leads`, and the taints and evictions that the store took. A beat is a second."""

    controllers: int
    nodes: int
    pods: int
    beats: int
    leads: int
    taints: int
    evictions: int


@dataclass(frozen=True)
class Audited:
    """What `audit` counts in a safe trace: all lines, those that say `lead`, and those that say `taint`."""

    lines: int
    terms: int
    taints: int


@dataclass(frozen=True)
class Collected:
    """A pod that the garbage collector would delete; `cause` is `terminated`, `out-of-service`, `orphaned` or `unscheduled`."""

    namespace: str
    name: str
    cause: str


@dataclass(frozen=True)
class Placed:
    """A pod without a node, the number of its tolerations (the defaults among them), and the nodes on which it may run."""

    namespace: str
    name: str
    tolerations: int
    nodes: tuple[str, ...]


def encode(document: Document) -> bytes:
    """The bytes of a document. A mapping is written as JSON; a text that UTF-8 can't say is refused with code 1 by every command."""
    if isinstance(document, Mapping):
        return json.dumps(document, separators=(',', ':'), allow_nan=False).encode()
    if isinstance(document, str):
        return document.encode(errors='surrogatepass')
    return bytes(document)


def ask(*words: str, data: bytes = b'') -> bytes:
    """The text that a command writes. Raises `Refused`, or the error of another status."""
    status, text = engine().run([word.encode(errors='surrogatepass') for word in words], data)
    if status == 0:
        return text
    if status == 1:
        raise refusal(text)
    error = BY_STATUS.get(status)
    raise ProgramFault(status, '') if error is None else _other(error, words)


def _other(error: type[KubeReplayError], words: tuple[str, ...]) -> KubeReplayError:
    return error(f'kube_replay {" ".join(words)}: status {error.status}')


def refusal(text: bytes) -> Refused:
    """The refusal that a line `refused CODE PATH` tells."""
    _, code, path = text.decode().rstrip('\n').split(' ', 2)
    return Refused(int(code), path)


def replay(document: Document) -> Trace:
    """Runs a document, and gives its trace."""
    return Trace(ask('replay', data=encode(document)))


def check(document: Document) -> Checked:
    """Reads a document, and tells what is in it and whether two leaders are ruled out."""
    counts = _counts(ask('check', data=encode(document)))
    premise = counts.pop('premise') == 'yes'
    return Checked(**{name: int(value) for name, value in counts.items()}, premise=premise)


def generate(seed: int, nodes: int, pods: int, beats: int) -> Generated:
    """Makes a cluster from a seed, runs it for so many beats of a second, and counts.

    `seed` is at most 2**64 - 1, `nodes` 1 to 1,000, `pods` at most 30,000, `beats` at most 100,000; else `BadCommand`.
    """
    counts = _counts(ask('generate', *map(str, (seed, nodes, pods, beats))))
    return Generated(**{name: int(value) for name, value in counts.items()})


def audit(trace: Trace | str | bytes) -> Audited:
    """Reads the text of a trace, whoever wrote it, and counts; raises `Refused` with the line at fault where it isn't safe."""
    text = trace.text if isinstance(trace, Trace) else trace
    counts = _counts(ask('audit', data=encode(text)))
    return Audited(**{name: int(value) for name, value in counts.items()})


def collect(question: Document) -> list[Collected]:
    """Which pods the garbage collector would delete, of an input as docs/pods.md has it."""
    rows = [line.split(' ') for line in ask('collect', data=encode(question)).decode().splitlines()[:-1]]
    return [Collected(*_pod(pod), cause) for _, pod, cause in rows]


def place(question: Document) -> list[Placed]:
    """On which nodes each pod without one may run, by taints and tolerations, of an input as docs/pods.md has it."""
    rows = [line.split(' ') for line in ask('place', data=encode(question)).decode().splitlines()[:-1]]
    return [Placed(*_pod(pod), int(count.partition('=')[2]), _nodes(nodes.partition('=')[2])) for _, pod, count, nodes in rows]


def state(beat: int, document: Document) -> dict[str, Any]:
    """What is stored after a beat, 0 to 604,800,000, as a `v1` List; raises `Refused` with code 34 where the document ends before it."""
    stored: dict[str, Any] = json.loads(ask('state', str(beat), data=encode(document)))
    return stored


def _counts(text: bytes) -> dict[str, str]:
    return dict(word.split('=', 1) for word in text.decode().split() if '=' in word)


def _pod(text: str) -> tuple[str, str]:
    namespace, _, name = text.partition('/')
    return namespace, name


def _nodes(text: str) -> tuple[str, ...]:
    return () if text == '-' else tuple(text.split(','))
