"""What a hunt makes worst: each measure is read off a run, which is a document and its trace."""
from __future__ import annotations

import re
from dataclasses import dataclass
from datetime import datetime, timedelta, timezone
from functools import cached_property
from typing import Any, Callable, Mapping

from kube_replay.lines import Crash, MarkUnknown, Start, Taint
from kube_replay.trace import Trace

EPOCH = '2024-01-01T00:00:00Z'
TIME = re.compile(r'(\d{4}-\d\d-\d\dT\d\d:\d\d:\d\d)(?:\.(\d{1,9}))?(Z|[+-]\d\d:\d\d)')


@dataclass(frozen=True)
class Run:
    """A document and the trace that it has."""

    document: Mapping[str, Any]
    trace: Trace

    @cached_property
    def epoch(self) -> datetime:
        """The time of day at beat 0."""
        return read_time(self.document['settings'].get('epoch', EPOCH))

    @cached_property
    def nodes_of_pods(self) -> dict[str, str]:
        """The node of each pod that the document names, by `NAMESPACE/NAME`."""
        items = list((self.document.get('objects') or {}).get('items', []))
        items += [event['object'] for event in self.document.get('events', []) if event['type'] == 'put']
        nodes = {pod_key(item): (item.get('spec') or {}).get('nodeName') or '' for item in items if item.get('kind') == 'Pod'}
        for each in self.document.get('podSets', []):
            placed = [member['node'] for member in each['on'] for _ in range(member['pods'])]
            nodes.update((f"{each.get('namespace', 'default')}/{each['name']}-{number}", node) for number, node in enumerate(placed))
        return nodes

    @cached_property
    def healthy_nodes(self) -> set[str]:
        """The nodes whose kubelet is up from the first beat to the last."""
        up = {each['node'] for each in self.document.get('kubelets', []) if each.get('up', True)}
        return up - {line.process.removeprefix('kubelet/') for line in self.trace.of(Crash)}


def pod_key(item: Mapping[str, Any]) -> str:
    """NAMESPACE/NAME of a manifest."""
    return '{}/{}'.format(item['metadata'].get('namespace') or 'default', item['metadata']['name'])


def read_time(text: str) -> datetime:
    """A time of docs/document.md; digits after the sixth are dropped."""
    read = TIME.fullmatch(text)
    if read is None:
        raise ValueError(f'{text} is no time')
    offset = '+00:00' if read[3] == 'Z' else read[3]
    return datetime.fromisoformat(f'{read[1]}.{(read[2] or "0").ljust(6, "0")[:6]}{offset}').astimezone(timezone.utc)


# Each answers None where a run has nothing to measure.


def nobody_leads(run: Run) -> float | None:
    """The longest span in which nobody acts as the leader."""
    return max((span.beats for span in run.trace.leaderless()), default=None)


def failover(run: Run) -> float | None:
    """The longest such span from one leader to the next. Where nobody leads at the end there is none, and a sweep says `never`."""
    spans = run.trace.leaders()
    if spans[-1].leaders == 0:
        return None
    return max((span.beats for span in spans if span.leaders == 0 and span.first_beat > 0), default=None)


def two_lead(run: Run) -> float | None:
    """How many beats two or more act as the leader at once."""
    return sum(span.beats for span in run.trace.two_leaders()) or None


def healthy_evicted(run: Run) -> float | None:
    """How many pods are evicted from nodes whose kubelet was up all the time."""
    healthy = run.healthy_nodes
    pods = [f'{line.namespace}/{line.name}' for line in run.trace.evictions()]
    return sum(run.nodes_of_pods.get(pod) in healthy for pod in pods) or None


def late_eviction(run: Run) -> float | None:
    """How many seconds of true time after its due a pod is evicted, the latest one."""
    return max(
        ((run.epoch + timedelta(seconds=line.seconds) - line.due_time).total_seconds() for line in run.trace.evictions()), default=None
    )


def late_taint(run: Run) -> float | None:
    """How long after the death of its kubelet a node gets its taint, the latest one. One that never gets it doesn't count."""
    down: dict[str, int] = {}
    waits = []
    for line in run.trace:
        if isinstance(line, Crash):
            down[line.process.removeprefix('kubelet/')] = line.beat
        elif isinstance(line, Start):
            down.pop(line.process.removeprefix('kubelet/'), None)
        elif isinstance(line, Taint) and line.answer.accepted and line.node in down:
            waits.append(line.beat - down.pop(line.node))
    return max(waits, default=None)


# What the search climbs by, where a measure has nothing yet: the nearer, the greater. It is less than each value of the measure.

FAR = -1e9


def nearness_of_two_leaders(run: Run) -> float:
    """How near two terms come, as a number below zero: minus the beats between the end of one and the next lead of another."""
    terms = run.trace.terms()
    gaps = [after.first_beat - before.last_beat for before, after in zip(terms, terms[1:])]
    return -float(min(gaps, default=2 * run.trace.end_beat + 2))


def nearness_of_eviction(run: Run) -> float:
    """Marks and taints of nodes whose kubelet is up."""
    healthy = run.healthy_nodes
    marks = sum(line.node in healthy for line in run.trace.of(MarkUnknown))
    taints = sum(line.node in healthy for line in run.trace.of(Taint))
    return -1 / (1 + marks + 10 * taints)


def _far(_: Run) -> float:
    return FAR


@dataclass(frozen=True)
class Measure:
    """A measure by its name: what it tells in words, its unit, its value, and what the search climbs by where it has none."""

    name: str
    words: str
    unit: str
    value: Callable[[Run], float | None]
    nearness: Callable[[Run], float] = _far

    def told(self, value: float, beat_millis: int) -> str:
        """A value in words."""
        if self.unit == 'beats':
            return f'{value:.0f} beats ({value * beat_millis / 1000:.6g} s)'
        return f'{value:.6g} {self.unit}'


MEASURES: dict[str, Measure] = {
    measure.name: measure
    for measure in (
        Measure('nobody-leads', 'the longest time in which nobody leads', 'beats', nobody_leads),
        Measure('failover', 'the longest time from one leader to the next; a trace that ends without one has none', 'beats', failover),
        Measure('two-lead', 'for how long two or more lead at once', 'beats', two_lead, nearness_of_two_leaders),
        Measure(
            'healthy-evicted', 'pods evicted from nodes whose kubelet was up all the time', 'pods', healthy_evicted, nearness_of_eviction
        ),
        Measure('late-eviction', 'how long after its due a pod is evicted, the latest', 's', late_eviction),
        Measure('late-taint', "how long after its kubelet's death a node is tainted, the latest", 'beats', late_taint),
    )
}
