"""A hunt for the worst script: which delays, losses, crashes and clocks within given bounds make a measure worst.

    python3 -m kube_replay.hunt two-lead DOCUMENT BOUNDS > worst.json

It needs Hypothesis, which makes the scripts and shrinks the worst one. What is found is a document that anybody replays, so nothing of the
hunt has to be trusted. docs/python.md tells more.
"""
from __future__ import annotations

from importlib import import_module
from typing import TYPE_CHECKING, Any

from kube_replay.hunt.bounds import Bounds, WrongBounds, read_bounds
from kube_replay.hunt.measures import MEASURES, Measure, Run

if TYPE_CHECKING:
    from kube_replay.hunt.scripts import Script, document_of
    from kube_replay.hunt.search import Found, Hunt

__all__ = ['Bounds', 'Found', 'Hunt', 'MEASURES', 'Measure', 'Run', 'Script', 'WrongBounds', 'document_of', 'read_bounds']

# What needs Hypothesis is imported when it is first asked for, so that the command line can say in a sentence that it is missing.
WITH_HYPOTHESIS = {'Script': 'scripts', 'document_of': 'scripts', 'Found': 'search', 'Hunt': 'search'}


def __getattr__(name: str) -> Any:
    if name not in WITH_HYPOTHESIS:
        raise AttributeError(f'module {__name__!r} has no attribute {name!r}')
    return getattr(import_module(f'{__name__}.{WITH_HYPOTHESIS[name]}'), name)
