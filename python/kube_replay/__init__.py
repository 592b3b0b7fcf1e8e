"""Who leads kube-controller-manager, from when to when: kube_replay for Python.

    import kube_replay

    trace = kube_replay.replay({'version': 1, 'settings': {'endBeat': 60}, 'controllers': [{'name': 'cp-east-1'}]})
    for term in trace.terms():
        print(term.identity, 'leads from', term.first_beat, 'for', term.seconds, 's')

Each function is a command of the program. Where the shared library is built the calls go to it, in this process; else each starts the
program. What runs behind is proved; this package isn't, it is tested. docs/python.md tells more.
"""
from kube_replay.commands import (
    Audited,
    Checked,
    Collected,
    Document,
    Generated,
    Placed,
    audit,
    check,
    collect,
    generate,
    place,
    replay,
    state,
)
from kube_replay.errors import (
    BadCommand,
    BadWords,
    InputFault,
    KubeReplayError,
    NoEngine,
    NotATrace,
    OutOfMemory,
    OutputFault,
    ProgramFault,
    Refused,
)
from kube_replay.lines import (
    Answer,
    Crash,
    CreateElection,
    CreateNodeLease,
    End,
    Eviction,
    Lead,
    Line,
    MarkUnknown,
    Mode,
    NodeLine,
    NodeStatus,
    Outcome,
    Pause,
    Put,
    Remove,
    Stall,
    Start,
    Stop,
    Swap,
    Taint,
    Untaint,
    UpdateElection,
    UpdateNodeLease,
    ZoneChange,
    read_line,
)
from kube_replay.refusals import REFUSALS
from kube_replay.trace import Span, Term, Trace

__all__ = [
    'Answer', 'Audited', 'BadCommand', 'BadWords', 'Checked', 'Collected', 'Crash', 'CreateElection', 'CreateNodeLease', 'Document',
    'End', 'Eviction', 'Generated', 'InputFault', 'KubeReplayError', 'Lead', 'Line', 'MarkUnknown', 'Mode', 'NoEngine', 'NodeLine',
    'NodeStatus', 'NotATrace', 'OutOfMemory', 'Outcome', 'OutputFault', 'Pause', 'Placed', 'ProgramFault', 'Put', 'REFUSALS', 'Refused',
    'Remove', 'Span', 'Stall', 'Start', 'Stop', 'Swap', 'Taint', 'Term', 'Trace', 'Untaint', 'UpdateElection', 'UpdateNodeLease', 'ZoneChange',
    'audit', 'check', 'collect', 'generate', 'place', 'read_line', 'replay', 'state',
]  # fmt: skip
