"""What can go wrong in a call, one class for each exit status of the program."""
from __future__ import annotations

from kube_replay.refusals import meaning_of


class KubeReplayError(Exception):
    """What all errors of this package are."""

    status: int | None = None
    """The exit status that the program ends with, where it has one for this."""


class Refused(KubeReplayError, ValueError):
    """The input is refused: the first thing that is wrong in it, by its code and its place.

    `code` is the number of docs/document.md#refusals, of docs/trace.md#checking-a-trace for `audit`. `path` is made of the keys and
    places from the top, counted from 0 (`/events/0/process`); of a trace it is its line, counted from 1 (`/9`). `meaning` is what the
    code stands for, in words.
    """

    status = 1

    def __init__(self, code: int, path: str) -> None:
        super().__init__(code, path)
        self.code = code
        self.path = path
        self.meaning = meaning_of(code)

    def __str__(self) -> str:
        return f'refused {self.code} {self.path}: {self.meaning}'


class BadCommand(KubeReplayError, ValueError):
    """The words are no command, or a number among them is out of its range."""

    status = 2


class InputFault(KubeReplayError, OSError):
    """The program couldn't read its standard input."""

    status = 3


class OutputFault(KubeReplayError, OSError):
    """The program couldn't write its standard output."""

    status = 4


class OutOfMemory(KubeReplayError, MemoryError):
    """Memory ran out during the run."""

    status = 5


class BadWords(KubeReplayError, ValueError):
    """A word of the command isn't UTF-8."""

    status = 6


class ProgramFault(KubeReplayError, RuntimeError):
    """The program ended with a status that it has no meaning for: a signal, or what its launcher says of itself (70)."""

    def __init__(self, status: int, said: str) -> None:
        super().__init__(f'the program ended with status {status}' + (f': {said}' if said else ''))
        self.status = status


class NoEngine(KubeReplayError, ImportError):
    """Neither the shared library nor the program is found."""


class NotATrace(KubeReplayError, ValueError):
    """A text isn't a trace of format 1, or has a line that is of no form."""


BY_STATUS: dict[int, type[KubeReplayError]] = {
    error.status: error for error in (BadCommand, InputFault, OutputFault, OutOfMemory, BadWords) if error.status is not None
}
