"""How the package reaches kube_replay: one call that takes words and an input, and gives a status and a text.

There are two engines. `Library` calls the shared library in this process. `Program` starts the program for each call. Both give the
same statuses and the same bytes.
"""
from __future__ import annotations

import ctypes
import os
import shlex
import shutil
import subprocess
import threading
from pathlib import Path
from typing import NamedTuple, Protocol, Sequence

from kube_replay.errors import NoEngine, ProgramFault

LIBRARY_VARIABLE = 'KUBE_REPLAY_LIBRARY'
PROGRAM_VARIABLE = 'KUBE_REPLAY_PROGRAM'
LIBRARY_NAME = 'libkube_replay.so'
KNOWN_STATUSES = range(7)
FIRST_ROOM = 1 << 16
MOST_KEPT_ROOM = 1 << 22
HERE = Path(__file__).resolve().parent
CHECKOUT = HERE.parent.parent


class Answer(NamedTuple):
    """What a call answers: the exit status of the program, and the bytes that it writes to standard output."""

    status: int
    text: bytes


class Engine(Protocol):
    """One call: the words behind the program's name and what it reads, to the status and the text."""

    @property
    def place(self) -> str:
        """The file that is called."""

    def run(self, words: Sequence[bytes], data: bytes) -> Answer:
        """Does what the words say with the input."""


class Room(threading.local):
    """The buffer of one thread, which grows where a text is longer."""

    def __init__(self) -> None:
        self.put, self.whole = ctypes.c_size_t(), ctypes.c_size_t()
        self.put_at, self.whole_at = ctypes.byref(self.put), ctypes.byref(self.whole)
        self.resize(FIRST_ROOM)

    def resize(self, length: int) -> None:
        self.length = length
        self.buffer = ctypes.create_string_buffer(length)


class Library:
    """The shared library, called in this process. Calls in several threads at once are fine."""

    def __init__(self, place: str) -> None:
        self._place = place
        self._call = ctypes.CDLL(place).kube_replay_run
        size, size_at = ctypes.c_size_t, ctypes.POINTER(ctypes.c_size_t)
        self._call.argtypes = [ctypes.c_char_p, size, ctypes.c_char_p, size, ctypes.c_char_p, size, size_at, size_at]
        self._call.restype = ctypes.c_uint32
        self._room = Room()

    @property
    def place(self) -> str:
        return self._place

    def run(self, words: Sequence[bytes], data: bytes) -> Answer:
        # The words go as one text, so a blank within a word has to become another byte. No command has a word with a blank.
        joined, room = b' '.join(word.replace(b' ', b'_') for word in words), self._room
        status = self._run(joined, data, room)
        if room.whole.value > room.length:
            room.resize(room.whole.value)
            status = self._run(joined, data, room)
        text = ctypes.string_at(room.buffer, room.put.value)
        if room.length > MOST_KEPT_ROOM:
            room.resize(FIRST_ROOM)
        return Answer(status, text)

    def _run(self, words: bytes, data: bytes, room: Room) -> int:
        return int(self._call(words, len(words), data, len(data), room.buffer, room.length, room.put_at, room.whole_at))


class Program:
    """The program, a process for each call."""

    def __init__(self, command: Sequence[str]) -> None:
        self.command = list(command)

    @property
    def place(self) -> str:
        return shlex.join(self.command)

    def run(self, words: Sequence[bytes], data: bytes) -> Answer:
        done = subprocess.run([*map(os.fsencode, self.command), *words], input=data, capture_output=True, check=False)
        if done.returncode not in KNOWN_STATUSES:
            raise ProgramFault(done.returncode, done.stderr.decode(errors='replace').strip()[-200:])
        return Answer(done.returncode, done.stdout)


def find_library() -> Library | None:
    """The shared library: in this package's folder, in the checkout that the package lies in, or where the system's loader finds it."""
    for place in (HERE / LIBRARY_NAME, CHECKOUT / 'c' / LIBRARY_NAME):
        if place.exists():
            return Library(str(place))
    try:
        return Library(LIBRARY_NAME)
    except OSError:
        return None


def find_program() -> Program | None:
    """The built program: of the checkout that the package lies in, or where the Debian package has it."""
    for place in (CHECKOUT / 'crates' / 'kube_replay' / 'out' / 'kube_replay', Path('/usr/libexec/kube-replay/kube_replay')):
        if os.access(place, os.X_OK):
            return Program([str(place)])
    known = shutil.which('kube_replay')
    return Program([known]) if known else None


def find_engine() -> Engine:
    """The engine that the environment names; else the shared library; else the program."""
    if os.environ.get(LIBRARY_VARIABLE):
        return Library(os.environ[LIBRARY_VARIABLE])
    if os.environ.get(PROGRAM_VARIABLE):
        return Program(shlex.split(os.environ[PROGRAM_VARIABLE]))
    found = find_library() or find_program()
    if found is None:
        names = f'{LIBRARY_VARIABLE} or {PROGRAM_VARIABLE}'
        raise NoEngine(f'neither {LIBRARY_NAME} nor the program kube_replay is found; build one, or name it by {names}')
    return found


_used: Engine | None = None


def engine() -> Engine:
    """The engine of this process, found at the first call."""
    global _used
    if _used is None:
        _used = find_engine()
    return _used


def use(chosen: Engine | None) -> None:
    """Takes this engine from now on; None has it looked for anew at the next call."""
    global _used
    _used = chosen
