"""`python -m kube_replay`: the program's words, its bytes and its exit statuses."""
from __future__ import annotations

import os
import sys

from kube_replay.engine import Answer, Engine, Program, engine
from kube_replay.errors import KubeReplayError, NoEngine

HELP = """python -m kube_replay is the command kube_replay. It reads standard input and writes standard output.

  check < DOCUMENT        says in one line what is in a document (JSON), and whether its settings rule out two leaders
  replay < DOCUMENT       writes its trace: who leads, each write of the Lease, taints, evictions
  state BEAT < DOCUMENT   writes what is stored after a beat, as a v1 List (JSON)
  audit < TRACE           reads the text of a trace and says whether it is safe
  collect < LIST          which pods the garbage collector would delete now
  place < LIST            where pods without a node may run, by taints
  generate SEED NODES PODS BEATS

Exit status: 0 answered, 1 the input is refused, 2 no such command, 3 the input can't be read, 4 the output can't be written,
5 memory ran out, 6 a word isn't UTF-8, 70 neither the shared library nor the program can be run.

python -m kube_replay.hunt searches for the worst script.
"""
# Of an input with more bytes than this, the bytes after the next one make no difference.
MOST_BYTES = 16_777_216
USAGE, INPUT_FAULT, OUTPUT_FAULT, BAD_WORDS, NO_ENGINE = 2, 3, 4, 6, 70


def read_input() -> bytes:
    """Standard input, up to a byte more than any input may have."""
    parts, left = [], MOST_BYTES + 1
    while left > 0:
        part = os.read(0, min(left, 1 << 20))
        if not part:
            break
        parts.append(part)
        left -= len(part)
    return b''.join(parts)


def write_output(text: bytes) -> None:
    """Writes all of a text to standard output."""
    rest = memoryview(text)
    while rest:
        rest = rest[os.write(1, rest) :]


def answer(used: Engine, words: list[bytes]) -> Answer:
    """The answer to the words. Standard input is read only by a command that reads it."""
    alone = used.run(words, b'')
    if alone.status in (USAGE, BAD_WORDS) or words[0] == b'generate':
        return alone
    try:
        data = read_input()
    except OSError:
        return Answer(INPUT_FAULT, b'')
    return used.run(words, data)


def run(words: list[bytes]) -> int:
    """Does what the words say, and gives the exit status."""
    used = engine()
    if isinstance(used, Program):
        os.execvp(os.fsencode(used.command[0]), [*map(os.fsencode, used.command), *words])
    status, text = answer(used, words)
    try:
        write_output(text)
    except OSError:
        return OUTPUT_FAULT
    return status


def main() -> int:
    """The command line."""
    words = [os.fsencode(word) for word in sys.argv[1:]]
    if words in ([b'--help'], [b'-h'], [b'help']):
        sys.stdout.write(HELP)
        return 0
    try:
        return run(words)
    except (NoEngine, OSError, KubeReplayError) as fault:
        print(f'kube_replay: {fault}', file=sys.stderr)
        return NO_ENGINE


if __name__ == '__main__':
    sys.exit(main())
