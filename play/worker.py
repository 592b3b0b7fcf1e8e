"""A process of its own that answers one document after the other, so that a run can be ended by ending it.

On standard input stands the length of each document, eight bytes, where its objects begin, eight more, and the document; on standard output the length
of each answer and the answer, a JSON object.
"""
import json
import os
import resource
import sys

from answers import Answers

MOST_BYTES_OF_MEMORY = 4 << 30
LENGTH = 8


def read(count):
    """So many bytes of standard input; less where it ends."""
    parts = []
    while count > 0:
        part = os.read(0, min(count, 1 << 20))
        if not part:
            break
        parts.append(part)
        count -= len(part)
    return b''.join(parts)


def write(text):
    rest = memoryview(text)
    while rest:
        rest = rest[os.write(1, rest):]


def main():
    resource.setrlimit(resource.RLIMIT_AS, (MOST_BYTES_OF_MEMORY, MOST_BYTES_OF_MEMORY))
    answers = Answers()
    while len(head := read(2 * LENGTH)) == 2 * LENGTH:
        length, objects_at = (int.from_bytes(part, 'big') for part in (head[:LENGTH], head[LENGTH:]))
        try:
            told = answers.answer(read(length), objects_at)
        except MemoryError:
            told = {'fault': 'memory ran out'}
        text = json.dumps(told, separators=(',', ':'), ensure_ascii=False).encode(errors='replace')
        write(len(text).to_bytes(LENGTH, 'big') + text)


if __name__ == '__main__':
    sys.exit(main())
