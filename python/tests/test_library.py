"""The call of a shared library, over one that is made here: it answers its words and its input, and how often it was called."""
from __future__ import annotations

import shutil
import subprocess
import threading
from pathlib import Path

import pytest

from kube_replay.engine import FIRST_ROOM, MOST_KEPT_ROOM, Library

SOURCE = r'''
#include <stddef.h>
#include <stdint.h>

static _Thread_local unsigned calls;

uint32_t kube_replay_run(const uint8_t *words, size_t words_length, const uint8_t *input, size_t input_length, uint8_t *buffer, size_t room,
                         size_t *put, size_t *whole) {
    *whole = words_length + 1 + input_length + 1;
    *put = room < *whole ? room : *whole;
    calls++;
    for (size_t at = 0; at < *put; at++)
        buffer[at] = at < words_length ? words[at] : at == words_length ? '|' : at + 1 == *whole ? '0' + calls
            : input[at - words_length - 1];
    return input_length > 0 && input[0] == 'r' ? 1 : 0;
}
'''


@pytest.fixture(scope='module')
def library(tmp_path_factory: pytest.TempPathFactory) -> Library:
    compiler = shutil.which('cc') or shutil.which('gcc')
    if compiler is None:
        pytest.skip('there is no C compiler')
    folder: Path = tmp_path_factory.mktemp('library')
    (folder / 'stub.c').write_text(SOURCE)
    subprocess.run([compiler, '-shared', '-fPIC', '-o', str(folder / 'libstub.so'), str(folder / 'stub.c')], check=True)
    return Library(str(folder / 'libstub.so'))


def in_thread(library: Library, words: list[bytes], data: bytes) -> tuple[int, bytes]:
    """A call in a thread of its own, so that the calls are counted from 1."""
    found: list[tuple[int, bytes]] = []
    thread = threading.Thread(target=lambda: found.append(library.run(words, data)))
    thread.start()
    thread.join()
    return found[0]


def test_words_and_bytes(library: Library) -> None:
    assert in_thread(library, [b'state', b'5'], b'\x00\xff\n') == (0, b'state 5|\x00\xff\n1')
    assert in_thread(library, [], b'') == (0, b'|1')
    assert in_thread(library, [b'a', b''], b'r') == (1, b'a |r1')
    assert in_thread(library, [b'state 5'], b'') == (0, b'state_5|1')


@pytest.mark.parametrize('length, calls', [(FIRST_ROOM - 1, b'1'), (FIRST_ROOM, b'1'), (FIRST_ROOM + 1, b'2'), (MOST_KEPT_ROOM + 1, b'2')])
def test_texts_about_as_long_as_the_buffer(library: Library, length: int, calls: bytes) -> None:
    data = b'x' * (length - 2)
    assert in_thread(library, [], data) == (0, b'|' + data + calls)


def test_the_buffer_is_used_again(library: Library) -> None:
    for length in (1, FIRST_ROOM * 2, 5, MOST_KEPT_ROOM * 2, 7):
        assert library.run([b'w'], b'y' * length).text[:-1] == b'w|' + b'y' * length
