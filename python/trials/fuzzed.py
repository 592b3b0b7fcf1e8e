"""Inputs that are made from the repository's own documents, traces and questions by damage: the same ones for the same seed."""
from __future__ import annotations

import json
import random
from pathlib import Path
from typing import Any, Iterator

TOP = Path(__file__).resolve().parents[2]
VALUES: list[Any] = [
    None,
    True,
    False,
    0,
    1,
    -1,
    2,
    60,
    604_800_001,
    10**19,
    1.5,
    '',
    'a',
    'A b',
    'True',
    'cp-1',
    '2024-01-01T00:00:00Z',
    [],
    {},
    [5],
]
WRONG_WORDS: list[list[str]] = [
    [],
    ['sing'],
    ['replay', 'now'],
    ['state'],
    ['state', '-1'],
    ['state', '01'],
    ['state', '604800001'],
    ['generate', '7'],
]
LONGEST = 40_000

Case = tuple[list[str], bytes]


def short_documents() -> list[bytes]:
    """The documents of the examples that aren't long to run."""
    paths = [*TOP.glob('examples/*/document.json'), TOP / 'examples' / 'one-controller.json', *TOP.glob('view/data/*.json')]
    return [path.read_bytes() for path in sorted(paths) if path.stat().st_size < LONGEST]


def traces() -> list[bytes]:
    """The stored traces."""
    return [path.read_bytes() for path in sorted([*TOP.glob('examples/*/trace.txt'), *TOP.glob('view/data/*.txt')])]


def places_of(value: Any) -> list[tuple[Any, Any]]:
    """Each container of a JSON value with each of its keys or places."""
    found: list[tuple[Any, Any]] = []
    keys = list(value) if isinstance(value, dict) else range(len(value)) if isinstance(value, list) else []
    for key in keys:
        found.append((value, key))
        found += places_of(value[key])
    return found


def damaged_json(text: bytes, draws: random.Random) -> bytes:
    """A document with some values that are others, gone, or there twice."""
    value = json.loads(text)
    for _ in range(draws.randint(0, 3)):
        places = places_of(value)
        if not places:
            break
        container, key = draws.choice(places)
        way = draws.randrange(4)
        if way == 0:
            del container[key]
        elif way == 1:
            container[key] = draws.choice(VALUES)
        elif way == 2 and isinstance(container[key], int):
            container[key] = int(container[key]) + draws.choice([-100, -1, 1, 7, 100])
        elif isinstance(container, list):
            container.insert(key, json.loads(json.dumps(container[key])))
        else:
            container[draws.choice(['beat', 'name', 'up', 'version', 'x'])] = draws.choice(VALUES)
    return json.dumps(value).encode()


def damaged_bytes(text: bytes, draws: random.Random) -> bytes:
    """A text that is cut, or has some bytes that are others."""
    damaged = bytearray(text)
    for _ in range(draws.randint(0, 3)):
        place = draws.randrange(len(damaged) + 1)
        way = draws.randrange(4)
        if way == 0:
            del damaged[place:]
        elif way == 1:
            damaged[place:place] = bytes([draws.randrange(256)])
        elif way == 2:
            damaged[place : place + 1] = draws.choice([b'', b'"', b' ', b'\n', b'\x00', b'9', b'\xff'])
        else:
            del damaged[place : place + draws.randint(1, 9)]
    return bytes(damaged)


def damaged_lines(text: bytes, draws: random.Random) -> bytes:
    """A trace with some lines gone, twice, or elsewhere."""
    lines = text.splitlines(keepends=True)
    for _ in range(draws.randint(0, 3)):
        place = draws.randrange(len(lines)) if lines else 0
        line = lines.pop(place) if lines else b''
        for _ in range(draws.choice([0, 1, 1, 2])):
            lines.insert(draws.randrange(len(lines) + 1), line)
    return b''.join(lines)


def cases(seed: int, count: int) -> Iterator[Case]:
    """Words and an input, so many times."""
    draws = random.Random(seed)
    documents, written = short_documents(), traces()
    questions = {name: (TOP / 'docs' / 'pods' / f'{name}.json').read_bytes() for name in ('collect', 'place')}
    for _ in range(count):
        word = draws.choice(['replay', 'replay', 'replay', 'check', 'state', 'audit', 'audit', 'collect', 'place', 'generate', 'wrong'])
        if word == 'audit':
            text = damaged_lines(draws.choice(written), draws)
        else:
            text = damaged_json(questions.get(word) or draws.choice(documents), draws)
        if draws.random() < 0.2:
            text = damaged_bytes(text, draws)
        if word == 'generate':
            yield [word, *(str(draws.randint(0, most)) for most in (2**64, 20, 60, 300))], text
        elif word == 'state':
            yield [word, str(draws.choice([0, 4, 63, 210, 364, 1000]))], text
        else:
            yield draws.choice(WRONG_WORDS) if word == 'wrong' else [word], text
