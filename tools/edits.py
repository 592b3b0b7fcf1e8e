"""The wrong bodies: edits of a crate's sources that its prover must refuse. A file has a line `file: PATH`, and then pairs of `old: TEXT` and
`new: TEXT`; each TEXT is within one line, and the old one stands in that file exactly once, as the pairs before left it."""
import os

from crates import TOP


def moved(name, top=TOP):
    """The edits of a crate that don't stand at the gate."""
    return edits_in(os.path.join(top, 'wrong-bodies', name))


def kept(name, top=TOP):
    """Those that do."""
    return edits_in(os.path.join(top, 'crates', name, 'must-fail'))


def edits_in(folder):
    if not os.path.isdir(folder):
        return []
    return [os.path.join(folder, name) for name in sorted(os.listdir(folder)) if name.endswith('.edit')]


def fault_of(edit, crate):
    """Why an edit can't be applied to the crate in this folder, or None where it can."""
    texts, path, old, pairs = {}, None, None, 0
    for line in text_of(edit).splitlines():
        key, _, text = line.partition(':')
        text = text.removeprefix(' ')
        if key == 'file':
            path = text.strip()
            if not os.path.isfile(os.path.join(crate, path)):
                return f'there is no file {path}'
            texts.setdefault(path, text_of(os.path.join(crate, path)))
        elif key == 'old':
            old = text
        elif key == 'new':
            if path is None or old is None:
                return 'a line `new:` has no `file:` or no `old:` before it'
            count = texts[path].count(old)
            if count != 1:
                return f'its old text stands in {path} {count} times: {old.strip()}'
            texts[path], old, pairs = texts[path].replace(old, text), None, pairs + 1
    return None if pairs and old is None else 'it has no pair of `old:` and `new:`'


def text_of(path):
    with open(path, encoding='utf-8') as file:
        return file.read()
