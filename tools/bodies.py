"""One wrong body tried over libraries that are kept: the crate with its edit in a room of its own, and only the functions that the edit is in."""
import os
import re
import shutil
import subprocess

import edits
import proving

FUNCTION = re.compile(r'^\s*(?:pub(?:\([^)]*\))? )?(?:const )?fn (\w+)')
OWNER = re.compile(r'^impl(?:<[^>]*>)? (?:[\w<>, ]+ for )?(\w+)')
UNREAD = re.compile(r'^(?:\./)?(?:src|specs)/\S+:\d+:\d+: error: (?!`)')
NAMED_AWAY = re.compile(r'^(?:note: )?(?:\./)?proofs/.*(?:has no field|is not in scope|has no `|was not admitted)')
TOLD = re.compile(r'^(?:note: )?\S+:\d+:\d+:')
PARTS = ('src', 'specs', 'proofs')
SAYS_LITTLE = 'only a proof file names what the edit took away, so this says little of the contract: change a value and keep the names'


def functions(path, text, old):
    """The functions of a source file that have a text, each by a text that its path has, as a check prints it: a function by its module, a method by its
    type, which may stand in another module."""
    module = path.removeprefix('src/').removesuffix('.rt').removesuffix('/mod').replace('/', '::')
    outer = [] if module == 'lib' else [module]
    lines, owner, name, found = text.splitlines(), None, None, []
    for line in lines:
        if line.startswith('}'):
            owner = name = None
        owner = OWNER.match(line)[1] if OWNER.match(line) else owner
        name = FUNCTION.match(line)[1] if FUNCTION.match(line) else name
        if old in line and name is not None:
            found.append('::'.join([*([owner] if owner else outer), name]))
    return found


def changed(edit, folder):
    """The texts of the files that an edit changes, and the functions that it is in; these are None where it changes something beside functions."""
    texts, names, path, old = {}, [], None, None
    for line in edits.text_of(edit).splitlines():
        key, _, text = line.partition(':')
        text = text.removeprefix(' ')
        if key == 'file':
            path = text.strip()
            texts.setdefault(path, edits.text_of(os.path.join(folder, path)))
        elif key == 'old':
            old = text
            within = functions(path, texts[path], old) if path.startswith('src/') else []
            names = None if names is None or not within else [*names, *within]
        elif key == 'new':
            texts[path] = texts[path].replace(old, text)
    return texts, names


def make_room(top, room, name, texts):
    """Makes a folder in which a crate stands with changed texts, and all other crates as links."""
    os.makedirs(os.path.join(room, 'crates'))
    shutil.copy(os.path.join(top, 'crates.txt'), room)
    for entry in os.scandir(os.path.join(top, 'crates')):
        if entry.name != name:
            os.symlink(os.path.abspath(entry.path), os.path.join(room, 'crates', entry.name))
    for part in PARTS:
        whole = os.path.join(top, 'crates', name, part)
        if os.path.isdir(whole):
            shutil.copytree(whole, os.path.join(room, 'crates', name, part))
    for path, text in texts.items():
        with open(os.path.join(room, 'crates', name, path), 'w', encoding='utf-8') as file:
            file.write(text)
    return room


def judged(ran, is_whole):
    """What a check says of an edit: `refused`, `NOT REFUSED`, `BAD EDIT` or None where it told nothing, and the line that says why."""
    lines = ran.stdout.rstrip('\n').splitlines() or ['']
    unread = next((line for line in lines if UNREAD.match(line)), None)
    if unread:
        return 'BAD EDIT', unread
    if ran.returncode == 1 and lines[-1].startswith('logic=not-proved' if is_whole else 'only='):
        told = [line for line in lines if TOLD.match(line) and (': error' in line or line.startswith('note: '))]
        why = next((line for line in told if not NAMED_AWAY.match(line)), None)
        return 'refused', why or SAYS_LITTLE
    return ('NOT REFUSED', 'it is still proved') if ran.returncode == 0 else (None, lines[-1])


def checks(names):
    """With which flags an edit is checked: first the functions that it is in, then the whole crate."""
    only = [flag for name in dict.fromkeys(names or []) for flag in ('--only', name)]
    return [*([only] if only else []), ['--empty-contracts']]


def attempt(edit, name, top, kept, room, seconds):
    """What the prover says of one edit over the libraries of another checkout, and the line that says why."""
    folder = os.path.join(top, 'crates', name)
    why = edits.fault_of(edit, folder)
    if why:
        return 'BAD EDIT', why
    texts, names = changed(edit, folder)
    own = proving.Checkout(make_room(top, room, name, texts))
    shelf, place, told = proving.Shelf(own, kept), proving.kit(), (None, '')
    if shelf.from_source(name):
        return 'NOT TRIED', f'these have to be kept: {" ".join(shelf.from_source(name))}'
    command = [f'{place}/bin/rattle', 'check', *proving.words(shelf, name, False, place)]
    for flags in checks(names):
        try:
            ran = subprocess.run([*command, *flags], cwd=own.folder(name), stdin=subprocess.DEVNULL, stdout=subprocess.PIPE, stderr=subprocess.STDOUT,
                                 text=True, errors='replace', timeout=seconds)
        except subprocess.TimeoutExpired:
            return 'NOT TRIED', f'it took over {seconds} s'
        told = judged(ran, flags == ['--empty-contracts'])
        if told[0] in ('refused', 'BAD EDIT'):
            break
    return told if told[0] else ('NOT TRIED', told[1])
