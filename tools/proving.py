"""One crate's proof over libraries that are kept: where each library below it comes from, and what the prover is called with."""
import functools
import hashlib
import importlib.util
import os
import re
import shutil
import subprocess
import time

from crates import TOP, Crates

PROVED = re.compile(r'^fn .*: proved')
USUAL = re.compile(r'^(statements |logic |axioms |(fn|struct|enum|impl|trait) \S+: proved)')
LINES_SHOWN = 400
TARGET = 'x86_64-unknown-linux-gnu'


class Unbuilt(Exception):
    """Libraries below a crate that have to be proved first."""


def kit():
    """The folder of the Rattle kit, by `rt doc`."""
    return os.path.dirname(subprocess.run(['rt', 'doc'], capture_output=True, text=True, check=True).stdout.split()[0])


@functools.cache
def rtlib():
    """The kit's module by which `rt` itself decides whether a library is of its sources, or None where there is no kit, or it has none such."""
    try:
        path = os.path.join(kit(), 'bin', 'rtlib.py')
        spec = importlib.util.spec_from_file_location('rtlib', path)
        module = importlib.util.module_from_spec(spec)
        spec.loader.exec_module(module)
    except (OSError, subprocess.CalledProcessError, ImportError, SyntaxError):
        return None
    if not hasattr(getattr(module, 'Crate', None), 'is_built'):
        return None
    # A crate's sum is made of those of all below, each of which is asked for once.
    module.Crate.stamp = functools.cache(module.Crate.stamp)
    return module


class Checkout:
    """A checkout of this repository with what is kept in its crates' out/ folders."""

    def __init__(self, top=TOP):
        self.top, self.crates, self.stamps, self.of_rt = os.path.abspath(top), Crates.of(top), {}, {}

    def folder(self, name):
        return os.path.join(self.top, 'crates', name)

    def library(self, name):
        return os.path.join(self.folder(name), 'out', 'rlib', f'{name}.rlib')

    def archive(self, name):
        """The static library that C links, of a crate that is one."""
        return os.path.join(self.folder(name), 'out', f'lib{name}.a')

    def program(self, name):
        """The built program, of a crate that is one."""
        return os.path.join(self.folder(name), 'out', name)

    def is_program(self, name):
        return os.path.exists(os.path.join(self.folder(name), 'src', 'main.rt'))

    def note(self, name):
        """The file that tells of which sources prove-one made the library."""
        return os.path.join(self.folder(name), 'out', 'prove-one.stamp')

    def sources(self, name):
        """The files that a proof of the crate reads, in order."""
        for part in ('src', 'specs', 'proofs'):
            for folder, folders, files in os.walk(os.path.join(self.folder(name), part)):
                folders.sort()
                yield from (os.path.join(folder, file) for file in sorted(files))

    def forget(self):
        """Sums are made anew, since sources may have changed."""
        self.stamps, self.of_rt = {}, {}

    def stamp(self, name):
        """A sum over the sources of the crate and of all that it stands on."""
        if name not in self.stamps:
            total = hashlib.sha256(' '.join(self.crates.libraries(name)).encode())
            for path in self.sources(name):
                with open(path, 'rb') as file:
                    text = hashlib.sha256(file.read()).hexdigest()
                total.update(f'{os.path.relpath(path, self.folder(name))} {text}\n'.encode())
            for below in self.crates.own(name):
                total.update(self.stamp(below).encode())
            self.stamps[name] = total.hexdigest()
        return self.stamps[name]

    def has_library(self, name):
        return os.path.exists(os.path.join(self.library(name), 'format'))

    def is_noted(self, name):
        """Whether prove-one made the library of just these sources."""
        if not self.has_library(name) or not os.path.exists(self.note(name)):
            return False
        with open(self.note(name), encoding='utf-8') as file:
            return file.read() == self.stamp(name)

    def is_by_rt(self, name):
        """Whether `rt run`, `rt check` or `rt lib` made the library of just these sources: by the sum that they left beside it, which the kit's own
        module compares. What the gate `rt ci` proves has none, and isn't kept."""
        if not self.has_library(name) or not os.path.exists(os.path.join(os.path.dirname(self.library(name)), 'stamp')):
            return False
        module = rtlib()
        try:
            return module is not None and module.Crate(self.folder(name), self.top, self.of_rt).is_built()
        except (Exception, SystemExit):  # a kit whose module wants something else
            return False

    def is_kept(self, name):
        """Whether the library can be told to be of just these sources, by the note of prove-one or by rt's own sum."""
        return self.is_noted(name) or self.is_by_rt(name)

    def is_newer(self, name):
        """Whether the library was put in its place after each change of a source of it or of a crate below."""
        if not self.has_library(name):
            return False
        # rt links what it kept, with the times of its first build, so the files may be older than a clone: the folder's change time isn't.
        placed = os.stat(self.library(name)).st_ctime
        every = [name, *self.crates.below(name)]
        return all(os.stat(path).st_mtime <= placed for crate in every for path in self.sources(crate))


class Shelf:
    """Where the libraries below the crates of one checkout are taken from: from another one where all sources are equal, from its own out/
    folders, or from source."""

    def __init__(self, own, other=None):
        self.own, self.other, self.found = own, other, {}

    def home(self, name):
        """The checkout that keeps the crate's library, or None where it has to be read from source."""
        if name not in self.found:
            below = {self.home(library) for library in self.own.crates.own(name)}
            self.found[name] = self.choose(name, below)
        return self.found[name]

    def choose(self, name, below):
        for checkout in (self.other, self.own):
            if checkout is None or name not in checkout.crates.uses or checkout.stamp(name) != self.own.stamp(name):
                continue
            # What rt made fits only the libraries beside it; what prove-one made is noted with the sums of all below.
            if below <= {checkout} and (checkout.is_kept(name) or checkout.is_newer(name)):
                return checkout
        return self.own if None not in below and self.own.is_noted(name) else None

    def from_source(self, name):
        """The crates below that no checkout keeps, lowest first."""
        return [library for library in self.own.crates.below(name) if self.home(library) is None]

    def forget(self):
        self.found = {}


def words(shelf, name, tests, place):
    """What the prover is called with for one crate; `place` is the kit's folder."""
    table = shelf.own.crates
    below, unkept = table.below(name), shelf.from_source(name)
    found = ['--crate-name', name, 'src/main.rt' if shelf.own.is_program(name) else 'src/lib.rt', *(['--test'] if tests else [])]
    of_the_kit = ['std', *table.of_the_kit(name)]
    if unkept:
        of_the_kit += ['core', *(library for crate in unkept for library in table.of_the_kit(crate))]
    for library in dict.fromkeys(of_the_kit):
        found += ['--extern', f'{library}={place}/rlibs/{library}.rlib']
    found += ['-L', f'dependency={place}/rlibs']
    for library in below:
        found += words_below(shelf, library, name, bool(unkept))
    found += ['--antt-project', f'{place}/rattle/logic/antt-project.json', '--logic-built', f'{place}/logic_built', '--links', f'{name}=']
    return found + (['--crate-type', 'staticlib'] if name in table.static and not tests else [])


def words_below(shelf, library, name, has_unkept):
    """The words for one crate below."""
    table, home = shelf.own.crates, shelf.home(library)
    if home is None:
        uses = dict.fromkeys(['core', 'std', *table.of_the_kit(library), *table.own(library)])
        return ['--lib', f'{library}:{",".join(uses)}={shelf.own.folder(library)}/src/lib.rt']
    path = home.library(library)
    named = has_unkept or library in table.own(name)
    return [*(['--extern', f'{library}={path}'] if named else []), '-L', f'dependency={os.path.dirname(path)}']


class Prover:
    """Calls the prover on crates of a checkout."""

    def __init__(self, shelf, jobs=1):
        self.shelf, self.own, self.jobs, self.place = shelf, shelf.own, jobs, kit()

    def run(self, verb, name, flags, tests=False):
        """Calls the prover, prints what it says beside the usual, and returns its status."""
        command = [f'{self.place}/bin/rattle', verb, *words(self.shelf, name, tests, self.place), '--jobs', str(self.jobs), *flags]
        since = time.time()
        ran = subprocess.run(command, cwd=self.own.folder(name), stdout=subprocess.PIPE, stderr=subprocess.STDOUT, text=True, errors='replace')
        lines = ran.stdout.splitlines()
        shown = [line for line in lines if not USUAL.match(line)]
        print('\n'.join(shown[-LINES_SHOWN:]))
        proved = sum(1 for line in lines if PROVED.match(line))
        outcome = 'passed' if ran.returncode == 0 else f'ended with {ran.returncode}'
        print(f'prove-one: {name}: {verb} {outcome}, functions proved: {proved}, {time.time() - since:.0f} s', flush=True)
        return ran.returncode

    def check(self, name, flags, tests):
        """Checks the crate, with only some of it by these flags."""
        is_whole = not any(flag in ('--only', '--start') for flag in flags)
        return self.run('check', name, [*(['--empty-contracts'] if is_whole else []), *flags], tests)

    def build(self, name):
        """Proves the whole crate and keeps its library in its out/ folder."""
        if self.shelf.from_source(name):
            raise Unbuilt(' '.join(self.shelf.from_source(name)))
        if name in self.own.crates.static:
            return self.build_linked(name, self.own.archive(name))
        if self.own.is_program(name):
            return self.build_program(name)
        library, note = self.own.library(name), self.own.note(name)
        shutil.rmtree(os.path.dirname(library), ignore_errors=True)
        os.makedirs(os.path.dirname(library))
        if os.path.exists(note):
            os.remove(note)
        self.own.forget()
        stamp = self.own.stamp(name)
        status = self.run('build', name, ['--statements', '-o', library, '--empty-contracts'])
        if status == 0:
            with open(note, 'w', encoding='utf-8') as file:
                file.write(stamp)
        self.shelf.forget()
        return status

    def build_linked(self, name, path):
        """Proves a crate whose code is linked with all below it, and puts the archive or the object into this file."""
        os.makedirs(os.path.dirname(path), exist_ok=True)
        if os.path.exists(path):
            os.remove(path)
        return self.run('build', name, ['--toolchain', f'{self.place}/toolchain', '--backend', 'llvm', '-o', path, '--empty-contracts'])

    def build_program(self, name):
        """Proves a program, and puts it into its out/ folder."""
        program = self.own.program(name)
        status = self.build_linked(name, program + '.o')
        if status != 0:
            return status
        libraries = [f'{self.place}/c/lib{library}_c.a' for library in ('os', 'libc')]
        return subprocess.run([f'{self.place}/bin/rattle-link', '--target', TARGET, '--toolchain', f'{self.place}/toolchain', '-o', program,
                               program + '.o', *libraries], cwd=self.own.folder(name)).returncode

    def build_below(self, name):
        """Proves and keeps what isn't kept below a crate, lowest first; returns the first status that isn't 0."""
        for library in self.shelf.from_source(name):
            print(f'prove-one: {library} is proved first', flush=True)
            status = self.build(library)
            if status != 0:
                return status
        return 0
