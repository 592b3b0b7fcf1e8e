"""The rows of try-all: each test that needs no proof, with what it needs and how long it took.

How long is in seconds of the processor, as most tests take on a machine that has nothing else to do; those that wait take longer. Of the two that wait
for a browser most of the time it is in seconds of the clock, beside work on all processors. A row without a number wasn't timed, and takes more than a
minute.
"""
import functools
import os
import shutil
import sys
from dataclasses import dataclass, field
from typing import Callable, Optional

from crates import TOP
from pythons import python_with


@dataclass(frozen=True)
class Need:
    """What has to be here, in words that say where it is from."""
    told: str
    is_here: Callable[[], bool]


def program(name, package):
    """A program of this system, by the Debian package that has it."""
    return Need(f'{name} (Debian: {package})', lambda: shutil.which(name) is not None)


def file(path, maker):
    """A file of the repository that is built first."""
    return Need(f'{path} (made by {maker})', lambda: os.access(os.path.join(TOP, path), os.R_OK))


@functools.cache
def newest_source():
    """When a source was changed last."""
    crates = os.path.join(TOP, 'crates')
    paths = [os.path.join(folder, name) for kind in ('src', 'specs', 'proofs') for crate in os.listdir(crates)
             for folder, _, names in os.walk(os.path.join(crates, crate, kind)) for name in names]
    return max(map(os.path.getmtime, [*paths, os.path.join(TOP, 'crates.txt')]))


def built(name):
    """A program of the repository, built of the sources as they are: the launchers build an older one anew, which takes long."""
    path = os.path.join(TOP, 'crates', name, 'out', name)
    return Need(f'{name} of these sources (made by tools/prove-all {name})', lambda: os.path.exists(path) and os.path.getmtime(path) >= newest_source())


REPLAY, LENS = built('kube_replay'), built('kube_lens')
SHARED = file('c/libkube_replay.so', 'tools/shared-library')
RT = Need('rt (the Rattle kit)', lambda: shutil.which('rt') is not None)
CHROMIUM = program('chromium', 'chromium')
COMPILER = program('cc', 'gcc')
PYTEST = Need('pytest (Debian: python3-pytest)', lambda: python_with('pytest') is not None)
DASK = Need('Dask (Debian: python3-distributed)', lambda: python_with('distributed') is not None)
MKDOCS = Need('MkDocs (Debian: mkdocs, mkdocs-material)', lambda: python_with('mkdocs') is not None)
ROOT = Need('root', lambda: os.geteuid() == 0)


@dataclass(frozen=True)
class Row:
    """A test: its name, its words, what it needs, how many seconds it took, the folder that it is run in, and the module that its Python must have."""
    name: str
    words: list
    needs: list = field(default_factory=list)
    seconds: Optional[int] = None
    place: str = '.'
    module: Optional[str] = None

    @property
    def folder(self):
        return os.path.normpath(os.path.join(TOP, self.place))

    @property
    def command(self):
        if self.module:
            return [python_with(self.module), *self.words]
        return [sys.executable, *self.words] if self.words[0].endswith('.py') else self.words

    @property
    def took(self):
        return '-' if self.seconds is None else f'{self.seconds} s'

    def is_quick(self):
        return self.seconds is not None and self.seconds < 60

    def shown(self):
        return ' '.join(self.words) + (f'  (in {self.place}/)' if self.place != '.' else '')


def test(name, needs, seconds, *words, script=None):
    """A test of the tools, tools/test/test_NAME.py, or another of its scripts."""
    return Row(name, [f'tools/test/test_{script or name}.py', *words], needs, seconds)


ROWS = [
    Row('map', ['tools/check-map'], [], 1),
    Row('layout', ['tools/check-layout'], [RT], 2),
    Row('edits', ['tools/wrong-bodies', '--applies'], [], 1),
    test('prove-one', [RT], 4, script='prove_one'),
    test('try-all', [], 4, script='try_all'),
    test('duplicates', [], 2),
    test('from-audit-log', [], 14, script='from_audit_log'),
    test('from-cluster', [REPLAY, LENS], 35, script='from_cluster'),
    test('make-cluster', [REPLAY], 10, script='make_cluster'),
    test('refusals', [REPLAY], 1),
    test('margin', [REPLAY, LENS], 6, script='lens'),
    test('bounds', [LENS], 2, script='lens_bounds_rows'),
    test('tune', [LENS], None, script='lens_tune'),
    test('leaders', [REPLAY, LENS], 5, script='lens_trace'),
    test('summary', [REPLAY, LENS], 1, script='lens_summary'),
    test('lateness', [REPLAY, LENS], 2, script='lens_lateness'),
    test('explain', [REPLAY, LENS], 21, script='lens_explain'),
    test('json', [REPLAY, LENS], 13, script='lens_json'),
    test('bounds-reference', [REPLAY, LENS], None, script='lens_bounds'),
    test('leads', [REPLAY, LENS, CHROMIUM], 50),
    test('sweep', [REPLAY], 15),
    Row('dask', ['tools/test/test_dask.py'], [DASK, REPLAY], 90, module='distributed'),
    Row('launcher', ['bench/launcher_check.sh', 'proved'], [REPLAY, LENS], 13),
    Row('launcher-hints', ['bench/launcher_check.sh', 'hints'], [], 8),
    Row('limits', ['bench/limits.py'], [REPLAY], 9),
    Row('pages', ['tools/check-docs'], [REPLAY, LENS, program('jq', 'jq')], 40),
    Row('site', ['tools/site'], [MKDOCS], 5, module='mkdocs'),
    Row('site-search', ['tools/test/test_site.py'], [file('out/site/index.html', 'tools/site'), CHROMIUM], 3),
    Row('browser', ['view/test_timeline.py'], [CHROMIUM], 169),
    Row('playground', ['play/test_server.py'], [REPLAY, LENS], 9),
    Row('playground-page', ['play/test_playground.py'], [REPLAY, LENS, CHROMIUM], 163),
    Row('kubectl', ['plugin/test_kubectl_replay.py'], [program('kubectl', 'kubernetes-client'), REPLAY, LENS], 151),
    Row('python', ['-m', 'pytest', '-q'], [PYTEST, REPLAY], 10, 'python', 'pytest'),
    Row('go', ['go', 'test', './...'], [program('go', 'golang-go'), COMPILER, SHARED], 4, 'go'),
    Row('c-library', ['bench/library_check.py', '--program', 'crates/kube_replay/out/kube_replay'], [COMPILER, SHARED, REPLAY], 7),
    Row('c-valgrind', ['bench/library_check.py', '--valgrind', '--count', '100'], [COMPILER, SHARED, program('valgrind', 'valgrind')], 2),
    Row('conformance', ['conformance/run.py'], [REPLAY, LENS], 24),
    Row('hostile-edges', ['bench/hostile/edges.py'], [REPLAY], 60),
    Row('hostile-damaged', ['bench/hostile/damaged.py', '--count', '2000'], [REPLAY], 10),
    Row('hostile-memory', ['bench/hostile/memory.py', '--part', 'calls'], [REPLAY, COMPILER], 60),
    Row('hostile-space', ['bench/hostile/memory.py', '--part', 'space'], [REPLAY], None),
    Row('hostile-worst', ['bench/hostile/worst.py'], [REPLAY], 250),
    test('package', [ROOT, REPLAY, LENS, program('dpkg-deb', 'dpkg'), program('mmdebstrap', 'mmdebstrap'), program('man', 'man-db'),
                     program('lintian', 'lintian'), MKDOCS], None),
]
