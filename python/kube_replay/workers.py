"""Work that is done on the workers of a Dask scheduler.

A worker needs Dask (`distributed`) alone: this package, and the shared library or the program that is called, are sent to each worker, also
to one that comes later. What a lost worker had is done anew by another, so a task has to give the same result whenever it runs.
"""
from __future__ import annotations

import hashlib
import importlib
import io
import logging
import math
import os
import pickle
import pkgutil
import re
import sys
import time
import zipfile
import zlib
from asyncio import CancelledError
from concurrent.futures import CancelledError as FutureCancelledError
from contextlib import ExitStack, contextmanager, suppress
from dataclasses import dataclass
from functools import lru_cache
from itertools import islice
from pathlib import Path
from threading import Event, Thread
from typing import Any, Callable, Iterable, Iterator, Mapping

from kube_replay.engine import HERE, Engine, Library, Program, find_engine, use
from kube_replay.errors import KubeReplayError

LOCAL = re.compile(r'local(?::([1-9]\d*))?')
# A worker looks at its stack a hundred times a second, for the dashboard, which takes some 3 % of a processor.
LOCAL_SETTINGS = {'distributed.worker.profile.enabled': False}
CONNECT_SECONDS = 60
# Dask gives a task up after it was on several workers that were lost (distributed.scheduler.allowed-failures, 3); so often it is handed out.
MOST_HANDINGS = 20
# How many tasks are handed out for each that the workers take at once, and how often it is asked how many these are.
HANDED_OUT = 3
COUNT_SECONDS = 5
# So many bytes of what all tasks have in common are sent with each of them; what is larger goes to each worker once.
MOST_IN_A_TASK = 1 << 16
AGES_AGO = (1980, 1, 1, 0, 0, 0)


class WorkersFault(KubeReplayError, RuntimeError):
    """What a user of workers gets to see."""


class SchedulerLost(WorkersFault):
    """The scheduler ended, or can't be reached any more."""


@dataclass(frozen=True)
class Equipment:
    """What each worker has: the archives of this package and of further modules, and the engine, of which the first word may be the name of a
    file that was sent."""

    archives: tuple[str, ...]
    is_library: bool
    words: tuple[str, ...]
    is_sent: bool


def archive_of(files: Mapping[str, bytes]) -> bytes:
    """A zip archive of these files, by name; the same bytes for the same files."""
    packed = io.BytesIO()
    with zipfile.ZipFile(packed, 'w', zipfile.ZIP_DEFLATED) as archive:
        for name in sorted(files):
            archive.writestr(zipfile.ZipInfo(name, AGES_AGO), files[name], zipfile.ZIP_DEFLATED)
    return packed.getvalue()


def sources() -> dict[str, bytes]:
    """The sources of this package, by their names in an archive."""
    return {str(path.relative_to(HERE.parent)): path.read_bytes() for path in HERE.rglob('*.py')}


def named(stem: str, ending: str, data: bytes) -> str:
    """A file's name that tells its content, so that two versions never meet under one."""
    return f'{stem}-{hashlib.sha256(data).hexdigest()[:16]}{ending}'


def placing(name: str, data: bytes) -> Any:
    """The plugin that puts a file into a worker's folder. A file that is there stays as it is, since an earlier command may have loaded it:
    a shared library that is written anew below a process ends that process. What a worker has of an archive's modules from elsewhere is
    forgotten. The class stands within a function, since a worker that has no such package yet is then sent the class itself."""
    from distributed.diagnostics.plugin import WorkerPlugin

    class Placing(WorkerPlugin):  # type: ignore[misc]
        def setup(self, worker: Any) -> None:
            path = os.path.join(worker.local_directory, name)
            if not os.path.exists(path):
                with open(path + '.part', 'wb') as file:
                    file.write(data)
                os.replace(path + '.part', path)
            if name.endswith('.zip'):
                self.take(path)

        def take(self, archive: str) -> None:
            sys.path[:] = [archive, *(place for place in sys.path if place != archive)]
            names = {found.name for found in pkgutil.iter_modules([archive])}
            for module in list(sys.modules):
                place = getattr(sys.modules[module], '__file__', None) or ''
                if module.partition('.')[0] in names and not place.startswith(archive + os.sep):
                    del sys.modules[module]
            importlib.invalidate_caches()

    return Placing()


class Sending:
    """The files that each worker is sent, also one that comes later."""

    def __init__(self, client: Any) -> None:
        self.client = client

    def file(self, stem: str, ending: str, data: bytes) -> str:
        """Sends a file, and gives its name on the workers. Archives go onto their path for modules."""
        name = named(stem, ending, data)
        self.client.register_worker_plugin(placing(name, data), name=name)
        return name

    def equipment(self, engine: Engine, modules: Mapping[str, bytes]) -> Equipment:
        """Sends this package, further modules by the names of their files, and the engine where it is a file here."""
        packed = {'kube_replay': sources(), 'modules': modules}
        archives = tuple(self.file(stem, '.zip', archive_of(files)) for stem, files in packed.items() if files)
        is_library = isinstance(engine, Library)
        words = tuple(engine.command) if isinstance(engine, Program) else (engine.place,)
        if len(words) > 1 or not os.path.isfile(words[0]):
            return Equipment(archives, is_library, words, False)
        return Equipment(archives, is_library, (self.file('kube_replay', '.so' if is_library else '', Path(words[0]).read_bytes()),), True)


# On a worker


def see_version(equipment: Equipment, place: str) -> None:
    """Sees that a module at this place is one that was sent with this equipment."""
    if not any(f'{os.sep}{archive}{os.sep}' in place for archive in equipment.archives):
        raise WorkersFault(f'a worker has another version of kube_replay loaded, {os.path.dirname(place)}; start the workers anew')


@lru_cache
def engine_here(equipment: Equipment) -> Engine:
    """The engine on this worker."""
    from distributed import get_worker

    see_version(equipment, __file__)
    words = list(equipment.words)
    if equipment.is_sent:
        words[0] = os.path.join(get_worker().local_directory, words[0])
        os.chmod(words[0], 0o755)
    return Library(words[0]) if equipment.is_library else Program(words)


@lru_cache(maxsize=1)
def unpacked(common: bytes) -> Any:
    """What all tasks have in common."""
    return pickle.loads(zlib.decompress(common))


def done(equipment: Equipment, function: Callable[[Any, Any], Any], common: bytes, task: Any) -> Any:
    """A task's result, on a worker. Dask may still have the function as an earlier command sent it, so it is looked up anew."""
    use(engine_here(equipment))
    module = importlib.import_module(function.__module__)
    see_version(equipment, str(module.__file__))
    return getattr(module, function.__name__)(unpacked(common), task)


# Where the tasks come from


class Workers:
    """The workers of a scheduler."""

    def __init__(self, client: Any, equipment: Equipment) -> None:
        self.client = client
        self.equipment = equipment
        self._count, self._looked = 0, -math.inf

    def results(self, function: Callable[[Any, Any], Any], common: Any, tasks: Iterable[Any]) -> Iterator[tuple[int, Any]]:
        """`function(common, task)` for each task, with the task's place, in the order in which they are done. A task is taken only when it
        is handed out: so many at once that no worker has to wait, and that their results don't pile up. What is common isn't a task of its
        own where it is small, since Dask has the first tasks wait for the worker that has done that one."""
        from distributed import as_completed

        packed = zlib.compress(pickle.dumps(common), 1)
        shared = packed if len(packed) <= MOST_IN_A_TASK else self.client.submit(bytes, packed, pure=False)
        waiting, asked, running = iter(enumerate(tasks)), {}, as_completed()

        def hand_out(place: int, task: Any, handings: int) -> None:
            future = self.client.submit(done, self.equipment, function, shared, task, pure=False)
            asked[future.key] = place, task, handings
            running.add(future)

        def fill() -> None:
            for place, task in islice(waiting, max(0, HANDED_OUT * max(2, self.threads()) - len(asked))):
                hand_out(place, task, 1)

        fill()
        for future in running:
            place, task, handings = asked.pop(future.key)
            found = self._result(future, handings)
            if found is None:
                hand_out(place, task, handings + 1)
                continue
            fill()
            yield place, found[0]

    def threads(self) -> int:
        """How many tasks the workers take at once, as it was a few seconds ago at most. Of a scheduler that is lost the last count stands; whoever
        waits for a result is told of the loss."""
        now = time.monotonic()
        if now - self._looked > COUNT_SECONDS:
            with suppress(OSError, CancelledError, FutureCancelledError):
                self._count = sum(self.client.nthreads().values())
            self._looked = now
        return self._count

    def _result(self, future: Any, handings: int) -> tuple[Any] | None:
        """The result; None where the task was on so many workers that were lost that Dask gave it up, and it is to be handed out again."""
        from distributed.comm import CommClosedError
        from distributed.scheduler import KilledWorker

        try:
            return (future.result(),)
        except (CancelledError, FutureCancelledError, CommClosedError) as fault:
            raise SchedulerLost('the scheduler is lost') from fault
        except KilledWorker as fault:
            if handings < MOST_HANDINGS:
                return None
            raise WorkersFault(f'the workers were lost {MOST_HANDINGS} times over at one task: {fault}') from fault
        except Exception as fault:
            # The class of another version of this module is another class.
            if type(fault).__name__ == WorkersFault.__name__:
                raise WorkersFault(str(fault)) from fault
            raise


class Watch(Thread):
    """Tells when no worker is left, since a command then waits for one for as long as it takes."""

    def __init__(self, client: Any) -> None:
        super().__init__(daemon=True)
        self.client, self.ended = client, Event()

    def run(self) -> None:
        before = True
        while not self.ended.wait(COUNT_SECONDS):
            try:
                there = bool(self.client.nthreads())
            except Exception:  # noqa: BLE001: a lost scheduler is told by who waits for a result
                return
            if there != before:
                print('dask: there are workers again' if there else 'dask: no worker is left; waiting for one', file=sys.stderr, flush=True)
            before = there

    def __enter__(self) -> Watch:
        self.start()
        return self

    def __exit__(self, *fault: object) -> None:
        self.ended.set()


@contextmanager
def connected(address: str, engine: Engine | None = None, modules: Mapping[str, bytes] | None = None) -> Iterator[Workers]:
    """The workers of the scheduler at an address; `local` starts one with a worker for each processor, `local:N` one with N workers. The
    workers are sent the package, the engine, and further modules by the names of their files."""
    try:
        import dask
        from distributed import Client, LocalCluster
    except ImportError as fault:
        raise WorkersFault("--dask needs Dask, which isn't installed: apt install python3-distributed, or pip install distributed") from fault
    for name in ('distributed.client', 'distributed.utils'):
        # What these tell of lost workers, and how they trace a lost scheduler, is told by the exceptions.
        logging.getLogger(name).setLevel(logging.CRITICAL)
    with ExitStack() as stack:
        local = LOCAL.fullmatch(address)
        if local:
            count = int(local[1] or os.cpu_count() or 1)
            with dask.config.set(LOCAL_SETTINGS):
                cluster = LocalCluster(n_workers=count, threads_per_worker=1, silence_logs=logging.ERROR)
            address = stack.enter_context(cluster).scheduler_address
        client = stack.enter_context(Client(address, timeout=CONNECT_SECONDS))
        sending = Sending(client)
        workers = Workers(client, sending.equipment(engine or find_engine(), modules or {}))
        stack.enter_context(Watch(client))
        print(f'dask: {len(client.nthreads())} workers; dashboard {client.dashboard_link}', file=sys.stderr, flush=True)
        yield workers


class Progress:
    """A bar of how many are done, on standard error: on a terminal in one line, else every ten seconds."""

    def __init__(self, total: int, unit: str) -> None:
        self.total, self.unit, self.done, self.begin, self.last = total, unit, 0, time.monotonic(), 0.0

    def step(self, count: int, more: str = '') -> None:
        """So many more are done; behind the count stands what else is told."""
        self.done += count
        now, terminal = time.monotonic(), sys.stderr.isatty()
        if now - self.last < (0.2 if terminal else 10) and self.done < self.total:
            return
        self.last = now
        filled = 24 * min(self.done, self.total) // max(1, self.total)
        words = f'[{"#" * filled}{"." * (24 - filled)}] {self.done:,} of {self.total:,} {self.unit}, {now - self.begin:.0f} s{more}'
        ending = '' if terminal and self.done < self.total else '\n'
        print('\r\033[K' + words if terminal else words, end=ending, file=sys.stderr, flush=True)
