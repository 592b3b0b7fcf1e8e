"""The processes that answer: one run at a time. A newer question, or a reader that has gone, ends the run of the older one."""
import os
import select
import signal
import socket
import subprocess
import sys
import threading
import time

HERE = os.path.dirname(os.path.realpath(__file__))
LENGTH = 8
GONE = 'the run was ended: another window asked something, or it took too much memory'


class Ended(Exception):
    """A run that was ended, or ended by itself, before its answer was there."""


class Worker:
    """One process of worker.py."""

    def __init__(self):
        self.process = subprocess.Popen([sys.executable, '-B', os.path.join(HERE, 'worker.py')], stdin=subprocess.PIPE, stdout=subprocess.PIPE,
                                        bufsize=0, start_new_session=True)

    def ask(self, document, objects_at, reader, until):
        """The bytes of its answer. Raises Ended where the process ends, the reader goes, or it isn't there in time."""
        try:
            self.write(len(document).to_bytes(LENGTH, 'big') + objects_at.to_bytes(LENGTH, 'big'))
            self.write(document)
            length = int.from_bytes(self.read(LENGTH, reader, until), 'big')
            return self.read(length, reader, until)
        except (OSError, ValueError) as fault:
            raise Ended(GONE) from fault

    def write(self, data):
        rest = memoryview(data)
        while rest:
            rest = rest[self.process.stdin.write(rest):]

    def read(self, count, reader, until):
        parts = []
        while count > 0:
            self.wait(reader, until)
            part = self.process.stdout.read(min(count, 1 << 20))
            if not part:
                raise Ended(GONE)
            parts.append(part)
            count -= len(part)
        return b''.join(parts)

    def wait(self, reader, until):
        """Waits until there is something to read of the process, and sees whether whoever asked is still there."""
        while True:
            ready = select.select([self.process.stdout, reader], [], [], max(0, until - time.monotonic()))[0]
            if self.process.stdout in ready:
                return
            if not ready:
                raise Ended('it took too long')
            if not reader.recv(1, socket.MSG_PEEK):
                raise Ended('whoever asked has gone')
            time.sleep(.01)

    def kill(self):
        """Kills it with all that it started. Its number stays taken until `end` has waited for it."""
        try:
            os.killpg(self.process.pid, signal.SIGKILL)
        except ProcessLookupError:
            pass

    def end(self):
        self.kill()
        self.process.wait()
        self.process.stdin.close()
        self.process.stdout.close()


class Workers:
    """A worker that runs, and one or two that wait."""

    def __init__(self, seconds):
        self.seconds, self.lock, self.busy, self.ended = seconds, threading.Lock(), None, False
        self.idle = [Worker(), Worker()]

    def ask(self, document, objects_at, reader):
        """The answer on a document, as bytes. Raises Ended where a newer question came, or none of that is to be had."""
        worker = self.take()
        try:
            answer = worker.ask(document, objects_at, reader, time.monotonic() + self.seconds)
        except Ended:
            self.put(worker, False)
            raise
        self.put(worker, True)
        return answer

    def take(self):
        """A worker for a new run, which ends the run that goes on."""
        with self.lock:
            if self.ended:
                raise Ended('the playground ends')
            if self.busy:
                self.busy.kill()
            self.busy = self.idle.pop() if self.idle else Worker()
            return self.busy

    def put(self, worker, well):
        """Takes a worker back, or another one in its place where it has ended."""
        with self.lock:
            if self.busy is worker:
                self.busy = None
            well = well and not self.ended
            if well:
                self.idle.append(worker)
        if not well:
            worker.end()
            self.fill()

    def fill(self):
        with self.lock:
            if not self.ended and len(self.idle) < 2:
                self.idle.insert(0, Worker())

    def end(self):
        """Ends all of them."""
        with self.lock:
            self.ended = True
            for worker in self.idle + ([self.busy] if self.busy else []):
                worker.kill()
