"""What quick-try and try-all share: a command that is run to its end, and what it came to."""
import os
import signal
import subprocess
import tempfile
import threading

from crates import TOP


class Outcome:
    """What one part came to: a word, why, and the processor seconds that it took."""

    def __init__(self, word, why='', seconds=0.0):
        self.word, self.why, self.seconds = word, why, seconds


class Ran:
    """A command that has ended: what it wrote, its status, its processor seconds, and whether it was stopped since it took too long."""

    def __init__(self, command, folder=TOP, most=None):
        with tempfile.TemporaryFile() as out, tempfile.TemporaryFile() as errors:
            process = subprocess.Popen(command, cwd=folder, stdin=subprocess.DEVNULL, stdout=out, stderr=errors, start_new_session=True)
            self.is_stopped = False
            timer = threading.Timer(most or threading.TIMEOUT_MAX, self.stop, [process])
            timer.daemon = True
            timer.start()
            _, status, used = os.wait4(process.pid, 0)
            timer.cancel()
            self.status = process.returncode = os.waitstatus_to_exitcode(status)
            self.seconds = used.ru_utime + used.ru_stime
            self.stdout, self.stderr = [self.text_of(file) for file in (out, errors)]

    def stop(self, process):
        self.is_stopped = True
        os.killpg(process.pid, signal.SIGTERM)

    @staticmethod
    def text_of(file):
        file.seek(0)
        return file.read().decode(errors='replace')
