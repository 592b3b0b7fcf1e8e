"""The program kube_replay, run on documents, several at a time."""
import hashlib
import json
import os
import shlex
import subprocess
from concurrent.futures import ThreadPoolExecutor


class NoAnswer(Exception):
    """The program gave no trace where one was wanted."""


class Program:
    def __init__(self, command):
        self.words = shlex.split(command)
        self.answers = {}
        self.pool = ThreadPoolExecutor(os.cpu_count() or 1)

    def lines(self, command, given):
        """The lines that `command`, with its words, writes for a document, or for a text; it is run once for each."""
        text = given if isinstance(given, str) else json.dumps(given)
        key = command, hashlib.sha256(text.encode()).digest()
        if key not in self.answers:
            self.answers[key] = self.run(command, text)
        return self.answers[key]

    def run(self, command, text):
        ran = subprocess.run([*self.words, *command.split()], input=text.encode(), stdout=subprocess.PIPE, stderr=subprocess.PIPE)
        if ran.returncode not in (0, 1):
            raise NoAnswer(f"{command} ended with status {ran.returncode}: {ran.stderr.decode(errors='replace')[-300:]}")
        return ran.stdout.decode().splitlines()

    def runs(self):
        return len(self.answers)

    def answer(self, command, given):
        return self.lines(command, given)[0]

    def replay(self, document):
        """The trace's lines without the first: beat, actor, and the words of what was done."""
        lines = self.lines("replay", document)
        if not lines or not lines[0].startswith("trace 1 "):
            raise NoAnswer(f"the answer to {json.dumps(document)[:1000]} is {lines[:1]}")
        parts = (it.split(" ", 2) for it in lines[1:])
        return [(int(beat), actor, deed.split()) for beat, actor, deed in parts]

    def each(self, judge, cases):
        """What `judge` makes of each case, in order; several cases are judged at a time."""
        return self.pool.map(judge, cases)


def is_accepted(deed):
    """Whether a deed's last word tells the version of an accepted write."""
    return deed[-1].startswith("v=")


def evictions(trace):
    """The beat of each accepted eviction, by the pod's name."""
    return {deed[1].split("/")[1]: beat for beat, _, deed in trace if deed[0] == "evict" and is_accepted(deed)}
