"""What is told of the log: lines of a trace with exact seconds, and the number of what has no line."""
from collections import Counter, namedtuple

Event = namedtuple("Event", "second actor text")


def answer(entry, stored):
    """What the store answered, in a trace's words; the stored version isn't in a refusal, so it is the last one known. None for other answers."""
    if entry.is_ok():
        return f"v={entry.version}"
    return {409: f"conflict v={stored}", 404: "absent"}.get(entry.code)


class Telling:
    def __init__(self):
        self.events, self.passed = [], Counter()

    def tell(self, entry, actor, text):
        self.events.append(Event(entry.ended, actor, text))

    def leave_out(self, what):
        self.passed[what] += 1
