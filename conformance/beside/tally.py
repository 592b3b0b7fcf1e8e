"""Verdicts on compared answers, and their counts."""
from collections import Counter, namedtuple

# `kind` begins with the name of a rule of docs/profile.md and a colon where the verdict is "differ".
Verdict = namedtuple("Verdict", "word kind")
EXACT = Verdict("exact", "")
NEAR = Verdict("near", "")


def differs(row, detail):
    return Verdict("differ", f"{row}: {detail}")


def unnamed(detail):
    """A difference that no rule explains."""
    return Verdict("differ", f"?: {detail}")


def left(why):
    """No document can say the case."""
    return Verdict("left", why)


def row_of(kind):
    return kind.split(":")[0]


class Tally:
    def __init__(self, verdicts):
        self.count = Counter(verdicts)

    def of_word(self, word):
        return sum(number for it, number in self.count.items() if it.word == word)

    def kinds(self, word):
        return {it.kind: number for it, number in self.count.most_common() if it.word == word}

    def as_json(self):
        return {"cases": sum(self.count.values()), "exact": self.of_word("exact"), "near": self.of_word("near"),
                "not expressed": self.kinds("left"), "differ": self.kinds("differ")}
