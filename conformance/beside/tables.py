"""The tables of docs/upstream.md on the recorded answers."""
from statistics import median

from . import elections
from .recorded import NEW, SETS, cases_of
from .tally import row_of


def table(head, rows):
    """A table's lines."""
    return ["| " + " | ".join(head) + " |", "|" + "---|" * len(head)] + ["| " + " | ".join(str(it) for it in row) + " |" for row in rows]


def seconds(millis):
    return f"{millis / 1000:.1f}"


def answers(counts):
    rows = []
    for name, it in counts.items():
        rows.append((f"`{name}`", SETS[name][1], it["cases"], sum(it["not expressed"].values()), it["exact"], it["near"], sum(it["differ"].values())))
    rows.append(("all", "", *(sum(row[at] for row in rows) for at in range(2, 7))))
    return table(("Set", "What is compared", "Cases", "No document says it", "Exact", "Near", "Differ"), rows)


def differences(counts):
    rows = [(f"`{name}`", number, row_of(kind), kind.split(": ", 1)[1]) for name, it in counts.items() for kind, number in it["differ"].items()]
    return table(("Set", "Cases", "Row of the profile", "What differs"), rows)


def not_said(counts):
    rows = [(f"`{name}`", number, why) for name, it in counts.items() for why, number in it["not expressed"].items()]
    return table(("Set", "Cases", "Why no document says it"), rows)


def of_version(counts, is_new):
    return {name: it for name, it in counts.items() if name.startswith(NEW) == is_new}


def two_leaders(name, program, more=()):
    rows = []
    for (lease, timeout), (premise, runs) in elections.overlaps(cases_of(name), program, more).items():
        both = [it for it in runs if it > 0]
        longest = f"{seconds(max(both))} s" if both else ""
        rows.append((f"{lease // 1000} s", f"{timeout // 1000} s", f"`premise={premise}`", len(runs), len(both), longest))
    return table(("Lease", "Call timeout", "First line here", "Runs there", "With two leaders there", "For at most"), rows)


def failovers(name, program, more=()):
    rows = []
    for (lease, beat, rivals), gaps in elections.failovers(cases_of(name), program, dict(more)).items():
        here, there = [it for it, _ in gaps], [it for _, it in gaps]
        longer = sum(it > max(here) for it in there)
        rows.append((f"{lease // 1000} s", rivals, f"{2 * beat} ms", f"{seconds(min(here))} to {seconds(max(here))} s",
                     f"{seconds(min(there))} to {seconds(max(there))} s", f"{seconds(median(there))} s", f"{longer} of {len(there)}"))
    return table(("Lease", "Rivals", "Round trip", "Without a leader here", "There", "Median there", "Longer there than any here"), rows)
