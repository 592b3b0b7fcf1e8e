"""The rule by which attempts of a leader of client-go 0.36 stand, beside all recorded attempts of its runs.

A renewal begins a retry period after the last success, or at the lead, and its attempts stand on the grid of retry periods from there. One
that ends after a point of the grid is followed at once by the next one, but once; the leader ends a renew deadline after the renewal's
beginning, and the call that is under way is cut."""
from collections import Counter

from .recorded import NEW, cases_of
from .tables import table

SETS = (f"{NEW}election_timeouts", f"{NEW}election_runs")


class Renewal:
    def __init__(self, case):
        self.retry, self.deadline = case["RetryMs"] * 1000, case["RenewMs"] * 1000
        self.restart(case["lead_us"])

    def restart(self, second):
        self.begin = self.due = self.spent = second

    def take(self, attempt):
        """Finds when the next attempt is due."""
        ended = attempt["made"][-1]["end_us"]
        if attempt["made"][-1]["reply"] == "done":
            self.restart(ended + self.retry)
            return
        passed = self.begin + (ended - self.begin) // self.retry * self.retry
        if passed > self.spent:
            self.due, self.spent = ended, passed
        else:
            self.due = self.spent = passed + self.retry


def counts_of(case):
    renewal, count = Renewal(case), Counter()
    for attempt in case["calls"][1:]:
        count["as told" if attempt["at_us"] == renewal.due else "otherwise"] += 1
        renewal.take(attempt)
    if case["stop_us"] >= 0:
        count["end as told" if case["stop_us"] == renewal.begin + renewal.deadline else "end otherwise"] += 1
    return count


def counts():
    return {name: sum((counts_of(case) for case in cases_of(name)), Counter()) for name in SETS}


def attempts():
    words = ("as told", "otherwise", "end as told", "end otherwise")
    head = ("Set", "Attempts by the rule", "Otherwise", "Ends by the rule", "Otherwise")
    return table(head, [(f"`{name}`", *(found[it] for it in words)) for name, found in counts().items()])


def faults():
    for name, found in counts().items():
        if found["otherwise"] or found["end otherwise"]:
            yield f"{name}: attempts or ends that the rule of the retry grid doesn't tell: {dict(found)}"
