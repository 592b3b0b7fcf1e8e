"""How long nobody led after a crash, recorded, beside the bounds that kube_lens tells of the same settings."""
import re
import shlex
import subprocess

from . import plane_tables
from .program import NoAnswer
from .recorded import cases_of
from .tables import seconds, table

KILLS = ("b", "b2", "f", "f2")
USUAL = {"leaseDurationSeconds": 15, "renewDeadlineMillis": 10_000, "retryPeriodMillis": 2_000}
# A candidate of client-go waits up to so many tenths of its retry period between two attempts.
JITTER_TENTHS = 22
PLANE_DELAY_MILLIS = 100
CRASH = re.compile(r"crash (?:nobody-leads|leads) at-least=(\d+)ms at-most=(\d+)ms")
HEAD = ("Recorded", "Lease", "Each message takes at most", "Crashes", "Nobody led", "At least", "At most", "Within")


class Lens:
    """The program kube_lens."""

    def __init__(self, command):
        self.words = shlex.split(command)

    def crash(self, settings, delay_millis):
        """The least and greatest time without a leader after a crash, in ms; None where the program tells nothing of a crash."""
        words = ["--beat", "1ms", "--delay", f"{delay_millis}ms", "--lease", f"{settings['leaseDurationSeconds']}s",
                 "--renew", f"{settings['renewDeadlineMillis']}ms", "--retry", f"{settings['retryPeriodMillis']}ms",
                 "--wait", f"{settings['retryPeriodMillis'] * JITTER_TENTHS // 10}ms"]
        ran = subprocess.run([*self.words, "bounds", *words], stdout=subprocess.PIPE, text=True, check=False)
        if ran.returncode not in (0, 1):
            raise NoAnswer(f"kube_lens bounds {' '.join(words)} ended with status {ran.returncode}")
        found = CRASH.search(ran.stdout)
        return (int(found[1]), int(found[2])) if found else None


def of_answers():
    """The failovers of upstream's own code: what they are, their settings, the delay of a message, and the times, in ms."""
    groups = {}
    for case in cases_of("election_failover"):
        groups.setdefault((case["lease_ms"], case["one_way_ms"]), []).append(case["gap_ms"])
    for (lease, delay), gaps in groups.items():
        yield "`election_failover`", {**USUAL, "leaseDurationSeconds": lease // 1000}, delay, gaps


def of_planes(found, scenario_of):
    """The kills on the real control plane, in the same form."""
    for name in KILLS:
        gaps = [round(1000 * (there - signal["at"])) for signal, there, _ in plane_tables.takeovers(found[name], scenario_of(name))]
        settings = {key: scenario_of(name).settings.get(key, value) for key, value in USUAL.items()}
        yield f"scenario {name}", settings, PLANE_DELAY_MILLIS, gaps


class Crashes:
    """All that were recorded, each group with its bounds; `told` is false where the program tells none."""

    def __init__(self, lens, found, scenario_of):
        groups = [*of_answers(), *of_planes(found, scenario_of)]
        self.groups = [(*group, lens.crash(*group[1:3])) for group in groups]
        self.are_told = all(bound for *_, bound in self.groups)

    def table(self):
        return table(HEAD, [row(*group) for group in self.groups])

    def faults(self):
        for what, settings, _, gaps, bound in self.groups:
            for gap in gaps:
                if not bound[0] <= gap <= bound[1]:
                    yield f"{what}, lease {settings['leaseDurationSeconds']} s: nobody led for {gap} ms, out of {bound[0]} to {bound[1]}"


def row(what, settings, delay, gaps, bound):
    within = sum(bound[0] <= gap <= bound[1] for gap in gaps)
    return (what, f"{settings['leaseDurationSeconds']} s", f"{delay} ms", len(gaps), f"{seconds(min(gaps))} to {seconds(max(gaps))} s",
            f"{seconds(bound[0])} s", f"{seconds(bound[1])} s", f"{within} of {len(gaps)}")
