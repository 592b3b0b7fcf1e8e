"""What `audit` says of the traces that tools/from-audit-log makes of the recorded logs."""
import os
import subprocess
import sys

from .program import NoAnswer
from .recorded import TOP
from .scenarios import CONTROLLERS

TOOL = os.path.join(os.path.dirname(TOP), "tools/from-audit-log")
WAYS = ("evidence", "death", "promise")
NOT_ANSWERED = 3  # from-audit-log's status where the log lacks what the verdict needs


def verdict(scenario, way, program):
    """The audit's line in short with the line of the trace that it names, and whether the log lacks what the verdict needs."""
    timings = [f"--renew-deadline={scenario.settings.get('renewDeadlineMillis', 10_000) / 1000}",
               f"--retry-period={scenario.settings.get('retryPeriodMillis', 2000) / 1000}"]
    ran = subprocess.run([sys.executable, TOOL, f"--terms={way}", f"--controllers={CONTROLLERS}", *timings, f"{TOP}/logs/{scenario.name}/audit.jsonl.gz"],
                         stdout=subprocess.PIPE, stderr=subprocess.PIPE, text=True)
    if ran.returncode not in (0, NOT_ANSWERED):
        raise NoAnswer(f"from-audit-log ended with status {ran.returncode} on {scenario.name}: {ran.stderr[-300:]}")
    more = ", not answered" if ran.returncode else ""
    answer = program.answer("audit", ran.stdout).split()
    if answer[:2] == ["audit", "ok"]:
        return f"ok{more}"
    line = ran.stdout.splitlines()[int(answer[2].lstrip("/")) - 1].split()
    return f"{answer[1]} at `{' '.join(line[1:3])}`{more}"
