"""A hunt where Hypothesis isn't installed."""
from __future__ import annotations

import os
import subprocess
import sys
from pathlib import Path

from conftest import TOP

WITHOUT = """
import runpy, sys
sys.modules['hypothesis'] = None
sys.argv[1:] = ['failover', 'document.json', 'bounds.json']
runpy.run_module('kube_replay.hunt', run_name='__main__')
"""


def test_it_says_so_in_a_sentence(tmp_path: Path) -> None:
    environment = {**os.environ, 'PYTHONPATH': str(TOP / 'python')}
    ran = subprocess.run([sys.executable, '-c', WITHOUT], cwd=tmp_path, env=environment, capture_output=True, text=True, check=False)
    assert (ran.returncode, ran.stdout) == (2, '')
    assert ran.stderr == (
        "hunt: a hunt needs Hypothesis, which isn't installed: apt install python3-hypothesis, or pip install hypothesis\n"
    )
