"""The Pythons of this system."""
import os
import subprocess
import sys

# The one that runs this, and Debian's, which sees Debian's modules.
PYTHONS = [sys.executable, '/usr/bin/python3']


def python_with(module):
    """The first Python that has a module, or None."""
    return next((one for one in PYTHONS if os.path.exists(one) and
                 subprocess.run([one, '-c', f'import {module}'], stderr=subprocess.DEVNULL, check=False).returncode == 0), None)
