"""The programs that a command calls: of the checkout where they are built, else the installed ones."""
import os
import shlex
import shutil
import subprocess
import sys

from lists import Unread

TOP = os.path.dirname(os.path.dirname(os.path.realpath(__file__)))
# What names another program, as the Python package has it.
VARIABLES = {'kube_replay': 'KUBE_REPLAY_PROGRAM', 'kube_lens': 'KUBE_LENS_PROGRAM'}


def program(name):
    """The words that call a proved program."""
    named = os.environ.get(VARIABLES[name])
    built = os.path.join(TOP, 'crates', name, 'out', name)
    if named:
        return shlex.split(named)
    found = built if os.access(built, os.X_OK) else shutil.which(name)
    if not found:
        raise Unread('%s is neither built here nor on PATH: tools/prove-all %s builds it' % (name, name))
    return [found]


def tool(folder, name):
    """The words that call a script in Python of this checkout or package."""
    return [sys.executable, '-B', os.path.join(TOP, folder, name)]


def playground():
    """The words that call the playground, or nothing where it isn't there."""
    here = os.path.join(TOP, 'playground')
    found = here if os.access(here, os.X_OK) else shutil.which('kube_replay-playground')
    return [found] if found else None


def run(words, read=None, **more):
    """What a program writes for these bytes, its status, and what it says."""
    try:
        return subprocess.run(words, input=read, stdout=subprocess.PIPE, stderr=subprocess.PIPE, check=False, **more)
    except OSError as fault:
        raise Unread("%s can't be run: %s" % (words[0], fault.strerror)) from fault
