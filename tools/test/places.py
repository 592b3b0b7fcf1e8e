"""Where the repository is, its tools and its built programs. Once this is imported, the modules of the tools can be."""
import os
import sys

HERE = os.path.dirname(os.path.abspath(__file__))
TOOLS = os.path.dirname(HERE)
TOP = os.path.dirname(TOOLS)
sys.path.insert(0, TOOLS)


def built(name):
    """The program of this name that was proved and built."""
    return os.path.join(TOP, 'crates', name, 'out', name)
