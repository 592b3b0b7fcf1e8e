"""Puts the shared library into the package where it is built, and takes the version of the repository."""
from pathlib import Path
import shutil

from setuptools import setup
from setuptools.command.build_py import build_py
from wheel.bdist_wheel import bdist_wheel

HERE = Path(__file__).resolve().parent
LIBRARY = HERE.parent / 'c' / 'libkube_replay.so'


class BuildWithLibrary(build_py):
    """Without the library the package is built too, and calls the program."""

    def run(self):
        super().run()
        within = Path(self.build_lib) / 'kube_replay' / LIBRARY.name
        within.unlink(missing_ok=True)
        if LIBRARY.exists():
            shutil.copy2(LIBRARY, within)


class WheelOfThisPlatform(bdist_wheel):
    """A wheel with the library fits machines of this sort alone, and any Python 3."""

    def finalize_options(self):
        super().finalize_options()
        self.root_is_pure = not LIBRARY.exists()

    def get_tag(self):
        _, _, platform = super().get_tag()
        return 'py3', 'none', platform


setup(version=(HERE.parent / 'VERSION').read_text().strip(), cmdclass={'build_py': BuildWithLibrary, 'bdist_wheel': WheelOfThisPlatform})
