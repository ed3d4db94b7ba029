"""Puts the program of release/ into the package that is built, where it can run. All else stands in pyproject.toml."""

import pathlib
import platform
import shutil
import sys

from setuptools import setup
from setuptools.command.build_py import build_py

PROGRAM = pathlib.Path(__file__).resolve().parent.parent / "release" / "amoebot"
FITS = PROGRAM.is_file() and sys.platform == "linux" and platform.machine() == "x86_64"


class BuildWithProgram(build_py):
    """Builds the package with the program in it. An editable package takes the program of the repository."""

    def run(self):
        if self.editable_mode:
            return super().run()
        package = pathlib.Path(self.build_lib) / "pogyawin"
        shutil.rmtree(package, ignore_errors=True)  # what an earlier build left
        super().run()
        if FITS:
            shutil.copy(PROGRAM, package)


setup(
    cmdclass={"build_py": BuildWithProgram},
    # A wheel with a program is one for machines of this kind.
    options={"bdist_wheel": {"plat_name": "linux_x86_64"}} if FITS else {},
)
