"""Puts the shared library into the wheel, which is then one for this processor and for any Python 3.

The library is target/shared/liblorukinde.so, where tools/install.sh makes it, or the file that LORUKINDE_LIB names.
"""
import os
import shutil
from pathlib import Path

from setuptools import setup
from setuptools.command.build_py import build_py

try:
    from setuptools.command.bdist_wheel import bdist_wheel
except ImportError:  # setuptools before 70.1
    from wheel.bdist_wheel import bdist_wheel

LIBRARY = "liblorukinde.so"


class BuildWithLibrary(build_py):
    def run(self):
        super().run()
        made = Path(__file__).resolve().parent.parent / "target" / "shared" / LIBRARY
        library = Path(os.environ.get("LORUKINDE_LIB", made))
        if not library.is_file():
            raise SystemExit(f"{library} is not there: run tools/install.sh first, or name the library in LORUKINDE_LIB")
        shutil.copyfile(library, Path(self.build_lib) / "lorukinde" / LIBRARY)


class WheelOfThisProcessor(bdist_wheel):
    def finalize_options(self):
        super().finalize_options()
        self.root_is_pure = False

    def get_tag(self):
        return "py3", "none", super().get_tag()[2]


setup(cmdclass={"build_py": BuildWithLibrary, "bdist_wheel": WheelOfThisProcessor})
