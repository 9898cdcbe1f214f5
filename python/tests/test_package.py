"""The package as it is installed."""
import os
import re
import subprocess
import sys
from pathlib import Path

import lorukinde
from conftest import ROOT

PACKAGE = Path(lorukinde.__file__).parent


def test_one_version():
    header = (ROOT / "include" / "lorukinde.h").read_text()
    assert re.search(r'LORUKINDE_VERSION "(.*)"', header).group(1) == lorukinde.__version__


def test_types_and_library_are_in_the_wheel():
    assert (PACKAGE / "py.typed").exists()
    assert (PACKAGE / "liblorukinde.so").exists()


def imported(**environment):
    command = [sys.executable, "-c", "import lorukinde"]
    return subprocess.run(command, env={**os.environ, **environment}, capture_output=True, text=True)


def test_the_library_is_found_by_its_name():
    assert imported(LORUKINDE_LIB=str(PACKAGE / "liblorukinde.so")).returncode == 0
    run = imported(LORUKINDE_LIB="/nowhere/liblorukinde.so")
    assert run.returncode == 1 and "the library is looked for by LORUKINDE_LIB" in run.stderr


def test_python_3_9():
    """No syntax that Python 3.9 does not have."""
    import ast

    for file in PACKAGE.glob("*.py"):
        ast.parse(file.read_text(), feature_version=(3, 9))


def test_docs():
    """docs/PYTHON.md says what happens."""
    import doctest

    assert doctest.testfile(str(ROOT / "docs" / "PYTHON.md"), module_relative=False, optionflags=doctest.NORMALIZE_WHITESPACE | doctest.ELLIPSIS).failed == 0
