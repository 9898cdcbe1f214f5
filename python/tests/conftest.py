"""What the tests share: the sheets of the lists in tools/, and the Rust crate's answers."""
import os
import shlex
import subprocess
from pathlib import Path

import pytest
from hypothesis import settings

ROOT = Path(__file__).resolve().parents[2]

settings.register_profile("lorukinde", max_examples=int(os.environ.get("LORUKINDE_CASES", "10000")), deadline=None, database=None)
settings.load_profile("lorukinde")


class Answers:
    """The Rust crate's answers, by its example `answers`, which LORUKINDE_ANSWERS runs."""

    def __init__(self):
        command = shlex.split(os.environ["LORUKINDE_ANSWERS"])
        self._process = subprocess.Popen(command, stdin=subprocess.PIPE, stdout=subprocess.PIPE)

    def of(self, manner, sheet):
        self._process.stdin.write(b"%d %s\n" % (manner.value, sheet.hex().encode()))
        self._process.stdin.flush()
        lines = []
        while not lines or lines[-1] != b"end\n":
            lines.append(self._process.stdout.readline())
            assert lines[-1], "the crate's answers have ended"
        return b"".join(lines[:-1]).decode()

    def end(self):
        self._process.stdin.close()
        assert self._process.wait() == 0


@pytest.fixture(scope="session")
def answers():
    answers = Answers()
    yield answers
    answers.end()
