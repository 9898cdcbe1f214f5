#!/usr/bin/env python3
"""Looks up each name of docs/PORT-OTHER.md in the file that the table names: `crate/specs/File `name`, `name``, or `crate/src/file.rt `name``. Exit code 0 only if all are there."""
import os
import re
import sys

ROOT = os.path.dirname(os.path.dirname(os.path.abspath(__file__)))
FILE = re.compile(r"([a-z0-9_]+/(?:specs/\w+|src/\w+\.rt)) ((?:`\w+`(?:, )?)+)")


def defined(path, name):
    """whether a file of definitions or of code defines the name"""
    is_code = path.endswith(".rt")
    text = open(os.path.join(ROOT, "crates", path if is_code else path + ".antt")).read()
    return re.search(rf"\bfn {name}\b" if is_code else rf"(?m)^(?:unfoldable |abbrev )?pub {name} ", text)


def main():
    looked_up = [(path, name) for path, names in FILE.findall(open(os.path.join(ROOT, "docs/PORT-OTHER.md")).read()) for name in re.findall(r"\w+", names)]
    missing = [f"{path} has no {name}" for path, name in looked_up if not defined(path, name)]
    print("\n".join(missing + [f"{len(looked_up)} names looked up, {len(missing)} missing"]))
    return 1 if missing or not looked_up else 0


if __name__ == "__main__":
    sys.exit(main())
