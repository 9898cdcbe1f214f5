#!/usr/bin/env python3
"""by_reference.py FILE: the answer of tools/reference.py for each line of a file, as the program writes it: four numbers, then each record."""
import os
import sys

sys.path.insert(0, os.path.join(os.path.dirname(os.path.abspath(__file__)), ".."))
import reference

for line in open(sys.argv[1], "rb"):
    s = line[:-1] if line.endswith(b"\n") else line
    sys.stdout.write("".join(x + "\n" for x in reference.sheet_lines(s, 8192)))
