#!/usr/bin/env bash
# What the Python package costs: tools/speed/python.py over the shared library. Installs what is missing and makes what is not there (shared.sh, python.sh).
# On another processor than x86-64 all of it runs by an emulator: only the ratios tell something then.
set -euo pipefail
. "$(dirname "$0")/shared.sh"
. "$(dirname "$0")/python.sh"
LORUKINDE_LIB=$shared PYTHONPATH=$root/python "$python" "$root/tools/speed/python.py" "$@"
