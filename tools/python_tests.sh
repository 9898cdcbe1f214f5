#!/usr/bin/env bash
# The Python package: its types, and the package built as a wheel with the library in it, installed into a new folder, and tested there beside the Rust crate's answers.
# Installs what is missing and makes what is not there (shared.sh, python.sh).
#   LORUKINDE_CASES   how many random sheets (default: 10000)
# Words after the script's name go to pytest.
set -euo pipefail
. "$(dirname "$0")/shared.sh"
. "$(dirname "$0")/python.sh"
work=$(mktemp -d)
trap 'rm -rf "$work"' EXIT
LORUKINDE_ANSWERS="${emulator[*]} $(cargo_made "$crate" executable --example answers)"
export LORUKINDE_ANSWERS

need mypy mypy
mypy --strict --python-version 3.9 --ignore-missing-imports --cache-dir "$work/types" "$root/python/lorukinde"
"$python" -m pip --quiet wheel --no-deps --no-build-isolation --no-cache-dir --wheel-dir "$work/wheels" "$root/python"
"$python" -m pip --quiet install --root-user-action=ignore --no-deps --no-index --target "$work/packages" "$work"/wheels/*.whl
cd "$root/python/tests" # where there is no package but the installed one
PYTHONPATH=$work/packages "$python" -m pytest -q -p no:cacheprovider "$@"
