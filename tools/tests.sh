#!/usr/bin/env bash
# All tests of what stands on the proved library: the Rust crate and the program, the installed library from C, the Python package. Each installs what is missing.
set -euo pipefail
tools=$(dirname "$0")
bash "$tools/rust_tests.sh"
bash "$tools/install_tests.sh"
bash "$tools/python_tests.sh"
