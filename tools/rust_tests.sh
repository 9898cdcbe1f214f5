#!/usr/bin/env bash
# The crate rust/lorukinde over the static library: its tests, the numbers and places of its lists of slips by the second reader, and the program on one sheet.
# Installs what is missing and makes the archive if it is not there (rust.sh).
#   LORUKINDE_LIB_DIR   the folder of libc_calls.a (default: target/staticlib)
set -euo pipefail
. "$(dirname "$0")/rust.sh"
tests=()
[ "$(uname -m)" = x86_64 ] || tests=(--tests) # the example in the documentation would need an x86-64 rustdoc besides

cd "$crate"
cargo test --offline "${tests[@]}"
need python3 python3
python3 "$root/tools/check_slips.py" tests/slips.txt
python3 "$root/tools/check_slips.py" tests/meant.txt

said=$(printf '2020 Dec 25-05 off\n' | bash "$root/tools/lorukinde.sh" say)
echo "$said"
[ "$said" = "2020 Dec 25-05 off
  closed: 25 December 2020 to 5 January 2021" ] || { echo "the program should have said otherwise" >&2; exit 1; }
echo "rust/lorukinde: tests and program passed"
