#!/usr/bin/env bash
# The Rust beside the C calls, each in one process: the edges of every range, COUNT random sheets of every shape, damaged copies among them.
#   run.sh [SEED [COUNT]]    default: 1 500000
# Says every difference that docs/DIFFERENCES.md does not list, and every difference of a whole answer (places and refused sheets too) from
# tools/reference.py. Exit code 0: there is none.
set -euo pipefail
here=$(cd "$(dirname "$0")" && pwd)
. "$here/../archive.sh"
[ -x "$root/target/oracle/oracle" ] || "$here/build.sh"
build "$root/target/oracle/calls" "$here/calls.c"
exec python3 "$here/compare.py" --ours "${emulator[*]} '$root/target/oracle/calls'" --whole --seed "${1:-1}" --count "${2:-500000}"
