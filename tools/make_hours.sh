#!/usr/bin/env bash
# make_hours.sh: proves the program `hours` and makes target/bin/hours. It takes some minutes where nothing was proved before, and seconds where nothing has changed.
set -euo pipefail
root=$(cd "$(dirname "$0")/.." && pwd)
command -v rt >/dev/null || { echo "target/bin/hours is not there, and neither is rt, which makes it" >&2; exit 1; }
(cd "$root/crates/hours" && rt run </dev/null >/dev/null) # rt has no command that makes a program without running it: here it runs on no sheet
install -D -m 755 "$root/crates/hours/out/hours" "$root/target/bin/hours"
