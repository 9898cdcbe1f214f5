#!/usr/bin/env bash
# Reads a sheet from standard input, and writes its answer and records: the program `hours`, proved and made if it is missing, on any processor.
# Exit code 1 and a line on standard error where it could not read or write. (A Rattle program always ends with exit code 0: what it says on standard error tells.)
set -euo pipefail
. "$(dirname "$0")/x86.sh"
[ -x "$root/target/bin/hours" ] || bash "$root/tools/make_hours.sh" >&2
x86_tools
said=$(mktemp)
trap 'rm -f "$said"' EXIT
"${emulator[@]}" "$root/target/bin/hours" 2>"$said"
[ ! -s "$said" ] || { cat "$said" >&2; exit 1; }
