#!/usr/bin/env bash
# lorukinde.sh say|check|json|page ...: the program `lorukinde`; --help says what it does. At the first run it is built: what is missing is installed (Debian's
# packages), the archive is made if it is not there, and the program is then cargo's release build.
#   LORUKINDE_LIB_DIR   the folder of libc_calls.a (default: target/staticlib)
# On another processor than x86-64 it is built for that and run by an emulator (x86.sh).
set -euo pipefail
. "$(dirname "$0")/rust.sh" >&2 # what it builds is no answer
[ -d "$crate/target" ] || echo "lorukinde is being built" >&2
built=$(cd "$crate" && cargo build --offline --quiet --release --bin lorukinde --message-format=json | sed -n 's/.*"executable":"\([^"]*\)".*/\1/p' | tail -1)
exec "${emulator[@]}" "$built" "$@"
