#!/usr/bin/env bash
# make_archive.sh: proves the calls for C and makes target/staticlib/libc_calls.a of them, the archive that C programs, the Rust crate and the Python package are linked
# with. It is the static library of crates/c_calls_c, whose functions are those of crates/c_calls under the names of include/lorukinde.h.
# It takes some minutes where nothing was proved before, and seconds where nothing has changed.
set -euo pipefail
root=$(cd "$(dirname "$0")/.." && pwd)
command -v rt >/dev/null || { echo "libc_calls.a is not there, and neither is rt, which makes it" >&2; exit 1; }
(cd "$root/crates/c_calls_c" && rt lib) >&2
install -D -m 644 "$root/crates/c_calls_c/out/libc_calls_c.a" "$root/target/staticlib/libc_calls.a"
