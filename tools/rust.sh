# To be sourced: what the crate rust/lorukinde needs to be built. Installs what is missing (Debian's packages) and makes the archive if it is not there (make_archive.sh).
#   LORUKINDE_LIB_DIR   the folder of libc_calls.a (default: target/staticlib)
# The archive is x86-64. On another processor cargo builds for x86-64 from here on, and "${emulator[@]}" runs what it built (x86.sh).
. "$(dirname "${BASH_SOURCE[0]}")/x86.sh"
crate=$root/rust/lorukinde
export LORUKINDE_LIB_DIR=${LORUKINDE_LIB_DIR:-$root/target/staticlib}
need cc gcc libc6-dev
need cargo cargo rustc
x86_cargo
if [ ! -f "$LORUKINDE_LIB_DIR/libc_calls.a" ]; then
    bash "$root/tools/make_archive.sh"
fi
