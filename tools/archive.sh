# To be sourced: the static library of the C calls, and how a C program over it is built; "${emulator[@]}" runs it.
#   ARCHIVE   the library (default: target/staticlib/libc_calls.a, proved and made if it is missing: make_archive.sh)
. "$(dirname "${BASH_SOURCE[0]}")/x86.sh"
archive=${ARCHIVE:-$root/target/staticlib/libc_calls.a}
x86_tools
if [ "$(uname -m)" = x86_64 ]; then
    need gcc gcc libc6-dev
    compiler="gcc"
else
    compiler="x86_64-linux-gnu-gcc -static"
fi
[ -f "$archive" ] || bash "$root/tools/make_archive.sh"

# build PROGRAM FILE.c [WORDS...]
build() {
    mkdir -p "$(dirname "$1")"
    $compiler -O2 -Wall -Wextra -I "$root/include" "${@:3}" "$2" "$archive" -o "$1"
}
