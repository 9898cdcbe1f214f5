#!/usr/bin/env bash
# install.sh PREFIX: puts below PREFIX the header, liblorukinde.a (the proved calls), liblorukinde.so (these, and the Rust crate's sentences), lorukinde.pc, the program
# `lorukinde`, its manual page, and its completions for bash and zsh. Installs what is missing (Debian's packages: gcc, cargo, rustc), and makes what is not there;
# the archive by make_archive.sh, which takes some minutes.
#   LORUKINDE_LIB_DIR   the folder of libc_calls.a (default: target/staticlib)
# All of it is x86-64; on another processor it is built for that, and the program runs by an emulator (x86.sh).
set -euo pipefail
[ $# = 1 ] || { echo "install.sh PREFIX" >&2; exit 2; }
. "$(dirname "$0")/shared.sh"
mkdir -p "$1"
prefix=$(cd "$1" && pwd)

put() { install -D -m "$1" "$2" "$prefix/$3"; }
put 644 "$root/include/lorukinde.h" include/lorukinde.h
put 644 "$LORUKINDE_LIB_DIR/libc_calls.a" lib/liblorukinde.a
put 755 "$shared" "lib/$(basename "$shared")"
ln -sf "$(basename "$shared")" "$prefix/lib/$soname"
ln -sf "$soname" "$prefix/lib/liblorukinde.so"
put 755 "$program" bin/lorukinde
put 644 "$root/tools/completions/lorukinde.bash" share/bash-completion/completions/lorukinde
put 644 "$root/tools/completions/_lorukinde" share/zsh/site-functions/_lorukinde

mkdir -p "$prefix/share/man/man1" "$prefix/lib/pkgconfig"
awk -v version="$version" -f "$root/tools/man.awk" "$crate/src/bin/lorukinde/help.txt" >"$prefix/share/man/man1/lorukinde.1"
cat >"$prefix/lib/pkgconfig/lorukinde.pc" <<EOF
prefix=$prefix
includedir=\${prefix}/include
libdir=\${prefix}/lib

Name: lorukinde
Description: Opening hours sheets read into records
Version: $version
Cflags: -I\${includedir}
Libs: -L\${libdir} -llorukinde
EOF
echo "lorukinde $version is installed below $prefix" >&2
