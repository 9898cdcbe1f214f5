#!/usr/bin/env bash
# Installs below a new folder (install.sh) and tries what is there: the versions agree, the shared library exports its calls and nothing else, docs/C.md's program is
# built by its line and writes what the page says, the manual page has no fault, the completions complete. Installs what is missing.
set -euo pipefail
. "$(dirname "$0")/shared.sh"
need pkg-config pkg-config
need groff groff-base
need zsh zsh
work=$(mktemp -d)
trap 'rm -rf "$work"' EXIT
bash "$root/tools/install.sh" "$work/prefix"
cd "$work"
wrong=0
is() { [ "$2" = "$3" ] || { wrong=1; printf '%s:\n%s\nshould be\n%s\n' "$1" "$2" "$3"; }; }

# block LANGUAGE NUMBER: that block of docs/C.md
block() { awk -v mark="\`\`\`$1" -v wanted="$2" '/^```/ { if (inside) inside = 0; else { inside = 1; ours = $0 == mark; if (ours) n++ }; next } inside && ours && n == wanted' "$root/docs/C.md"; }

# One version.
export PKG_CONFIG_PATH=$work/prefix/lib/pkgconfig
is "version of pkg-config" "$(pkg-config --modversion lorukinde)" "$version"
is "version of the program" "$("${emulator[@]}" prefix/bin/lorukinde --version)" "lorukinde $version"
is "versions of the crates" "$(sed -n 's/^version = "\(.*\)"$/\1/p' "$root"/rust/*/Cargo.toml | sort -u)" "$version"
is "version of the manual page" "$(grep -o "\"lorukinde $version\"" prefix/share/man/man1/lorukinde.1)" "\"lorukinde $version\""
is "version of the package" "$(sed -n 's/^__version__ = "\(.*\)"$/\1/p' "$root/python/lorukinde/_version.py")" "$version"

# Only our names, and all of the header's.
binutils=$("$linker" -print-prog-name=nm)
exported=$("$binutils" -D --defined-only prefix/lib/liblorukinde.so | awk '{print $3}' | sort)
is "exported names" "$exported" "$(grep -oE '\blorukinde_[a-z_]+\(' "$root/include/lorukinde.h" | tr -d '(' | sort -u)"
is "soname" "$("${binutils%nm}objdump" -p prefix/lib/liblorukinde.so | awk '$1 == "SONAME" {print $2}')" "$soname"

# The page's program, by the page's line.
mkdir bin
ln -s "$(command -v "$linker")" bin/cc
block c 1 >parts.c
PATH=$work/bin:$PATH bash -euc "$(block sh 1)"
printf '#!/bin/sh\nLD_LIBRARY_PATH=%s exec "%s" "$@"\n' "$work/prefix/lib" "$work/parts" >run
[ ${#emulator[@]} = 0 ] || printf '#!/bin/sh\nexec %s -E LD_LIBRARY_PATH=%s "%s" "$@"\n' "${emulator[*]}" "$work/prefix/lib" "$work/parts" >run
chmod +x run
is "docs/C.md" "$(bash -euc "$(block sh 2 | sed 's,^\./parts,./run,')")" "$(block '' 1)"
echo '#include <lorukinde.h>
int main(void) { size_t from, to; return (int)lorukinde_note(0, 0, 0, 0, &from, &to); }' >static.c
"$linker" static.c $(pkg-config --cflags lorukinde) -Lprefix/lib -l:liblorukinde.a -o static
is "a program with the archive" "$("${emulator[@]}" ./static && echo ended)" "ended"

# The manual page, and the completions.
is "faults of the manual page" "$(groff -man -Tutf8 -ww prefix/share/man/man1/lorukinde.1 2>&1 >/dev/null)" ""
printf '#!/bin/sh\nexec %s "%s" "$@"\n' "${emulator[*]}" "$work/prefix/bin/lorukinde" >bin/lorukinde
chmod +x bin/lorukinde
by_bash() { PATH=$work/bin:$PATH bash -c 'source "$1"; COMP_WORDS=("${@:2}"); COMP_CWORD=$(($# - 2)); _lorukinde; echo "${COMPREPLY[@]}"' - prefix/share/bash-completion/completions/lorukinde "$@"; }
by_zsh() { PATH=$work/bin:$PATH zsh -fc 'compadd() { [[ $1 = -- ]] && shift; for w in $@; do [[ $w = $words[CURRENT]* ]] && print -rn -- "$w "; done; print }; _files() { print files }
    file=$1; shift; words=("$@"); CURRENT=$#; source $file' - prefix/share/zsh/site-functions/_lorukinde "$@"; }
is "bash: commands" "$(by_bash lorukinde ch)" "check"
is "bash: options" "$(by_bash lorukinde say --h)" "--help --house"
is "bash: editions" "$(by_bash lorukinde say --edition '')" "1 2"
is "zsh: commands" "$(by_zsh lorukinde ch)" "check "
is "zsh: options" "$(by_zsh lorukinde say --h)" "--help --house "
is "zsh: files" "$(by_zsh lorukinde say x)" "files"

# The crate's documentation needs no archive and no x86-64.
(cd "$crate" && env -u CARGO_BUILD_TARGET -u RUSTC LORUKINDE_LIB_DIR="$work" cargo doc --offline --quiet --no-deps --target-dir "$work/doc")
is "documentation" "$(ls "$work/doc/doc/lorukinde/index.html")" "$work/doc/doc/lorukinde/index.html"

[ "$wrong" = 0 ] && echo "installed: all as it should be"
