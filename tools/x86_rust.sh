#!/usr/bin/env bash
# x86_rust.sh DIR: for a processor that is not x86-64, a rustc with the x86-64 standard library, out of Debian's packages (rustc-web).
# Unpacks them below DIR, installs nothing, and writes DIR/rustc-x86, to be used as RUSTC.
set -euo pipefail
dir=$(mkdir -p "$1/debs" && cd "$1" && pwd)
as_root() { if [ "$(id -u)" = 0 ]; then "$@"; else sudo "$@"; fi; }
as_root dpkg --add-architecture amd64
as_root apt-get update -q >/dev/null
cd "$dir/debs"
std=$(apt-cache depends libstd-rust-web-dev | sed -n 's/.*Depends: \(libstd-rust-web-1[0-9.]*\)$/\1/p' | head -1)
llvm=$(apt-cache depends "$std" rustc-web | sed -n 's/.*Depends: \(libllvm[0-9]*\)$/\1/p' | head -1)
apt-get download -q rustc-web "$std" libstd-rust-web-dev "$llvm" "$std:amd64" libstd-rust-web-dev:amd64 >/dev/null
for deb in *.deb; do dpkg -x "$deb" "$dir/sys"; done
libs=$(dirname "$(find "$dir/sys" -name 'libLLVM*.so*' | head -1)")
cat > "$dir/rustc-x86" <<EOF
#!/bin/sh
LD_LIBRARY_PATH=$dir/sys/usr/lib/$(uname -m)-linux-gnu:$libs exec $dir/sys/usr/bin/rustc --sysroot $dir/sys/usr "\$@"
EOF
chmod +x "$dir/rustc-x86"
"$dir/rustc-x86" --version
