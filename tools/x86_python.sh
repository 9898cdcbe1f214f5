#!/usr/bin/env bash
# x86_python.sh DIR PACKAGE...: for a processor that is not x86-64, an x86-64 Python with the packages, out of Debian's. Unpacks them and all that they need below DIR,
# installs nothing, and writes DIR/sys/usr/bin/python-x86, which runs it by the emulator; the programs that it starts by sys.executable too.
set -euo pipefail
dir=$(mkdir -p "$1" && cd "$1" && pwd)
mkdir -p "$dir/state/lists/partial" "$dir/cache/archives/partial"
: >"$dir/state/status" # nothing is there yet, so all that is needed is fetched
apt=(apt-get -q -o APT::Architecture=amd64 -o APT::Architectures=amd64 -o Dir::State="$dir/state" -o Dir::State::status="$dir/state/status" -o Dir::Cache="$dir/cache")
"${apt[@]}" update >/dev/null
"${apt[@]}" install -y --no-install-recommends --download-only "${@:2}" >/dev/null
for deb in "$dir"/cache/archives/*.deb; do dpkg -x "$deb" "$dir/sys"; done
# What the packages' own scripts would do: links that stay within, and the mathematics libraries by their names.
ln -sf ../lib/x86_64-linux-gnu/ld-linux-x86-64.so.2 "$dir/sys/lib64/ld-linux-x86-64.so.2"
libraries=$dir/sys/usr/lib/x86_64-linux-gnu
for library in blas lapack; do ln -sf "$library/lib$library.so.3" "$libraries/lib$library.so.3"; done
python=$dir/sys/usr/bin/python-x86
cat >"$python" <<EOF
#!/bin/sh
exec qemu-x86_64 -L $dir/sys -0 $python $dir/sys/usr/bin/$(readlink "$dir/sys/usr/bin/python3") "\$@"
EOF
chmod +x "$python"
"$python" --version
