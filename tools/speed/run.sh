#!/usr/bin/env bash
# What a reading costs, ours, a plain C reader's, the Rust's and on x86-64 KOpeningHours' in one run: writes the tables of docs/SPEED.md.
#   NO_RUST   if set: the Rust is left out
# On x86-64 valgrind counts. Elsewhere both are built for x86-64 and qemu-x86_64 counts.
set -euo pipefail
here=$(cd "$(dirname "$0")" && pwd)
. "$here/../archive.sh"
dir=$root/target/speed
build "$dir/bench" "$here/bench.c"
build "$dir/stack" "$here/stack.c" -pthread
$compiler -O2 -Wall -Wextra -DPLAIN_C -I "$root/include" "$here/bench.c" "$here/reader.c" -o "$dir/bench_c"

# rust FOLDER: the Rust, as the environment has it, if it is not there
rust() {
    [ -x "$dir/$1/oracle" ] || BUILD=$dir/$1 NUMBERS=ranges X86=1 "$here/../oracle/build.sh" >&2
}
rusts=()
if [ -z "${NO_RUST:-}" ]; then
    rust release
    CARGO_PROFILE_RELEASE_LTO=true CARGO_PROFILE_RELEASE_CODEGEN_UNITS=1 rust lto
    rusts=("the Rust=$dir/release/oracle" "the Rust, with LTO over one unit=$dir/lto/oracle")
fi
if [ "$(uname -m)" = x86_64 ]; then
    need valgrind valgrind
    need_packages g++ qtbase5-dev libkopeninghours-dev
    qt=/usr/include/x86_64-linux-gnu/qt5
    g++ -O2 -Wall -Wextra -fPIC -I /usr/include/kopeninghours -I $qt -I $qt/QtCore "$here/kopeninghours.cpp" -o "$dir/kopeninghours" -lKOpeningHours -lQt5Core
    exec python3 "$here/measure.py" "$dir/bench" "$dir/bench_c" "$dir/stack" "${rusts[@]}" --kopeninghours "$dir/kopeninghours"
fi
need gcc gcc libc6-dev
gcc -O2 -shared -fPIC "$here/insn.c" -o "$dir/insn.so"
exec python3 "$here/measure.py" "$dir/bench" "$dir/bench_c" "$dir/stack" "${rusts[@]}" --emulated "$dir/insn.so"
