#!/usr/bin/env bash
# Fuzzes the C calls: CALLS calls with each lent buffer's end at an unreadable page, as many with its beginning there; then every fault planted in
# faults.c has to be found.
#   run.sh [SEED [CALLS]]    default: 1 5000000
set -euo pipefail
here=$(cd "$(dirname "$0")" && pwd)
. "$here/../archive.sh"
seed=${1:-1} calls=${2:-5000000} dir=$root/target/fuzz faults=103
build "$dir/fuzz" "$here/fuzz.c"
"${emulator[@]}" "$dir/fuzz" "$seed" "$calls" end
"${emulator[@]}" "$dir/fuzz" "$((seed + 1))" "$calls" begin

wraps=()
for call in read_sheet read_part read_sheet_in read_part_in read_house_sheet read_house_part read_feed note; do wraps+=("-Wl,--wrap=lorukinde_$call"); done
build "$dir/faulty" "$here/fuzz.c" "$here/faults.c" "${wraps[@]}"
FAULT=0 "${emulator[@]}" "$dir/faulty" "$seed" 100000 end >/dev/null
found=0
for ((n = 1; n <= faults; n++)); do
    if [ -t 2 ]; then printf '\rfault %d of %d' "$n" "$faults" >&2; fi
    ended=0
    for side in end begin; do # (a step over one side is seen where the unreadable page is, or by its mark)
        FAULT=$n "${emulator[@]}" "$dir/faulty" "$seed" 100000 $side >"$dir/log" || ended=1
    done
    if [ $ended = 1 ]; then found=$((found + 1)); else echo "not found: fault $n"; fi
done
if [ -t 2 ]; then printf '\r\033[K' >&2; fi
echo "planted faults found: $found of $faults"
[ $found = $faults ]
