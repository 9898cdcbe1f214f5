#!/usr/bin/env bash
# Runs the program `hours` itself, by tools/hours.sh: every sheet of crates/hours_runs/stdin, whose output has to be the second reader's (tools/reference.py);
# a sheet that comes in pieces, one that is much too long, and input and output that fail. Exit code 0 only if all is as expected.
set -euo pipefail
root=$(cd "$(dirname "$0")/.." && pwd)
work=$(mktemp -d)
trap 'rm -rf "$work"' EXIT
runs=0
wrong=0

# run NAME CODE: counts a run that ended with this code, and whose $work/out is $work/wanted; one that failed says so on one line, any other says nothing
run() {
    local lines=$(($2 > 0))
    runs=$((runs + 1))
    if [ "$code" = "$2" ] && cmp -s "$work/out" "$work/wanted" && [ "$(wc -l <"$work/said")" = "$lines" ]; then return; fi
    wrong=$((wrong + 1))
    echo "$1: exit code $code, $(wc -l <"$work/out") lines from '$(head -1 "$work/out")' on, on standard error: $(cat "$work/said")"
}

# hours: the program, from standard input to $work/out
hours() {
    code=0
    timeout 60 bash "$root/tools/hours.sh" >"$work/out" 2>"$work/said" || code=$?
}

bash "$root/tools/hours.sh" </dev/null >/dev/null # proved and made first

while IFS= read -r sheet || [ -n "$sheet" ]; do
    printf '%s' "$sheet" >"$work/sheet"
    python3 "$root/tools/reference.py" sheets "$work/sheet" >"$work/wanted"
    hours <"$work/sheet"
    run "${sheet:0:60}" 0
done <"$root/crates/hours_runs/stdin"

printf '10:00+' >"$work/sheet"
python3 "$root/tools/reference.py" sheets "$work/sheet" >"$work/wanted"
hours < <(printf '10:0'; sleep 0.3; printf '0+')
run "a sheet in pieces" 0

printf '1 0 0 0\n' >"$work/wanted"
hours < <(head -c 100000 /dev/zero | tr '\0' ' ')
run "100,000 bytes" 0

: >"$work/wanted"
hours <"$work"
run "a directory as input" 1
hours <&-
run "no input" 1

code=0
: >"$work/out"
bash "$root/tools/hours.sh" <"$work/sheet" >/dev/full 2>"$work/said" || code=$?
run "a full disk as output" 1

echo "$runs runs, $wrong wrong"
[ "$wrong" = 0 ]
