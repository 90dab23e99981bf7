#!/usr/bin/env bash
# Runs the statement program itself: every example, files of 65,536 and of 65,537 bytes, no file, one that comes in pieces, and input
# and output that fail. What it prints is compared whole.
set -euo pipefail
cd "$(dirname "${BASH_SOURCE[0]}")/.."

program=crates/statement/out/statement
(cd crates/statement && rt run </dev/null >/dev/null)
scratch=$(mktemp -d)
trap 'rm -rf "$scratch"' EXIT
count=0

# same WHAT EXPECTED SAID: what was printed, and what was said on standard error
same() {
    cmp "$2" "$scratch/printed" || { echo "the statement program: $1"; exit 1; }
    [[ "$(<"$scratch/said")" == "${3:-}" ]] || { echo "the statement program says on standard error, $1: $(<"$scratch/said")"; exit 1; }
    count=$((count + 1))
}

run() { "$program" >"$scratch/printed" 2>"$scratch/said"; }

# expect LINE: the one line that is to be printed, none for an empty one
expect() { printf '%s' "${1:+$1$'\n'}" >"$scratch/expected"; }

for month in examples/months/*.month; do
    run <"$month"
    same "$month" "${month%.month}.statement"
    (while IFS= read -r -n 700 -d '' piece || [[ -n "$piece" ]]; do printf '%s' "$piece"; sleep 0.01; done <"$month") | run
    same "$month in pieces" "${month%.month}.statement"
done

# The longest file: all 992 loads, with numbers so long that byte 65,536 is the line feed behind `end`. It is read whole, and its first
# load is out of range.
awk 'function number(digits) { return digits == 1 ? "1" : "1" sprintf("%0" (digits - 1) "d", 0) }
BEGIN {
    text = "month=4\ndays=30\nnonzone=0\ndaily=0\nweekly=0\nmonthly=0\nweekday=1\nzone=1,1\naccount=1,1,1\n"; last = "end=994\n"
    left = 65536 - length(text) - length(last)
    for (rows = 992; rows > 0; rows--) {
        line = "load=" number(19) "," number(19) ","
        line = line number(int(left / rows) - length(line) - 1) "\n"
        text = text line; left -= length(line)
    }
    printf "%s%s", text, last
}' >"$scratch/longest"
[[ $(wc -c <"$scratch/longest") == 65536 ]]
run <"$scratch/longest"
expect refuse=4,5,0
same "a file of 65,536 bytes" "$scratch/expected"
# A byte less: its last line has no line feed.
head -c 65535 "$scratch/longest" >"$scratch/cut"
run <"$scratch/cut"
expect "refuse=10,0,$((65536 - 8))"
same "a file of 65,535 bytes" "$scratch/expected"
# A byte more, whatever it is, and many more.
for bytes in 1 7393; do
    (cat "$scratch/longest"; head -c "$bytes" /dev/zero) | run
    expect refuse=1,0,0
    same "a file of $((65536 + bytes)) bytes" "$scratch/expected"
done

run </dev/null
expect refuse=10,0,0
same "no bytes" "$scratch/expected"

run <"$scratch"
expect ""
same "a directory" "$scratch/expected" "statement: standard input can't be read"
run <&-
same "no standard input" "$scratch/expected" "statement: standard input can't be read"
: >"$scratch/printed"
"$program" <examples/months/case-s.month >/dev/full 2>"$scratch/said"
same "a full device" "$scratch/expected" "statement: standard output can't be written"

echo "the statement program printed what it must, $count times"
