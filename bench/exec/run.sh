#!/usr/bin/env bash
# Times cases run by `run_case` next to a plain Rust program of the same job, and prints microseconds a case: the median of all cases.
# The program is proved, built and run in a temporary folder, next to a copy of the crates.
set -eu
here=$(cd "$(dirname "${BASH_SOURCE[0]}")" && pwd)
rounds=${1:-7}
work=$(mktemp -d)
trap 'rm -rf "$work"' EXIT

"$here/../beside.sh" "$here" "$work" tc_exec tc_book tc_entry tc_verdict > "$work/first.txt"
for name in twin threads; do
    rustc --edition 2024 -O -o "$work/$name" "$here/$name.rs"
done
for _ in $(seq "$rounds"); do
    "$work/crates/times/out/times" >> "$work/ours.txt"
    "$work/twin" >> "$work/theirs.txt"
    "$work/threads" >> "$work/threads.txt"
done

# The median of the nanoseconds of a name in a file, in microseconds.
median() {
    sed -n "s/^$2 //p" "$work/$1.txt" | sort -n | awk '{ all[NR] = $1 } END { print (all[int((NR + 1) / 2)] + all[int(NR / 2) + 1]) / 2000 }'
}
for name in all sixty_four two; do
    echo "$name $(median ours "$name") $(median theirs "$name")"
done | awk 'BEGIN { print "microseconds a case: run_case, twin, ratio" } { printf "%-12s %10.1f %10.1f %6.2f\n", $1, $2, $3, $2 / $3 }'
echo "a thread made and joined: $(median threads thread) microseconds"
