#!/usr/bin/env bash
# Times a logged setting on 1, 2 and 4 threads next to a plain Rust loop, and prints nanoseconds a setting: the least of seven rounds.
# The program is proved, built and run in a temporary folder, next to a copy of the crates.
set -eu
here=$(cd "$(dirname "${BASH_SOURCE[0]}")" && pwd)
work=$(mktemp -d)
trap 'rm -rf "$work"' EXIT

"$here/../beside.sh" "$here" "$work" tc_exec tc_book tc_entry tc_verdict > "$work/ours.txt"
rustc --edition 2024 -O -o "$work/rust_times" "$here/times.rs"
"$work/rust_times" > "$work/theirs.txt"

awk '
    $2 ~ /^[0-9]+$/ {
        key = $1 SUBSEP (FILENAME ~ /ours.txt$/ ? "ours" : "theirs")
        if (!(key in least) || $2 < least[key]) least[key] = $2
    }
    END {
        printf "%-24s %12s %8s\n", "nanoseconds a setting", "set_verdict", "Rust"
        for (threads = 1; threads <= 4; threads *= 2) {
            printf "%-24s %12.2f %8.2f\n", threads " threads", least[threads, "ours"] / 200000, least[threads, "theirs"] / 200000
        }
    }
' "$work/ours.txt" "$work/theirs.txt"
