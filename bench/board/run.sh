#!/bin/sh
# Times set and get on a board next to Rust's fetch_max and load, and prints nanoseconds a call: the least of seven runs.
# The program is proved, built and run in a temporary folder, next to a copy of the crates.
set -eu
here=$(cd "$(dirname "$0")" && pwd)
work=$(mktemp -d)
trap 'rm -rf "$work"' EXIT

for loop in set_often get_often; do
    mkdir -p "$work/crates/times/proofs/$loop"
    cat > "$work/crates/times/proofs/$loop/Invariants.antt" <<END
use Rattle.std.proofs.Common.{◌≡◌, ◌≢◌, []}
use Rattle.times.proofs.$loop.Given as goal

abbrev pub invariant-loop : goal.invariant-loop
invariant-loop l = (l.hand.board ≡ l.board) × (l.hand.answers ≢ [])
END
done

"$here/../beside.sh" "$here" "$work" tc_board tc_verdict > "$work/board.txt"
rustc --edition 2024 -O -o "$work/rust_times" "$here/times.rs"
"$work/rust_times" > "$work/rust.txt"

awk '
    $2 ~ /^[0-9]+$/ {
        key = $1 SUBSEP (FILENAME ~ /board.txt$/ ? "board" : "rust")
        if (!(key in least) || $2 < least[key]) least[key] = $2
    }
    function line(name, ours, theirs) {
        printf "%-28s %10.2f %10.2f\n", name, ours / 1000, theirs / 1000
    }
    function plain(name, key) {
        line(name, least[key, "board"], least[key, "rust"])
    }
    function rise(side) {
        return (least["new_board_and_three_sets", side] - least["new_board", side]) / 3
    }
    END {
        printf "%-28s %10s %10s\n", "nanoseconds a call", "board", "Rust"
        plain("set, nothing worse", "set_one_thread")
        line("set, worse", rise("board"), rise("rust"))
        plain("get", "get_one_thread")
        plain("set, two threads", "set_two_threads")
        plain("get, two threads", "get_two_threads")
    }
' "$work/board.txt" "$work/rust.txt"
