#!/usr/bin/env bash
# Makes all figures again, or those of the folders that are named: bench/run.sh [ratios | FOLDER ..]
# `ratios` is the table of ttrun next to its twins (bench/ratios.py). It comes first; if a ratio has risen, the status is 1.
# Before each part come the state of the sources, the toolchains and the load of the machine, and after it the load again.
set -u
here=$(cd "$(dirname "${BASH_SOURCE[0]}")" && pwd)
top=$here/..
parts=("$@")
[ "$#" != 0 ] || parts=(ratios exec verdicts board explore serve)

# The command that makes the figures of a part, in the array `command`.
find_command() {
    local program=$top/crates/ttrun/out/ttrun
    if [ "$1" = ratios ]; then
        command=(python3 "$here/ratios.py" "$program")
        ! command -v valgrind > /dev/null || command+=(--instructions)
    elif [ -e "$here/$1/run.sh" ]; then
        command=("$here/$1/run.sh")
    elif [ -e "$here/$1/measure.py" ]; then
        command=(python3 "$here/$1/measure.py" "$program")
    else
        echo "bench: there are no figures of $1" >&2
        return 1
    fi
}

missing=0
for it in rt rustc python3 git; do
    command -v "$it" > /dev/null || { echo "bench: there is no $it on the path" >&2; missing=1; }
done
for it in "${parts[@]}"; do
    find_command "$it" || missing=1
done
[ "$missing" = 0 ] || exit 3

load() { cut -d ' ' -f 1-3 /proc/loadavg; }

"$top/ttrun" --help > /dev/null || exit 3
echo "commit $(git -C "$top" rev-parse --short HEAD), $(rt version), $(rustc --version), $(nproc) processors, $(date --iso-8601)"
failed=0
for it in "${parts[@]}"; do
    find_command "$it"
    printf '\n== %s, load %s\n' "$it" "$(load)"
    "${command[@]}" || { echo "bench: $it failed" >&2; failed=1; }
    printf -- '-- %s, load %s behind it\n' "$it" "$(load)"
done
exit "$failed"
