#!/usr/bin/env bash
# Proves, builds and runs a folder's times.rt.txt next to a copy of the crates: beside.sh FOLDER WORK CRATE..
# The crates that it uses and all below them are copied into WORK, where the program is out/times of crates/times.
set -eu
folder=$1 work=$2
shift 2
top=$(cd "$(dirname "${BASH_SOURCE[0]}")/.." && pwd)

mkdir -p "$work/crates/times/src"
needed=" $* "
lines="times: $*"
while IFS=: read -r crate below; do
    [[ $needed == *" $crate "* ]] || continue
    needed+="$below "
    lines="$crate:$below"$'\n'$lines
    cp -r "$top/crates/$crate" "$work/crates/"
done < <(tac "$top/crates.txt")
echo "$lines" > "$work/crates.txt"
cp "$top/HANDLES" "$work/"
cp "$folder/times.rt.txt" "$work/crates/times/src/main.rt"
(cd "$work/crates/times" && rt run) 2> "$work/log.txt" || { cat "$work/log.txt" >&2; exit 1; }
