#!/bin/sh
# Records the logs of this folder again, on Eclipse Titan: they were made by this on Titan 8.2.0 (Debian 12, package 8.2.0-1).
# NAME.logs has the files of a folder of logs, each below a line with its name, as tail writes them.
set -eu
here=$(cd "$(dirname "$0")" && pwd)
room=$(mktemp -d)
trap 'rm -rf "$room"' EXIT
record() { "$here/../record.py" "$@" > /dev/null; }
keep() { rm -f "$room/$1"/*-hc*.log; (cd "$room/$1" && LC_ALL=C tail -n +1 *.log) > "$here/$2.logs"; }
merge() { ttcn3_logmerge -o "$here/$2" "$room/$1"/*.log 2> /dev/null; }
# The executable of a module is built once.
again() { mkdir -p "$room/$2"; cp -p "$room/$1/$3" "$room/$2/"; }

record Pumps "$room/full" --logging full; merge full pumps-full.merged
again full default Pumps; record Pumps "$room/default" --logging default; merge default pumps-default.merged
record Faults "$room/faults" --logging full; merge faults faults-full.merged
record Values "$room/values" --logging full; merge values values-full.merged
record Crowd "$room/crowd" --logging rotated --set tsp_parts=4 --set tsp_rounds=2; keep crowd crowd-rotated
again crowd twice Crowd
record Crowd "$room/twice" --logging appended --set tsp_parts=2 --set tsp_rounds=1
record Crowd "$room/twice" --logging appended --set tsp_parts=2 --set tsp_rounds=1; keep twice crowd-twice
record Crash "$room/crash" --logging default; merge crash crash.merged
record Shot "$room/shot" --logging default; keep shot shot
record Mimic "$room/mimic" --logging default; keep mimic mimic-default
again mimic typed Mimic; record Mimic "$room/typed" --logging typed; keep typed mimic-typed
record Quarrel "$room/quarrel" --logging full --shim --set tsp_parts=6 --set tsp_times=3; merge quarrel quarrel-shim.merged
