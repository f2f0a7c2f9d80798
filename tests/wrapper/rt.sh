#!/usr/bin/env bash
# An rt that proves nothing. It locks the folders that an rt locks, holds each crate below to be built of its sources, and leaves
# what an rt leaves. FAKE_PAUSE, or FAKE_PAUSE_NAME, is how long each half of a crate takes; what FAKE_STATUS, FAKE_FAULT, FAKE_ENDS
# and FAKE_NOTHING say goes for the crate FAKE_AT, or the program.
name=${PWD##*/}
tell() { echo "$*" >> "$FAKE_FOLDER/calls"; }
trap 'tell "ended $name"; exit 1' INT TERM HUP
uses() { sed -n "s/^$1://p" ../../crates.txt | tr ' ' '\n' | grep '^tc_'; }
below() { uses "$1" | while read -r it; do echo "$it"; below "$it"; done; }
stamp() {
    {
        find "../$1/src" "../$1/specs" "../$1/proofs" -type f | LC_ALL=C sort | xargs -d '\n' cat
        uses "$1" | while read -r it; do stamp "$it"; done
    } 2>&1 | cksum
}
pause=FAKE_PAUSE_$name
pause=${!pause:-${FAKE_PAUSE:-0}}
if [ "$1" = try ]; then
    shift 2
    tell "try $name $*"
    [ -f /dev/stdin ] || tell "fault: rt try was given a pipe"
    case ${FAKE_TRY:-} in
        no) printf "| told\nchecked: no-answer: the program did not end\nrun=no-answer proved=no\n" >&2; exit 6 ;;
        slow) sleep 60 & wait $! ;;
        odd) printf "run=ended status=9 proved=no\nchecked: ended status=9\n" >&2 ;;
    esac
    [ $# = 0 ] || printf '<%s>' "$@"
    cat
    printf "told\nchecked: ended status=${ENDS:-0}\nraces: not looked for\nrun=ended status=${ENDS:-0} runners=1 races=unchecked proved=no\n" >&2
    exit "${ENDS:-0}"
fi
if [ "$1" = doc ]; then
    echo "$FAKE_FOLDER/kit/START-HERE.md"
    exit
fi
verb=$1
shift
tell "$verb $name $*"
nice > "$FAKE_FOLDER/nice of $name"
[ ! -t 0 ] && [ "$(head -c 1 | wc -c)" = 0 ] || tell "fault: rt was given input"
readlink /proc/$PPID/fd/* | grep -q '/ttrun.lock$' && tell "fault: what builds holds the wrapper's lock"
for it in "$name" $(uses "$name"); do
    exec {held}< "../$it"
    [ -n "${NO_LOCKS:-}" ] || flock -n "$held" || { echo "rt: waiting for another rt to finish in $it"; tell "$name waits for another rt"; flock "$held"; }
done
for it in $(below "$name" | sort -u); do
    [ "$(cat "../$it/out/rlib/stamp" 2> /dev/null)" = "$(stamp "$it")" ] || tell "fault: $it is not built below $name"
done
[ -s ../../HANDLES ] || tell "fault: there is no HANDLES above $name"
for it in $(sed -nE 's/^([a-z_]+)[ :].*/\1/p' ../../crates.txt); do
    [ -d "../$it/src" ] || tell "fault: crates.txt above $name lists $it, which is not there"
done
is_here() { [ "$name" = "${FAKE_AT:-ttrun}" ]; }
if [ "$verb" = run ] || [ "$(cat out/rlib/stamp 2> /dev/null)" != "$(stamp "$name")" ]; then
    mkdir -p out/incremental out/rlib
    rm -rf out/rlib/stamp
    echo "kept of $name before: $(cat out/incremental/kept 2> /dev/null)"
    { echo begun > out/incremental/kept.new; mv out/incremental/kept.new out/incremental/kept; }
    echo "so far: 0 of 12 functions checked; the verdict comes last"
    sleep "$pause" & wait $!
    echo "so far: 7 of 12 functions checked"
    sleep "$pause" & wait $!
    if is_here && [ "${FAKE_FAULT:-}" ] && [ ! -e "$FAKE_FOLDER/killed" ]; then
        [ "$FAKE_FAULT" = once ] && : > "$FAKE_FOLDER/killed"
        tell "killed $name"
        echo "error: $name::one is not proved in $PWD"
        [ "${FAKE_ENDS:-}" ] && exit "$FAKE_ENDS"
        kill -9 $$
    fi
    is_here && [ "${FAKE_STATUS:-0}" != 0 ] && { echo "error: $name::one is not proved in $PWD"; exit "$FAKE_STATUS"; }
    echo "fn $name::one: proved"
    { echo whole > out/incremental/kept.new; mv out/incremental/kept.new out/incremental/kept; }
    stamp "$name" > out/rlib/stamp
else
    tell "kept $name"
    exit 0
fi
if [ "$verb" = run ] && [ -z "${FAKE_NOTHING:-}" ]; then
    cat > out/ttrun.part <<PROGRAM
#!/usr/bin/env bash
built="$(cat ../tc_low/src/*.rt ../ttrun/src/*.rt | cksum | tr ' ' _)"
PROGRAM
    cat >> out/ttrun.part <<'PROGRAM'
case ${1:-} in
    sum) echo "$built" ;;
    id) echo "$$" ;;
    state) ls /proc/self/fd; grep -E 'Sig(Ign|Blk)' /proc/self/status; pwd; umask ;;
    *) printf '<%s>' "$@"; cat; echo told >&2; exit "${ENDS:-0}" ;;
esac
PROGRAM
    chmod +x out/ttrun.part && mv out/ttrun.part out/ttrun
    [ -z "${FAKE_LATE:-}" ] || sleep 30 & wait $!
fi
[ "$name" != filskeam ] || { echo "int filskeam_open(void) { return 1; }" | cc -fPIC -x c -c - -o out/one.o && ar rc out/libfilskeam.a out/one.o; }
tell "built $name"
