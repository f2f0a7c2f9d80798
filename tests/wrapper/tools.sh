#!/usr/bin/env bash
# Instead of two tools. A sort that does what it does without LC_ALL=C if OTHER_TOOLS is set. A flock whose first wait ends at
# once, as one does whose time is over, if SHORT_WAIT names a file, which it leaves. If NO_LOCKS is set there is none, as in some
# file systems.
if [ "${0##*/}" = sort ]; then
    [ "${LC_ALL:-}" = C ] || [ -z "${OTHER_TOOLS:-}" ] || exec /usr/bin/sort -r "$@"
    exec /usr/bin/sort "$@"
fi
if [ -n "${NO_LOCKS:-}" ]; then
    echo "flock: $2: no locks available" >&2
    exit 71
fi
if [ "$1" = -w ] && [ -n "${SHORT_WAIT:-}" ] && [ ! -e "$SHORT_WAIT" ]; then
    : > "$SHORT_WAIT"
    exit 1
fi
exec /usr/bin/flock "$@"
