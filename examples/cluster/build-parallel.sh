#!/bin/sh
# Builds the indexes of a collection by GNU parallel (Debian: apt install parallel).
#
#   build-parallel.sh COLLECTION WORK [options of pieces.py cut]
#
# On many machines: PARALLEL='--sshlogin 8/anna,8/boris' with COLLECTION, WORK, this folder and the program to be seen there
# under the same paths. A step that fails, or whose machine is lost, is tried three times more.
# The indexes are WORK/i0000.ix and so on.
set -eu
if [ $# -lt 2 ]; then
    sed -n '2,9s/^# \{0,1\}//p' "$0" >&2
    exit 2
fi
collection=$1
work=$(realpath -m "$2")
shift 2
pieces=$(realpath "$(dirname "$0")")/pieces.py

# everywhere STEP: runs the step for each name that comes in, side by side
everywhere() {
    parallel --will-cite --no-run-if-empty --env IX --retries 4 --halt soon,fail=1 "$pieces" "$1" "$work" '{}'
}

"$pieces" cut "$collection" "$work" "$@"
"$pieces" list "$work" | everywhere count
"$pieces" number "$work"
"$pieces" list "$work" | everywhere run
"$pieces" groups "$work" | everywhere merge
"$pieces" indexes "$work" | everywhere merge
