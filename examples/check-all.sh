#!/bin/sh
# Runs what make check-examples promises, each part to its end, and tells which parts failed. Usage: check-all.sh [IX]
set -u
top=$(cd "$(dirname "$0")/.." && pwd)
ix=$(realpath "${1:-$top/build/ix}")

# needed COMMAND PACKAGE: notes the package where the command is not there.
lacking=
needed() {
    command -v "$1" > /dev/null || lacking="$lacking $2"
}
needed make make
needed parallel parallel
needed zsh zsh
needed fish fish
needed mandoc mandoc
python=
for candidate in python3 /usr/bin/python3; do
    [ -z "$python" ] && "$candidate" -c 'import distributed' 2> /dev/null && python=$candidate
done
[ -n "$python" ] || lacking="$lacking python3-distributed"
if [ -n "$lacking" ]; then
    echo "make check-examples needs more of the system: apt install$lacking" >&2
    exit 2
fi

failed=
# part NAME COMMAND..: runs a part.
part() {
    name=$1
    shift
    echo "== $name"
    "$@" || failed="$failed $name"
}
# Of a sample this small the figures say nothing, so they are not shown.
cost() {
    "$top/examples/cluster/cost.py" --ix "$ix" "$top/examples/mail.txt" > /dev/null
}
part cookbook "$top/examples/check-cookbook.sh" "$ix"
part cluster "$python" "$top/examples/cluster/check.py" "$ix"
part cost cost
part share "$top/share/check.py" "$ix"
part pictures "$top/docs/design/pictures/draw.py" --check "$ix"
if [ -n "$failed" ]; then
    echo "failed:$failed" >&2
    exit 1
fi
echo "the examples are as they should be"
