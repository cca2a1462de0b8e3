# What the scripts of this folder share. Each sources it, and then works in $work, a folder that is gone when it ends. Its
# programs are proved and built there in a repository of their own, over what earlier checks of the copied crates kept.
set -eu
bench=$(cd "$(dirname "$0")" && pwd)
top=$(dirname "$bench")
work=$(mktemp -d)
crates="$work/repo/crates"
trap 'rm -rf "$work"' EXIT
trap 'exit 1' HUP INT TERM

# needs COMMAND..: ends with a line that names each command that is missing.
needs() {
    missing=
    for command in "$@"; do
        command -v "$command" > /dev/null || missing="$missing $command"
    done
    if [ -n "$missing" ]; then
        echo "$0: not on the PATH:$missing" >&2
        exit 1
    fi
}

# copy_crates CRATE..: makes the repository, with copies of these crates of ix.
copy_crates() {
    mkdir -p "$crates"
    cp "$top/HANDLES" "$work/repo/"
    for crate in "$@"; do
        cp -pR "$top/crates/$crate" "$crates/"
        grep "^${crate}[ :]" "$top/crates.txt" >> "$work/repo/crates.txt"
    done
}

# add_program NAME CRATE..: adds NAME_bench, which stands on these crates. Of its folder here main.rt.txt becomes its source,
# and each FUNCTION.PART.antt.txt the file PART.antt of the proof of that function.
add_program() {
    program=$1
    shift
    echo "${program}_bench: $*" >> "$work/repo/crates.txt"
    mkdir -p "$crates/${program}_bench/src"
    cp "$bench/$program/main.rt.txt" "$crates/${program}_bench/src/main.rt"
    for file in "$bench/$program"/*.antt.txt; do
        if [ -e "$file" ]; then
            part=$(basename "$file" .antt.txt)
            proof="$crates/${program}_bench/proofs/${part%.*}"
            mkdir -p "$proof"
            cp "$file" "$proof/${part#*.}.antt"
        fi
    done
}

# build CRATE: proves and builds a program of the repository; with no arguments its own run there may fail.
build() {
    echo "proving $1"
    rm -f "$(built "$1")"
    (cd "$crates/$1" && rt run) > "$work/build.log" 2>&1 < /dev/null || test -x "$(built "$1")" || {
        cat "$work/build.log" >&2
        echo "$0: $1 was not proved and built" >&2
        exit 1
    }
}

# built CRATE: where the program stands.
built() {
    echo "$crates/$1/out/$1"
}
