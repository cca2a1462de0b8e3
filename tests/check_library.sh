#!/bin/sh
# Checks the library that `make lib` made: each call from C under valgrind and under the address sanitizer, two threads
# on one index, the programs of examples/library, Python's docstrings, and the oracle (by `make check-lib`).
#
#     tests/check_library.sh [COUNT]     COUNT collections for the oracle; 10,000 without it
set -eu
cd "$(dirname "$0")/.."
work=$(mktemp -d)
trap 'rm -rf "$work"' EXIT
warn="-std=c11 -Wall -Wextra -Werror -Ibuild/include"

echo "calls from C, linked with the archive, under valgrind .."
gcc -g -O1 $warn tests/library_calls.c build/libix.a -o "$work/calls"
valgrind -q --error-exitcode=9 --leak-check=full --errors-for-leak-kinds=all "$work/calls"

echo "the same, with the address sanitizer, and by the shared library .."
gcc -g -O1 -fsanitize=address $warn tests/library_calls.c build/libix.a -o "$work/sane"
"$work/sane"
PKG_CONFIG_PATH=build/lib/pkgconfig gcc $warn tests/library_calls.c $(PKG_CONFIG_PATH=build/lib/pkgconfig pkg-config --cflags --libs ix) \
    -Wl,-rpath,"$(pwd)/build" -o "$work/shared"
"$work/shared"

echo "the header in C++, and what the shared library shows and wants .."
printf '#include <ix.h>\nint main() { return IX_DONE; }\n' > "$work/header.cc"
g++ -std=c++11 -Wall -Wextra -Werror -Ibuild/include "$work/header.cc" -o "$work/header"
"$work/header"
test "$(nm -D --defined-only build/libix.so | awk '{print $3}' | sort | tr '\n' ' ')" = \
    "ix_ask ix_build ix_index_close ix_index_names ix_index_open ix_index_search ix_index_terms ix_merge ix_run ix_search ix_search_trusting ix_terms "

echo "threads on one index text, each with a handle and without .."
gcc -g -O1 $warn tests/library_threads.c build/libix.a -lpthread -o "$work/threads"
"$work/threads"
gcc -g -O1 -fsanitize=thread $warn tests/library_threads.c build/libix.a -lpthread -o "$work/raced"
"$work/raced"

echo "examples/library .."
examples/library/check.sh

echo "Python: docstrings, and the oracle .."
(cd python && python3 -B -m doctest ix.py)
PYTHONDONTWRITEBYTECODE=1 tests/check_library.py "${1:-10000}"
if command -v cargo > /dev/null; then
    echo "Rust: examples of the documentation, and a pool of readers .."
    CARGO_TARGET_DIR="$work/rust"
    export CARGO_TARGET_DIR
    (cd rust && cargo test --quiet --offline && cargo build --quiet --offline --examples)
    (cd python && python3 -B -c 'import sys, ix; ix.build({"a": "red fox", "b": "dog"}, sys.argv[1])' "$work/index")
    printf 'fox\nfox AND\nNOT cat\n' | "$work/rust/debug/examples/readers" "$work/index" 3 > "$work/answers"
    printf 'fox\t1\nfox AND\tquery 3: End\nNOT cat\t2\n' | cmp - "$work/answers"
else
    echo "no cargo: the crate in rust/ is not tried"
fi
echo "the library: all as it is to be"
