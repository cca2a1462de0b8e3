#!/bin/sh
# Times opening an index text against a bare pass of decoding over the whole file, and walking the documents of all its
# lists against decoding every code of them, on the proved build: of each INDEX, or without one of that of bench/writer.sh
# (ten million postings). Prints times, and the memory of opening beside the file.
# Usage: bench/open.sh [INDEX..] (needs rt and python3)
. "$(dirname "$0")/prelude.sh"
needs rt python3

copy_crates ix_output ix_text ix_vbyte ix_postings ix_index_text ix_file
add_program open ix_file ix_vbyte anyhow
if [ $# -eq 0 ]; then
    add_program writer ix_file ix_text ix_vbyte anyhow
    build writer_bench
    (cd "$work" && "$(built writer_bench)" > /dev/null)
    set -- "$work/ix_writer_bench"
fi
build open_bench

for index in "$@"; do
    python3 "$bench/open/measure.py" "$(built open_bench)" "$index"
done
