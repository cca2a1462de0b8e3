#!/bin/sh
# Times merging runs in memory, and from run texts, against inverting the same text by one thread and copying what is
# written, on the proved build: sixteen runs of a collection text and a thousand. TEXT is a collection; without it ten
# million bytes of English are made. Prints times, and the memory of the merge. Usage: bench/merge.sh [TEXT] (needs rt and
# python3)
. "$(dirname "$0")/prelude.sh"
needs rt python3

copy_crates ix_output ix_text ix_vbyte ix_postings ix_run_text ix_run ix_index_text ix_file ix_merge
add_program merge ix_file ix_merge ix_run ix_text anyhow
build merge_bench

text=${1:-$work/english.txt}
test $# -gt 0 || python3 "$bench/ask/texts.py" english "$text"
python3 "$bench/merge/measure.py" "$(built merge_bench)" "$text" "$work/terms"
