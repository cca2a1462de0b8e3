#!/bin/sh
# Times token lists and `ix ask` on ten million bytes of text, against a bare count of the words of the same text, all on
# the proved build: in English, and in Russian, Greek, Japanese, Korean and Arabic mixed. Prints ratios, MB/s and memory.
# Usage: bench/ask.sh [ROUNDS] (needs rt and python3)
. "$(dirname "$0")/prelude.sh"
needs rt python3

copy_crates ix_output ix_text ix_vbyte ix_postings ix_board ix_run_text ix_run ix_index_text ix_file ix_merge ix_pool ix_build ix_gram ix_query_text ix_query ix_ask ix ix_command ix_line ix_script ix_live
add_program ask ix_text unicode_segmentation anyhow
build ask_bench
build ix

for kind in english mixed; do
    python3 "$bench/ask/texts.py" "$kind" "$work/$kind.txt"
    python3 "$bench/ask/measure.py" "$(built ask_bench)" "$(built ix)" "$work/$kind.txt" "${1:-5}"
done
