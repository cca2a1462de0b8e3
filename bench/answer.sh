#!/bin/sh
# Times queries of fifteen kinds, answered from an index of a collection text that is opened once, on the proved build, and
# prints microseconds kind by kind. QUERIES has a line `kind TAB query` for each. Without TEXT and QUERIES both are made, ten
# million bytes of English by a fixed rule. With OTHER, a program that is called as `OTHER batch --reps COUNT INDEX QUERIES`
# and prints what bench/answer/main.rt.txt says, both are timed in turn, and the ratio of their medians stands beside them.
# Usage: bench/answer.sh [TEXT QUERIES [OTHER [ROUNDS]]] (needs rt and python3)
. "$(dirname "$0")/prelude.sh"
needs rt python3

copy_crates ix_output ix_text ix_vbyte ix_postings ix_run_text ix_run ix_index_text ix_file ix_merge ix_gram ix_query_text ix_query
add_program answer ix_file ix_merge ix_query ix_run ix_text anyhow
build answer_bench

if [ $# -lt 2 ]; then
    python3 "$bench/ask/texts.py" english "$work/text"
    python3 "$bench/answer/queries.py" "$work/text" > "$work/queries"
    set -- "$work/text" "$work/queries"
fi
"$(built answer_bench)" make "$1" "$work/index"
python3 "$bench/answer/measure.py" "$(built answer_bench)" "$work/index" "$2" "${4:-5}" ${3:+"$3"}
