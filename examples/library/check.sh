#!/bin/sh
# Runs the programs of this folder over the library in build/, and compares what they print.
set -eu
cd "$(dirname "$0")/../.."
work=$(mktemp -d)
trap 'rm -rf "$work"' EXIT

gcc -O2 -std=c11 -Wall -Wextra -Werror -Ibuild/include examples/library/search_files.c build/libix.a -o "$work/search_files"
printf 'The red fox\nruns.\n' > "$work/one"
printf 'A hound, and a blue fox.\n' > "$work/two"
cd "$work"
test "$(./search_files '"fox runs"' one two)" = "one"
test "$(./search_files 'fox AND NOT red' one two)" = "two"
status=0; ./search_files 'bear' one two > out || status=$?
test $status = 1 && test ! -s out
status=0; ./search_files 'red fox' one two 2> err || status=$?
test $status = 2 && test "$(cat err)" = "query 2: Unexpected(4)"
cd - > /dev/null

gcc -O2 -std=c11 -Wall -Wextra -Werror -Ibuild/include examples/library/search_index.c build/libix.a -o "$work/search_index"
PYTHONDONTWRITEBYTECODE=1 PYTHONPATH=python python3 -c \
    'import sys, ix; ix.build({"one": "The red fox runs.", "two": "A blue fox."}, sys.argv[1])' "$work/foxes"
printf 'fox\n"fox runs"\nbear\nred fox\n' | "$work/search_index" "$work/foxes" > "$work/out"
printf 'fox: one two \n"fox runs": one \nbear: \nred fox: query 2: Unexpected(4)\n' | cmp - "$work/out"
status=0; "$work/search_index" "$work/one" < /dev/null 2> "$work/err" || status=$?
test $status = 2 && test "$(cat "$work/err")" = "index 1: Short"

cat > "$work/mail" << 'END'
From ada@example.org Mon Nov 23 09:00:00 2026
From: Ada <ada@example.org>
To: bob@example.org
Subject: The contract

Please sign the new
contract before Friday.

From bob@example.org Mon Nov 23 10:00:00 2026
From: Bob <bob@example.org>
To: ada@example.org
Subject: =?utf-8?q?Caf=C3=A9?=

The contract is signed. Lunch?

END
export PYTHONDONTWRITEBYTECODE=1
examples/library/search_mailbox.py build "$work/mail" "$work/index"
test "$(examples/library/search_mailbox.py search "$work/index" '"new contract" AND friday')" = "1 The contract"
test "$(examples/library/search_mailbox.py search "$work/index" 'CAFÉ')" = "2 Café"
status=0; examples/library/search_mailbox.py search "$work/index" 'contract AND' 2> "$work/err" || status=$?
test $status = 2 && test "$(cat "$work/err")" = "query 3: End"
echo "examples/library: each prints what it is to"
