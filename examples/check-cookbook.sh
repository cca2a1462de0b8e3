#!/bin/sh
# Runs each recipe of docs/guide/cookbook.md on files that it makes, and compares what is printed. Usage: check-cookbook.sh [IX]
set -eu
examples=$(cd "$(dirname "$0")" && pwd)
ix=${1:-$(dirname "$examples")/build/ix}
collect=$(dirname "$examples")/collect/ix-collect
case $ix in /*) ;; *) ix=$(pwd)/$ix ;; esac
export PYTHONDONTWRITEBYTECODE=1
work=$(mktemp -d)
trap 'rm -rf "$work"' EXIT
trap 'exit 1' HUP INT TERM
cd "$work"
failed=0

# prints NAME EXPECTED ACTUAL
prints() {
    if [ "$2" = "$3" ]; then
        echo "ok: $1"
    else
        echo "FAILED: $1: expected '$2', was '$3'" >&2
        failed=1
    fi
}

mkdir -p notes/2026
printf '# Plan\nThe release\nplan for May.\n' > notes/2026/plan.md
printf '# Draft\nA release plan, draft.\n' > notes/draft.md
printf '# Lost\n\none umbrella, red\n' > notes/lost.md
printf 'release plan\n' > notes/other.txt
"$collect" -o notes.tsv --match '*.md' folder notes
prints "a folder of files" notes/2026/plan.md "$("$ix" ask notes.tsv '"release plan" AND NOT draft')"
prints "names for xargs" "notes/lost.md:3:one umbrella, red" \
    "$("$ix" ask notes.tsv 'umbrella' | "$collect" --path - | xargs -0 grep -H -n -i umbrella)"

cat > archive.mbox <<'MAIL'
From anna@example.org Mon Mar  2 08:00:00 2026
Message-ID: <1@example.org>
From: Anna <anna@example.org>
Date: Mon, 2 Mar 2026 08:00:00 +0000
Subject: Flights
Content-Type: text/plain; charset=utf-8

The early flight
to London is booked.

From boris@example.org Mon Mar  2 09:00:00 2026
Message-ID: <2@example.org>
From: Boris <boris@example.org>
Date: Mon, 2 Mar 2026 09:00:00 +0000
Subject: Hotel
Content-Type: text/plain; charset=utf-8

No flight yet, and the hotel is not in the city of London.
MAIL
"$collect" -o mail.tsv mbox archive.mbox
prints "a mailbox" 1@example.org "$("$ix" ask mail.tsv 'flight NEAR/3 london')"
prints "a mailbox: sender and date" 2@example.org "$("$ix" ask mail.tsv 'from_boris* AND date_2026_03*')"

printf 'id,what,note\no-16,"chair, oak",old\no-17,"table, oak","two tablets, ""new"""\n' > orders.csv
"$collect" -o orders.tsv csv orders.csv --name id
prints "a CSV file" o-17 "$("$ix" ask orders.tsv 'oak AND tab*')"

printf '%s\n' '{"id": 7, "title": "For sale", "body": "an oak table"}' '{"id": 8, "title": "table", "tags": ["oak"]}' > posts.jsonl
"$collect" -o posts.tsv jsonl posts.jsonl --name id --text title body
prints "lines of JSON" 7 "$("$ix" ask posts.tsv '"oak table"')"
python3 -c 'import sqlite3; shop = sqlite3.connect("shop.db"); shop.execute("create table items (id, title, text)")
shop.execute("insert into items values (?, ?, ?)", ("o-17", "table", "oak")); shop.commit()'
"$collect" -o items.tsv sqlite shop.db --query 'select id, title, text from items'
prints "a database" o-17 "$("$ix" ask items.tsv 'oak')"

if [ -d /usr/share/doc ]; then
    status=0
    "$collect" -o licences.tsv --match copyright folder /usr/share/doc || status=$?
    prints "the licences are collected" "0 or 3" "$([ $status = 0 ] || [ $status = 3 ] && echo '0 or 3' || echo $status)"
    status=0
    "$ix" ask licences.tsv '"apache license" AND NOT "gpl"' > /dev/null || status=$?
    prints "the licences of a Debian system" "0 or 1" "$([ $status -le 1 ] && echo '0 or 1' || echo $status)"
fi

"$ix" build mail.tsv mail.ix
prints "a sound index" "" "$("$ix" check mail.ix)"
prints "one question to a large index" "1@example.org" "$("$ix" search --trust mail.ix 'flight NEAR/3 london')"

gzip mail.tsv
prints "a compressed collection" "1@example.org
2@example.org" "$(zcat mail.tsv.gz | "$ix" ask - 'london')"

gunzip mail.tsv.gz
head -n 1 mail.tsv | "$ix" run - first.run
tail -n +2 mail.tsv | "$ix" run --first 1 - rest.run
"$ix" merge mail.ix rest.run first.run
prints "a collection in parts" "1@example.org
2@example.org" "$("$ix" search mail.ix 'london')"
"$ix" build mail.tsv whole.ix
prints "the index of its parts is that of the whole" same "$(cmp -s mail.ix whole.ix && echo same)"
printf 'c@example.org\tanother flight to paris\n' | "$ix" build - later.ix
"$ix" merge all.ix mail.ix later.ix
prints "an index goes on with what came since" "1@example.org
2@example.org
c@example.org" "$("$ix" search all.ix 'london OR paris')"
mkdir runs
"$ix" build --runs runs --block 1 mail.tsv mail.ix
prints "the index of runs in a folder is the same, and the folder empty" same "$(cmp -s mail.ix whole.ix && rmdir runs && echo same)"

printf '3@example.org\tThe train to London.\n' > more.tsv
printf '%s\n' 'add mail.tsv' publish 'add more.tsv' 'ask london' 'remove 0' publish 'ask london' > day.script
prints "documents that come and go" "$(printf '2\tlondon\n1@example.org\n2@example.org\n2\tlondon\n2@example.org\n3@example.org\n')" \
    "$("$ix" live day.script)"

status=0
"$ix" ask mail.tsv -- 'rome' > names || status=$?
prints "nothing found is status 1" 1 "$status"
status=0
"$ix" ask mail.tsv -- 'a b' > names 2> refusal || status=$?
prints "refused is status 2" "2 ix: query 2: Unexpected(2)" "$status $(cat refusal)"
exit $failed
