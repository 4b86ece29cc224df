#!/usr/bin/env bash
# Runs a program on all texts of the separate Rust program, and compares what it prints.
#
#   tests/texts.sh PROGRAM REFERENCE SUBJECT LEAST    PROGRAM is the built program, REFERENCE the Rust program of docs/src,
#                                                     SUBJECT the texts: `texts` for whole_job, `drawings` for mask_drawer;
#                                                     LEAST is the least number of texts
#
# It prints one line and ends with 0 where all is as expected. At the first difference, and where there are fewer texts, it says
# so and ends with 1.
set -euo pipefail

[ $# -eq 4 ] || { echo "usage: tests/texts.sh PROGRAM REFERENCE SUBJECT LEAST" >&2; exit 2; }
program=$1
reference=$2
subject=$3
least=$4
title=${program##*/}

room=$(mktemp -d)
trap 'rm -rf "$room"' EXIT

# Tells what is wrong with a text, the beginning of the text, and what differs: < is expected, > is printed.
differs() {
    echo "$title: text $1 $2; it begins:"
    head -c 400 "$room/$1.in" | cat -v
    echo
    diff --text "$room/$1.out" "$room/printed" | head -n 20 | cut -c 1-200 || true
    exit 1
} >&2

"$reference" "$subject" "$room" >"$room/report"
texts=0
for text in "$room"/*.in; do
    name=${text##*/}
    name=${name%.in}
    "$program" <"$text" >"$room/printed" || differs "$name" "ends with $?"
    cmp -s "$room/printed" "$room/$name.out" || differs "$name" "prints something else"
    texts=$((texts + 1))
done
[ "$texts" -ge "$least" ] || { echo "$title: $texts texts, at least $least are due" >&2; exit 1; }
echo "$title: $texts texts, all as expected"
