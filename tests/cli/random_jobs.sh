#!/usr/bin/env bash
# Random jobs of all primes and layouts, with names and without: messages byte for byte the separate program's, tables A times B,
# and pages, from any K answers in any order.
source ./common.sh

mkdir cases
"$REFERENCE" command cases >said || wrong "no cases"
for case in cases/*; do
    mapfile -t options <"$case/share"
    ends 0 share "${options[@]}" --words "$case/words" "$case/job" "$case/a" "$case/b" "$case/folder"
    diff -r "$case/send" "$case/folder/send" >said || wrong "$case: other messages than the separate program's"
    [ ! -e "$case/words" ] && [ -e "$case/words.spent" ] || wrong "$case: the words are not spent"
    answer "$case/folder" "$case/answers"
    needed=$(cat "$case/needed")
    mapfile -t options <"$case/decode"
    mapfile -t some < <(find "$case/answers" -type f | shuf -n "$needed")
    ends 4 decode "${options[@]}" "$case/folder" "$case/got" "${some[@]:1}"
    [ ! -e "$case/page" ] || options+=(--page "$case/gotpage")
    ends 0 decode "${options[@]}" "$case/folder" "$case/got" "${some[@]}"
    cmp "$case/got" "$case/table" >said 2>&1 || wrong "$case: another table"
    [ ! -e "$case/page" ] || cmp "$case/gotpage" "$case/page" >said 2>&1 || wrong "$case: another page"
done
section "random jobs"
