#!/usr/bin/env bash
# Errors and kills in the middle, put in by strace at each write, sync, rename and folder made: FOLDER, answer, table and page are
# whole or not there. And no random source, no renaming without replacing, and names that are taken meanwhile.
source ./common.sh

strace -o /dev/null true 2>said || wrong "strace is not there, or may not trace"
job 'prime = 257' 'sizes = 2 3 1' 'cuts = 1 1 1' 'groups = 1 1' 'hosts = 3'
printf '1 2 3\n4 5 6\n' >a
printf '1\n2\n3\n' >b
small=(share some.job a b shaken)
ends 0 share some.job a b one
answer one answers
rm table.due page.due
ends 0 decode --page page.due one table.due answers/*
[ "$(cat table.due)" = $'14\n32' ] || wrong "another table"

# Runs the command with something put in: injected WHAT ARGUMENT .. Its status is in got.
injected() {
    (strace -f -o trace -e "inject=$1" "$MUKERIHE" "${@:2}"; exit $?) >said 2>&1
    got=$?
    tried=$((tried + 1))
}

# FOLDER is whole: its job is as it was written, and each of its six messages is fit: whole_folder FOLDER
whole_folder() {
    local message
    [ "$(find "$1" -type f | wc -l)" -eq 7 ] || return 1
    "$MUKERIHE" heard "$1" >whole.said 2>&1
    [ $? -eq 4 ] || return 1
    for message in "$1"/send/0[123]/*.[ab].mdo; do
        "$MUKERIHE" show "$message" >whole.said 2>&1 || return 1
    done
}

# What a run of the small job may leave: the folder, the answer, the table and the page, each whole or not there: whole WHEN
whole() {
    [ ! -e shaken ] || whole_folder shaken || wrong "half a folder: $1"
    [ ! -e shaken.mdo ] || cmp -s shaken.mdo answers/01.mdo || wrong "half an answer: $1"
    [ ! -e shaken.tsv ] || cmp -s shaken.tsv table.due || wrong "half a table: $1"
    [ ! -e shaken.page ] || cmp -s shaken.page page.due || wrong "half a page: $1"
}

# Removes it.
removed() {
    rm -rf shaken shaken.mdo shaken.tsv shaken.page .*mukerihe-unfinished*
}

# An error at each place of a call: 3, and nothing is left unfinished: failing CALL ERROR ARGUMENT ..
failing() {
    local at
    for at in $(seq 1 60); do
        injected "$1:error=$2:when=$at" "${@:3}"
        ls -d shaken shaken.mdo shaken.tsv >left 2>/dev/null
        whole "$1 $2 $at"
        nothing_unfinished "$1 $2 $at"
        removed
        grep -q INJECTED trace || break
        [ "$got" -eq 3 ] || wrong "${*:3} with $1 $2 $at ends with $got"
        [ ! -s left ] || says 'is made all the same'
    done
    [ "$at" -gt 1 ] && [ "$got" -eq 0 ] || wrong "${*:3}: no $1 was met, or more than $at"
}

# A kill at each place of a call. What it leaves is named by the next run of `share`, and called secret: killed CALL ARGUMENT ..
killed() {
    local at
    for at in $(seq 1 60); do
        injected "$1:signal=KILL:when=$at" "${@:2}"
        whole "$1 KILL $at"
        if [ -e .shaken.mukerihe-unfinished ] && [ ! -e shaken ]; then
            ends 3 "${small[@]}"
            says '.shaken.mukerihe-unfinished is there: a run that was killed left it'
            says 'It is secret'
            ends 0 share some.job a b beside
            says 'warning: ./.shaken.mukerihe-unfinished is there'
            rm -rf beside
        fi
        if ls .shaken.tsv.mukerihe-unfinished-* >/dev/null 2>&1; then
            ends 0 decode one beside.tsv answers/*
            says 'warning: ./.shaken.tsv.mukerihe-unfinished-'
            rm beside.tsv
        fi
        removed
        [ "$got" -ne 0 ] || break
        [ "$got" -eq 137 ] || wrong "${*:2} killed at $1 $at ends with $got"
    done
    [ "$at" -gt 1 ] && [ "$got" -eq 0 ] || wrong "${*:2}: no $1 was met, or more than $at"
}

for call in write fsync renameat2; do
    for run in "${small[*]}" "multiply one/send/01/$(basename one/send/01/*.a.mdo) one/send/01/$(basename one/send/01/*.b.mdo) shaken.mdo" \
        "decode --page shaken.page one shaken.tsv answers/01.mdo answers/02.mdo answers/03.mdo"; do
        read -ra words <<<"$run"
        failing $call ENOSPC "${words[@]}"
        failing $call EIO "${words[@]}"
        killed $call "${words[@]}"
    done
done
failing mkdir ENOSPC "${small[@]}"
failing mkdir EIO "${small[@]}"
killed mkdir "${small[@]}"
section "errors and kills in the middle"

# Words are spent before the folder has its name, wherever the run is killed.
for at in 1 2 3; do
    head -c 4000 /dev/urandom >words
    injected "renameat2:signal=KILL:when=$at" share --words words "${small[@]:1}"
    [ ! -e shaken ] || [ ! -e words ] || wrong "a folder, and its words are not spent"
    removed
    rm -f words words.spent
done

# All files and folders are synced: 7 files and 6 folders of share, a file and its folder of multiply, 2 files and 2 times the folder
# of decode. Each file is made new; and no name is taken away once the file has its own: another run may have taken it meanwhile.
synced() {
    strace -f -o trace "$MUKERIHE" "${@:2}" >said 2>&1 || wrong "${*:2}"
    [ "$(grep -c fsync trace)" -eq "$1" ] || wrong "${*:2}: other than $1 syncs"
    ! grep -q unlink trace || wrong "${*:2} removes something"
    ! grep O_CREAT trace | grep -qv O_EXCL || wrong "${*:2} may open a file that is there"
    tried=$((tried + 1))
}
synced 13 "${small[@]}"
synced 2 multiply one/send/01/*.a.mdo one/send/01/*.b.mdo shaken.mdo
synced 4 decode --page shaken.page one shaken.tsv answers/*
removed
section "syncs"

# The random source gives little at a time, nothing, or a fault.
injected 'getrandom:retval=4' "${small[@]}"
[ "$got" -eq 0 ] || wrong "short reads of the random source end with $got"
[ "$(grep -c getrandom trace)" -ge $((1 + 3 * 16)) ] || wrong "short reads of the random source do not go on"
removed
for call in 'getrandom:error=ENOSYS' 'getrandom:error=EIO:when=2' 'getrandom:retval=0'; do
    injected "$call" "${small[@]}"
    [ "$got" -eq 3 ] || wrong "$call ends with $got"
    says "the system's random source"
    [ ! -e shaken ] || wrong "$call: a folder"
done
injected 'getrandom:error=EINTR:when=1..3' "${small[@]}"
[ "$got" -eq 0 ] || wrong "getrandom interrupted ends with $got"
removed
head -c 4000 /dev/urandom >words
for at in 1 2; do
    injected "renameat2:error=EIO:when=$at" share --words words "${small[@]:1}"
    [ "$got" -eq 3 ] && [ ! -e shaken ] || wrong "rename $at with words ends with $got"
    nothing_unfinished "rename $at with words"
    [ $at -eq 2 ] || [ -e words ] || wrong "words are spent too early"
done
[ ! -e words ] && [ -e words.spent ] || wrong "words are not spent"
says 'now words.spent'
section "no random source, and words spent"

# A file system without renaming that does not replace: still nothing is replaced.
for run in "share some.job a b stepped" "decode one stepped answers/01.mdo answers/02.mdo answers/03.mdo"; do
    read -ra words <<<"$run"
    injected 'renameat2:error=EINVAL' "${words[@]}"
    [ "$got" -eq 0 ] && [ -e stepped ] || wrong "no renameat2, and no output: $run"
    injected 'renameat2:error=EINVAL' "${words[@]}"
    [ "$got" -eq 3 ] || wrong "overwritten: $run"
    nothing_unfinished "no renameat2: $run"
    rm -r stepped
done

# The file has its name then, and the temporary one stays at first: the command says so, and tries once more to remove it.
(strace -f -o trace -e inject=renameat2:error=EINVAL -e inject=unlink:error=EIO:when=1 "$MUKERIHE" decode one stepped answers/*) >said 2>&1
[ $? -eq 3 ] && cmp -s stepped table.due || wrong "a second name that is not removed"
says 'stepped is made all the same'
nothing_unfinished "a second name that is not removed"
rm stepped
tried=$((tried + 1))

# A name that is taken while the command is at work: it waits at its first sync. With and without such a call.
for call in fsync renameat2; do
    delayed=(-e 'inject=fsync:delay_enter=900000:when=1')
    [ $call = fsync ] || delayed+=(-e "inject=$call:error=EINVAL")
    strace -o trace "${delayed[@]}" "$MUKERIHE" decode one raced answers/* >said 2>&1 &
    one=$!
    strace -o trace2 "${delayed[@]}" "$MUKERIHE" share some.job a b racedfolder >said2 2>&1 &
    other=$!
    sleep 0.4
    echo mine >raced
    mkdir racedfolder
    echo mine >racedfolder/mine
    wait $one
    [ $? -eq 3 ] && [ "$(cat raced)" = mine ] || wrong "a file that came meanwhile"
    wait $other
    [ $? -eq 3 ] && [ "$(ls racedfolder)" = mine ] || wrong "a folder that came meanwhile"
    nothing_unfinished "names that came meanwhile"
    rm -r raced racedfolder
    tried=$((tried + 2))
done
section "nothing replaced"
