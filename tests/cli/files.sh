#!/usr/bin/env bash
# Files: random words from a file, inputs that are no regular files, outputs that are there, outputs that cannot be written.
source ./common.sh

ends 0 "${share[@]}" one
answer one answers
seven=(answers/0[1-7].mdo)
head -c 4000 /dev/urandom >words
ends 0 share --words words "${share[@]:1}" words1
says 'words: used, and now words.spent; destroy them'
[ ! -e words ] && [ -e words.spent ] || wrong "the words are not spent"
ends 1 share --words words.spent "${share[@]:1}" words2
ends 1 share --words words "${share[@]:1}" words2
says 'these words were spent'
head -c 20 /dev/urandom >few
ends 1 share --words few "${share[@]:1}" words2
says 'refused with 27'
head -c 21 /dev/urandom >few
ends 1 share --words few "${share[@]:1}" words2
says 'expected words of 4 bytes each'
[ -e few ] && [ ! -e words2 ] || wrong "few words are spent"
ln -s few link
ends 3 share --words link "${share[@]:1}" words2
# All that is drawn comes from the words: the same ones give the same FOLDER.
head -c 4000 /dev/urandom >words3
cp words3 words4
ends 0 share --number 5 --words words3 "${share[@]:1}" same3
ends 0 share --number 5 --words words4 "${share[@]:1}" same4
diff -r same3 same4 >said || wrong "the same words give another folder"
head -c 16777220 /dev/zero >words5
ends 1 share --words words5 "${share[@]:1}" words6
says 'words5: more than 16777216 bytes'
truncate -s 16777216 words5
ends 0 share --words words5 "${share[@]:1}" words6
section "words from a file"

# A pipe, a folder, devices, nothing, and a link to nothing are no inputs; a link to a table is one.
mkfifo pipe
mkdir folder
ln -s counts.tsv link.tsv
ln -s nowhere dangling
for input in pipe folder /dev/zero /dev/full missing dangling; do
    ends 3 plan "$input"
    ends 3 share --transpose-b kinship.job "$input" counts.tsv none
    ends 3 share --transpose-b kinship.job counts.tsv "$input" none
    ends 3 multiply "$input" one/send/01/*.b.mdo none
    ends 3 show "$input"
    ends 3 heard "$input" answers/01.mdo
    ends 3 decode one none "$input"
    ends 3 share --words "$input" "${share[@]:1}" none
done
ends 0 share --transpose-b kinship.job link.tsv counts.tsv linked
section "inputs"

# Nothing is overwritten and no link is followed.
for output in one counts.tsv pipe folder dangling; do
    ends 3 "${share[@]}" "$output"
    says 'is there already; nothing is overwritten'
    ends 3 decode one "$output" "${seven[@]}"
    ends 3 decode --page "$output" one none "${seven[@]}"
    ends 3 multiply one/send/01/*.a.mdo one/send/01/*.b.mdo "$output"
done
# What a killed run of another name left beside the table is named.
mkdir .other.mukerihe-unfinished
ends 0 decode one named "${seven[@]}"
says 'warning: ./.other.mukerihe-unfinished is there'
rmdir .other.mukerihe-unfinished

# A name with a slash after it is the name; a page in the place of the table, however it is written.
ends 0 decode --page slashedpage/ one slashed/ "${seven[@]}"
cmp -s slashed table.due && cmp -s slashedpage page.due || wrong "a table and a page with a slash after them"
ends 2 decode --page ./none one none "${seven[@]}"
ends 2 decode --page none one folder/../none "${seven[@]}"
ends 2 decode --page "$PWD/none" one none "${seven[@]}"
ends 3 "${share[@]}" missing/folder
ends 3 "${share[@]}" /
ends 3 "${share[@]}" ..
ends 3 "${share[@]}" ''
[ ! -e none ] && [ ! -e nowhere ] || wrong "something was made"
odd=$(printf 'odd\377\033name')
cp counts.tsv "$odd"
ends 0 share --transpose-b kinship.job "$odd" counts.tsv "f$odd"
says 'fodd\xff\u{1b}name'
section "outputs"

# Standard output closed or full, and standard error closed.
# Without standard output a run ends with 3 and makes nothing: untold ARGUMENT ..
untold() {
    "$MUKERIHE" "$@" >&- 2>said
    [ $? -eq 3 ] || wrong "standard output closed: mukerihe $*"
    "$MUKERIHE" "$@" >/dev/full 2>said
    [ $? -eq 3 ] || wrong "standard output full: mukerihe $*"
    [ ! -e made ] || wrong "made though standard output is closed or full: mukerihe $*"
    tried=$((tried + 2))
}
untold help
untold plan kinship.job
untold show answers/01.mdo
untold "${share[@]}" made
untold multiply one/send/01/*.a.mdo one/send/01/*.b.mdo made
untold heard one "${seven[@]}"
untold decode one made "${seven[@]}"
"$MUKERIHE" "${share[@]}" made 2>&- >said || wrong "standard error closed"
exec 9> >(exit 0)
sleep 0.3
"$MUKERIHE" help >&9 2>said
[ $? -eq 3 ] || wrong "a pipe that nobody reads"
exec 9>&-
tried=$((tried + 2))
nothing_unfinished "after all"
section "standard output and error"

# A limit on the size of files is a fault like any other, and so is a folder that may not be written; one that may not be read is none.
{ (ulimit -f 0; "$MUKERIHE" "${share[@]}" limited 2>&1; echo "ends with $?") | cat; } >limits
grep -q 'File too large' limits && grep -q 'ends with 3' limits || wrong "a limit on the size of files: $(cat limits)"
[ ! -e limited ] || wrong "a folder in spite of a limit on the size of files"
nothing_unfinished "after a limit on the size of files"
if [ "$(id -u)" -eq 0 ] && command -v setpriv >/dev/null; then
    mkdir -m 777 garden
    cp one/send/01/*.mdo garden
    chmod 644 garden/*
    mkdir -m 1733 garden/drop
    mkdir -m 755 garden/shut
    cp "$MUKERIHE" garden/mukerihe
    chmod 711 .
    as_nobody=(setpriv --reuid 65534 --regid 65534 --clear-groups sh -c 'cd garden && ./mukerihe multiply *.a.mdo *.b.mdo "$1"' sh)
    "${as_nobody[@]}" drop/answer.mdo >said 2>&1 || wrong "a folder that may be written and not read"
    cmp -s garden/drop/answer.mdo answers/01.mdo || wrong "another answer in a folder that may not be read"
    "${as_nobody[@]}" shut/answer.mdo >said 2>&1
    [ $? -eq 3 ] && [ -z "$(ls garden/shut)" ] || wrong "a folder that may not be written"
    tried=$((tried + 2))
fi
tried=$((tried + 1))
section "limits and permissions"
