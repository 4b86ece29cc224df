#!/usr/bin/env bash
# Wrong use, and the file JOB: what is unknown, repeated, missing or refused, with its line.
source ./common.sh

"$MUKERIHE" "${share[@]}" kinship >said 2>&1 || wrong "share"
answer kinship answers
ends 2
ends 2 nothing
ends 2 plan
ends 2 plan kinship.job kinship.job
ends 2 plan --no kinship.job
ends 2 share --number x kinship.job counts.tsv counts.tsv f
ends 2 share --number 4294967296 kinship.job counts.tsv counts.tsv f
ends 2 share --number 1 --number 2 kinship.job counts.tsv counts.tsv f
ends 2 share kinship.job counts.tsv counts.tsv f --words
ends 2 share --signed=1 kinship.job counts.tsv counts.tsv f
ends 2 multiply a b c d
ends 2 decode kinship
ends 2 decode kinship f --minute 3 answers/01.mdo
ends 2 decode --page f kinship f answers/01.mdo
ends 2 heard --page f kinship answers/01.mdo
ends 2 show
ends 2 help me
ends 2 bogus --help
ends 2 plan --bogus --help
ends 2 --help me
ends 3 plan -- --help
ends 0 help
ends 0 share --help
ends 0 --help
ends 0 --version
cp kinship.job -- -job
ends 2 plan -job
ends 0 plan -- -job
[ ! -e f ] || wrong "something was made"
section "wrong use"

base=('prime = 257' 'sizes = 4 6 4' 'cuts = 1 2 1' 'groups = 2 2' 'hosts = 9')
for at in 0 1 2 3 4; do
    few=("${base[@]}")
    unset "few[$at]"
    job "${few[@]}"
    ends 1 plan some.job
    says "some.job: no line ${base[at]%% *} = "
    job "${base[@]}" "${base[at]}"
    ends 1 plan some.job
    says "some.job, line 6: ${base[at]%% *} is given in line $((at + 1)) already"
done
# JOB is refused in words: unfit WORDS LINE ..
unfit() {
    job "${@:2}"
    ends 1 plan some.job
    says "$1"
}
unfit 'no line closing' "${base[@]}" 'opening = 1'
unfit 'no line opening' "${base[@]}" 'closing = 1'
unfit 'line 6: hosts is given as well' "${base[@]}" 'points = 1 2'
unfit 'line 6: "colour" is no name of a job' "${base[@]}" 'colour = red'
unfit 'line 6: expected names_a = none, rows, columns or both' "${base[@]}" 'names_a'
unfit 'line 2: expected sizes = t s r' "${base[@]/sizes =/sizes}"
unfit 'line 6: expected names_a' "${base[@]}" 'names_a = yes'
unfit 'line 1: 2 is a modulus number; write prime = 257' "${base[@]/257/2}"
unfit 'line 1: 4 is a modulus number; write prime = 2147483647' "${base[@]/257/4}"
unfit '13, 257, 65537, 2147483647' "${base[@]/257/7}"
unfit 'line 2: numbers: 2, expected 3: sizes = t s r' "${base[@]/4 6 4/4 6}"
unfit 'needless 0' "${base[@]/4 6 4/4 06 4}"
unfit 'at most 4294967295' "${base[@]/4 6 4/4 6 99999999999}"
unfit 'refused with 2' "${base[@]/4 6 4/4 6 99999}"
unfit 'refused with 3' "${base[@]/1 2 1/1 9 1}"
unfit 'refused with 4' "${base[@]/2 2/2 17}"
unfit 'refused with 5' "${base[@]/1 2 1/1 4 1}"
unfit 'refused with 6' "${base[@]/4 6 4/4000 6 4}"
unfit 'refused with 7' "${base[@]/= 9/= 4000000000}"
unfit 'refused with 8: more answers are needed than there are hosts (7 hosts would do)' "${base[@]/= 9/= 6}"
unfit 'refused with 8: more answers are needed than there are hosts (7 hosts would do)' "${base[@]/= 9/= 6}" 'opening = 7' 'closing = 7'
unfit 'refused with 8: more answers are needed than there are hosts (no number of hosts would do' "${base[@]/1 2 1/4 6 4}"
job "${base[@]/257/13}"
sed -i 's/groups = .*/groups = 5 5/' some.job
ends 1 plan some.job
says 'refused with 8: more answers are needed than there are hosts (13 hosts with a larger prime would do)'
unfit 'refused with 29' "${base[@]}" 'opening = 7' 'closing = 7'
unfit 'refused with 8' "${base[@]:0:4}" 'points = 1 2 0'
unfit 'refused with 10' "${base[@]:0:4}" 'points = 1 2 3 4 5 6 257'
unfit 'refused with 11' "${base[@]:0:4}" 'points = 1 2 3 4 5 6 1'
head -c 70000 /dev/zero | tr '\0' '#' >some.job
ends 1 plan some.job
says 'more than 65536 bytes'
printf 'prime = 257\r\n\r\nsizes = 1 1 1\r\ncuts = 1 1 1\r\ngroups = 1 1\r\nhosts = 3\r\n' >some.job
ends 0 plan some.job
printf '\357\273\277prime = 257\nsizes = 1 1 1\ncuts = 1 1 1\ngroups = 1 1\nhosts = 3' >some.job
ends 0 plan some.job
section "the file JOB"
