#!/usr/bin/env bash
# Answers: mixed files in `multiply`; answers truncated, damaged, foreign, repeated, spare and late; the job as it was shared; windows.
source ./common.sh

# Two runs with numbers of their own, and a second one under the number of the second.
for run in one:7 two:8 again:8; do
    ends 0 share --number "${run#*:}" "${share[@]:1}" "${run%:*}"
    says 'warning: --number'
done
cmp -s two/send/01/*.a.mdo again/send/01/*.a.mdo && wrong "two runs have one share"
cmp -s two/send/01/*.b.mdo again/send/01/*.b.mdo && wrong "two runs have one share"

# Every pair of shares of two hosts and two runs, in both orders.
ends 0 multiply one/send/02/*.a.mdo one/send/02/*.b.mdo answer.mdo
files=(one/send/01/*.mdo one/send/02/*.mdo two/send/01/*.mdo two/send/02/*.mdo answer.mdo)
for a in "${files[@]}"; do
    for b in "${files[@]}"; do
        due=1
        if [[ $a = *.a.mdo && $b = *.b.mdo && ${a%/*} = "${b%/*}" ]]; then due=0; fi
        rm -f mixed
        ends $due multiply "$a" "$b" mixed
        [ $due -eq 0 ] || [ ! -e mixed ] || wrong "an answer for $a $b"
    done
done
ends 1 multiply one/send/01/*.b.mdo one/send/01/*.a.mdo
says 'refused with 1001'
ends 1 multiply one/send/01/*.a.mdo one/send/02/*.b.mdo
says 'refused with 1004'
ends 1 multiply one/send/01/*.a.mdo two/send/01/*.b.mdo
says 'refused with 1005'
ends 1 multiply counts.tsv two/send/01/*.b.mdo
says 'counts.tsv: refused with 18'
ends 0 multiply one/send/01/*.a.mdo one/send/01/*.b.mdo
says 'send back 00000007-01.answer.mdo only, then delete both shares'
cp 00000007-01.answer.mdo kept
ends 3 multiply one/send/01/*.a.mdo one/send/01/*.b.mdo
says 'is there already'
cmp -s kept 00000007-01.answer.mdo || wrong "an answer was overwritten"
section "mixed files in multiply"

# Two runs mixed, spare answers, answers cut short, too long, missing.
answer one answers1
answer two answers2
answer again answers3
seven=(answers1/0[1-7].mdo)
ends 0 decode one d1 "${seven[@]}"
cmp -s d1 table.due || wrong "another table"
ends 3 decode one d1 "${seven[@]}"
says 'd1 is there already'
ends 0 decode one d2 answers2/01.mdo "${seven[@]}"
says 'host 1 refused with 22: it is not an answer of this job; job 00000008, expected 00000007'
ends 4 decode one d3 answers2/01.mdo "${seven[@]:1}"
ends 5 decode two d3 answers3/01.mdo answers2/0[2-7].mdo
says 'this is not the table of this job'
ends 0 multiply two/send/01/*.a.mdo again/send/01/*.b.mdo crossed.mdo
ends 5 decode two d3 crossed.mdo answers2/0[2-7].mdo
says 'of the hosts 1 2 3 4 5 6 7'
[ ! -e d3 ] || wrong "a wrong table"
ends 0 decode two d3 answers2/0[2-8].mdo answers3/01.mdo crossed.mdo
says 'spare'
says 'look at crossed.mdo: host 1 refused with 23: another answer of this host is in already'
cmp -s d3 table.due || wrong "another table"
ends 0 decode one d4 one/send/01/*.a.mdo "${seven[@]}"
says 'a share of A, expected an answer'
{ head -c 7 answers1/01.mdo; printf '\x0a'; tail -c +9 answers1/01.mdo; } >above.mdo
ends 4 heard one above.mdo "${seven[@]:1}"
says 'above.mdo: host 10 refused with 12: no such host'

# Answers of jobs with another prime and another size under the same number: 22 names what differs.
sed 's/257/65537/' kinship.job >prime.job
sed 's/4 6 4/4 6 2/; s/names_b = both/names_b = none/' kinship.job >size.job
printf '1 1\n1 1\n1 1\n1 1\n1 1\n1 1\n' >ones
ends 0 share --number 7 --transpose-b prime.job counts.tsv counts.tsv prime
ends 0 share --number 7 size.job counts.tsv ones size
answer prime answers_of_prime
answer size answers_of_size
ends 4 heard one answers_of_prime/01.mdo
says 'refused with 22: it is not an answer of this job; prime 65537, expected 257'
ends 4 heard one answers_of_size/01.mdo
says 'refused with 22: it is not an answer of this job; 4 by 2, expected 4 by 4'
for length in 0 1 15 16 17 79; do
    head -c $length answers1/01.mdo >cut.mdo
    ends 4 heard one cut.mdo "${seven[@]:1}"
    ends 1 show cut.mdo
done
{ cat answers1/01.mdo; echo; } >long.mdo
ends 1 show long.mdo
says 'refused with 20'
says 'kind 3: an answer'
says 'modulus number 2: prime 257'
says 'host 1'
says '4 by 4 elements'
says 'job 00000007 (number 7)'
head -c 100000 /dev/zero >long.mdo
ends 1 show long.mdo
says 'refused with 18'
ends 3 heard one missing.mdo "${seven[@]:1}"
says 'not read: missing.mdo'
ends 0 heard one missing.mdo "${seven[@]}"
section "mixed and cut answers"

# Every bit turned in an answer and in both shares of a host: refused, or no table (5). Only where the answer is the same all the
# same, for a share that meets zeros, there is the due table.
judged() {
    "$MUKERIHE" decode one bad "$1" "${seven[@]:1}" >said 2>&1
    case $? in
    0) cmp -s bad table.due && rm bad || wrong "another table by $2" ;;
    4 | 5) [ ! -e bad ] || wrong "a table by $2" ;;
    *) wrong "$2" ;;
    esac
    tried=$((tried + 1))
}
turned answers1/01.mdo turned_answer
for file in turned_answer/*; do
    judged "$file" "$file"
done
for side in a b; do
    turned one/send/01/00000007-01.$side.mdo turned_$side
    for file in "turned_$side"/*; do
        pair=(one/send/01/00000007-01.a.mdo one/send/01/00000007-01.b.mdo)
        if [ $side = a ]; then pair[0]=$file; else pair[1]=$file; fi
        if "$MUKERIHE" multiply "${pair[@]}" damaged.mdo >said 2>&1; then
            judged damaged.mdo "the answer to $file"
            rm damaged.mdo
        else
            [ $? -eq 1 ] || wrong "multiply $file"
            tried=$((tried + 1))
        fi
    done
done
[ $tried -eq $((8 * (80 + 64 + 64))) ] || wrong "$tried bits"
section "bits turned in an answer and in shares"

# JOB edited after `share` has no effect; FOLDER/job damaged is refused.
cp kinship.job edited.job
ends 0 share --transpose-b edited.job counts.tsv counts.tsv edited
sed -i 's/11 3 58/3 11 58/; s/both/none/' edited.job
answer edited answers4
ends 0 decode edited d6 answers4/0[3-9].mdo
cmp -s d6 table.due || wrong "an edited JOB has an effect"
cp edited/job whole
turned whole turned_job
for byte in $(seq 0 $(($(stat -c %s whole) - 1))); do
    cp "turned_job/$byte.$((byte & 7))" edited/job
    ends 1 decode edited d7 answers4/0[3-9].mdo
done
head -c -1 whole >edited/job
ends 1 decode edited d7 answers4/0[3-9].mdo
says 'edited/job: it is not as `mukerihe share` wrote it'
{ cat whole; echo; } >edited/job
ends 1 decode edited d7 answers4/0[3-9].mdo
# With more or fewer names than rows, and right sums: summed gives the sums of what it reads.
summed() {
    python3 -c '
import itertools, sys
body = sys.stdin.read()
sums = list(itertools.accumulate(body.encode()))
print(f"{body}sums = {sums[-1]} {sum(sums)}")'
}
sed '$d' whole | summed | cmp -s - whole || wrong "other sums"
sed '$d; s/^row_names = 4$/row_names = 5\nname = one more/' whole | summed >edited/job
ends 1 decode edited d7 answers4/0[3-9].mdo
sed '$d; s/^row_names = 4$/row_names = 3/' whole | sed '0,/^name = /{/^name = /d}' | summed >edited/job
ends 1 decode edited d7 answers4/0[3-9].mdo
rm edited/job
ends 3 decode edited d7 answers4/0[3-9].mdo
[ ! -e d7 ] || wrong "a table by a damaged FOLDER/job"
section "the job as it was shared"

# A window: minutes are needed, and each answer is judged by its own.
{ cat kinship.job; echo 'opening = 480'; echo 'closing = 1200'; } >window.job
ends 0 share --transpose-b window.job counts.tsv counts.tsv window
answer window answers5
ends 2 decode window w1 answers5/0[1-7].mdo
ends 2 heard window answers5/01.mdo --minute 480 answers5/0[2-7].mdo
ends 4 decode window w1 --minute 479 answers5/01.mdo --minute 480 answers5/02.mdo --minute 1199 answers5/0[3-7].mdo
says 'host 1 refused with 30: its minute is outside the window; minute 479, expected 480 to 1199'
ends 4 decode --minute 1200 window w1 answers5/*
says 'heard: none'
says 'host 9 refused with 30'
ends 0 decode window w1 --minute 1199 answers5/01.mdo --minute=480 answers5/0[2-7].mdo
cmp -s w1 table.due || wrong "another table in a window"
section "windows"

# The check: V has 11, 5, 3 and 2 columns for the four primes, and r rows without a row of zeros; it refuses a table for each prime.
for prime in 13:11 257:5 65537:3 2147483647:2; do
    job "prime = ${prime%:*}" 'sizes = 2 3 20' 'cuts = 1 1 1' 'groups = 1 1' 'hosts = 4'
    printf '1 0 1\n0 1 0\n' >a
    printf '1%.0s ' $(seq 60) | xargs -n 20 >b
    rm -rf first second answers_of_first answers_of_second
    ends 0 share --number 3 some.job a b first
    ends 0 share --number 3 some.job a b second
    columns=$(sed -n 's/^v = //p' first/job | awk '{ print NF }' | uniq -c | awk '{ print $1, $2 }')
    [ "$columns" = "20 ${prime#*:}" ] || wrong "V of prime ${prime%:*} has rows and columns $columns"
    sed -n 's/^v = //p' first/job | grep -q '[1-9]' || wrong "V is zero"
    ! sed -n 's/^v = //p' first/job | grep -qv '[1-9]' || wrong "V has a row of zeros"
    answer first answers_of_first
    answer second answers_of_second
    ends 5 decode first checked answers_of_second/01.mdo answers_of_first/0[234].mdo
    ends 0 decode first checked answers_of_first/01.mdo answers_of_first/0[234].mdo
    [ "$(cut -f 1,20 checked)" = $'2\t2\n1\t1' ] || wrong "another table of prime ${prime%:*}"
    rm checked
done

# Masks: the shares of tables of zeros are sums of masks alone, and with the largest prime none of their elements is 0.
job 'prime = 2147483647' 'sizes = 4 6 2' 'cuts = 1 2 1' 'groups = 2 3' 'hosts = 9'
printf '0 0 0 0 0 0\n%.0s' 1 2 3 4 >a
printf '0 0\n%.0s' 1 2 3 4 5 6 >b
ends 0 share some.job a b zeros
for message in zeros/send/*/*.mdo; do
    ! od -An -v -tx4 -w4 -j 16 --endian=big "$message" | grep -q 00000000 || wrong "an element without a mask: $message"
done
section "the check and the masks"
