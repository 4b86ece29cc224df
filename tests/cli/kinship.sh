#!/usr/bin/env bash
# README's job: what each command says, the table with the lots' names and the page, modes, and the demonstration as README shows it.
readme=$(realpath ../../README.md)
source ./common.sh

ends 0 plan kinship.job
says 'layout 1: any 7 of 9 answers suffice'
says 'each host gets 64 + 64 bytes and sends back 80'
says 'entries up to 256 come back whole; with --signed from -128 to 128'
says 'neither table is shown to groups of up to 2'
ends 0 "${share[@]}" kinship
answer kinship answers
files() {
    find . ! -name said ! -name before ! -path . -printf '%p %s %T@\n' | sort
}
files >before
ends 4 heard kinship answers/06.mdo answers/02.mdo answers/06.mdo
files | cmp -s - before || wrong "heard writes something"
says 'host 6 already in'
says 'missing: 1 3 4 5 7 8 9'
says '5 more needed'
ends 0 heard kinship answers/*
says 'enough: 7 are needed'
ends 0 decode --page page kinship table answers/0[2-8].mdo answers/01.mdo answers/09.mdo
says 'host 9 spare'
cmp -s table table.due || wrong "another table"
cmp -s page page.due || wrong "another page"
ends 0 show answers/01.mdo
says 'kind 3: an answer'
says 'modulus number 2: prime 257'
says '4 by 4 elements'
says 'a fit message'
section "README's job"

# A plan of unequal groups and blocks; hosts that would do.
job 'prime = 13' 'sizes = 4 6 10' 'cuts = 1 1 1' 'groups = 3 1' 'hosts = 9' 'opening = 5' 'closing = 9'
ends 0 plan some.job
says 'any 5 of 9 answers suffice'
says 'blocks: A 4 by 6, B 6 by 10, answer 4 by 10'
says 'each host gets 112 + 256 bytes and sends back 176'
says 'entries up to 12 come back whole; with --signed from -6 to 6'
says 'groups of up to 3 hosts learn nothing of A, of up to 1 nothing of B'
says 'neither table is shown to groups of up to 1 '
says 'answers are taken from minute 5 to 8'
section "a plan"

# What is made is readable by its owner alone, under any umask; FOLDER has just what it must have.
modes=$(stat -c %a kinship kinship/job kinship/send kinship/send/01 kinship/send/01/*.a.mdo table page answers/01.mdo | tr '\n' ' ')
[ "$modes" = "700 600 700 700 600 600 600 600 " ] || wrong "modes $modes"
[ "$(find kinship -type f | wc -l)" -eq 19 ] || wrong "other than 19 files"
for host in 01 02 03 04 05 06 07 08 09; do
    number=$(sed -n 's/^number = //p' kinship/job)
    [ "$(ls "kinship/send/$host" | tr '\n' ' ')" = "$number-$host.a.mdo $number-$host.b.mdo " ] || wrong "other files for host $host"
done
(umask 000; "$MUKERIHE" "${share[@]}" open >/dev/null) || wrong "umask 000"
[ -z "$(find open -perm /077)" ] || wrong "others may read under umask 000"
ends 0 "${share[@]}" slash/
[ -e slash/job ] || wrong "a folder with a slash after it"
numbers=$(sed -n 's/^number = //p' kinship/job open/job slash/job)
[ "$(sort -u <<<"$numbers" | wc -l)" -eq 3 ] || wrong "two runs have one job number"
grep -qv '^0000' <<<"$numbers" || wrong "small job numbers: $numbers"
(umask 000; "$MUKERIHE" multiply open/send/01/*.a.mdo open/send/01/*.b.mdo openanswer >/dev/null) || wrong "umask 000"
(umask 000; "$MUKERIHE" decode kinship opentable answers/* >/dev/null) || wrong "umask 000"
[ "$(stat -c %a openanswer opentable | tr '\n' ' ')" = "600 600 " ] || wrong "others may read under umask 000"
nothing_unfinished "after README's job"

# A table that was written is read again.
job 'prime = 257' 'sizes = 4 4 1' 'cuts = 1 1 1' 'groups = 1 1' 'hosts = 3' 'names_a = both' 'names_b = rows'
printf 'oxeye daisy, lot 12\t1\noxeye daisy, lot 31\t0\ncowslip, lot 4\t0\ncowslip, lot 9\t0\n' >next.tsv
ends 0 share some.job table next.tsv next
answer next nextanswers
ends 0 decode next nexttable nextanswers/*
[ "$(cut -f 2 nexttable | tr '\n' ' ')" = '10 9 3 3 ' ] || wrong "a table that was written is not read"
section "modes, and a table read again"

# The demonstration prints what README shows, but for the job number, with GNU parallel and without.
demonstration() {
    "$@" bash "$examples/kinship.sh" "$MUKERIHE" 2>&1 | sed -E 's/^job [0-9a-f]{8} .*/job/'
}
mkdir without
for tool in bash cat cp dirname grep head mkdir mktemp realpath rm tail; do
    ln -s "$(command -v $tool)" without/$tool
done
sed -n '/^\$ mukerihe plan kinship.job$/,/^```$/p' "$readme" | sed -E '$d; s/^job [0-9a-f]{8} .*/job/' >shown
[ "$(wc -l <shown)" -gt 30 ] || wrong "README does not show the demonstration"
demonstration env >said
cmp -s said shown || wrong "README shows another demonstration: $(diff said shown)"
demonstration env PATH="$PWD/without" >said
cmp -s said shown || wrong "without GNU parallel the demonstration is another: $(diff said shown)"
tried=2
section "the demonstration"

# Its lines for real machines, with stand-ins for ssh and scp: each machine is a folder, and keeps no share.
mkdir stand_ins room
cat >stand_ins/ssh <<'SSH'
#!/bin/sh
machine=$1
shift
cd "../$machine" && eval "$*"
SSH
cat >stand_ins/scp <<'SCP'
#!/bin/sh
for path; do shift; set -- "$@" "$(printf %s "$path" | sed 's|^\(user@.*\):|../\1/|')"; done
cp "$@"
SCP
ln -s "$MUKERIHE" stand_ins/mukerihe
chmod +x stand_ins/*
cp -R kinship room/kinship
mkdir room/answers
for host in 01 02 03 04 05 06 07 08 09; do
    mkdir "user@garden$host"
    echo "$host user@garden$host" >>room/machines
done
sed -n '/^#     at() {$/,/^#     parallel --link/s/^#     //p' "$examples/kinship.sh" >lines
(cd room && PATH="$room/stand_ins:$PATH" bash ../lines) >said 2>&1 || wrong "the lines for machines"
[ -z "$(find user@* -name '*.?.mdo')" ] && [ "$(find user@* -name answer.mdo | wc -l)" -eq 9 ] || wrong "shares are left at a garden"
ends 0 decode kinship by_machines room/answers/*
cmp -s by_machines table.due || wrong "another table by the lines for machines"
section "the lines for real machines"
