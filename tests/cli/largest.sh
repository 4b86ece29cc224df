#!/usr/bin/env bash
# The largest jobs of the sheet, 64 hosts and blocks of 4096: `share` in 2 seconds and 64 MB, the table right in each 37th row, table
# and page of the right length; and the longest message.
source ./common.sh

# A table of numbers 0..2 of so many rows and columns: counts ROWS COLUMNS SEED
counts() {
    awk -v rows="$1" -v columns="$2" -v seed="$3" 'BEGIN {
        srand(seed)
        for (i = 0; i < rows; i++) for (j = 1; j <= columns; j++) printf "%d%s", 3 * rand(), j < columns ? "\t" : "\n"
    }'
}

# Every 37th row of a table is A times B modulo q: right Q A B TABLE
right() {
    awk -v q="$1" '
        FNR == 1 { file++ }
        file == 1 { for (j = 1; j <= NF; j++) a[FNR, j] = $j }
        file == 2 { for (j = 1; j <= NF; j++) b[FNR, j] = $j; s = FNR }
        file == 3 && FNR % 37 == 1 {
            for (j = 1; j <= NF; j++) { x = 0; for (l = 1; l <= s; l++) x += a[FNR, l] * b[l, j]; if (x % q != $j) exit 1 }
        }' "$2" "$3" "$4"
}

# largest PRIME SIZES CUTS GROUPS HOSTS
largest() {
    local t s r begin milliseconds
    job "prime = $1" "sizes = $2" "cuts = $3" "groups = $4" "hosts = $5"
    read -r t s r <<<"$2"
    counts "$t" "$s" 1 >a
    counts "$s" "$r" 2 >b
    rm -rf large largeanswers largetable largepage
    begin=${EPOCHREALTIME/./}
    (ulimit -v 65536 && exec "$MUKERIHE" share --wrap some.job a b large >said 2>&1) || wrong "share of $2 in 64 MB"
    milliseconds=$(((${EPOCHREALTIME/./} - begin) / 1000))
    [ $milliseconds -lt 2000 ] || wrong "share of $2: $milliseconds ms"
    tried=$((tried + 1))
    answer large largeanswers
    ends 0 decode --page largepage large largetable largeanswers/*
    right "$1" a b largetable || wrong "another table of $2"
    [ "$(awk '{ print NF }' largetable | uniq -c | awk '{ print $1, $2 }')" = "$t $r" ] || wrong "a table of $2 of another size"
    [ "$(wc -l <largepage)" -eq $(((r + 5) / 6 * (t + 2) - 1)) ] || wrong "a page of $2 of another length"
}
largest 65537 '448 448 64' '7 7 1' '1 1' 64
largest 2147483647 '16384 4 2' '8 2 1' '3 3' 64
largest 257 '2 16384 2' '1 8 1' '16 16' 64
largest 257 '2 2 16384' '1 1 8' '16 16' 64
largest 65537 '512 64 384' '8 1 6' '1 1' 64
largest 13 '1 1 16384' '1 1 4' '1 1' 12
section "the largest jobs"

# The longest message has 16400 bytes, and none has more.
job 'prime = 257' 'sizes = 64 64 64' 'cuts = 1 1 1' 'groups = 1 1' 'hosts = 3'
counts 64 64 3 >a
rm -rf large largeanswers
ends 0 share some.job a a large
answer large largeanswers
[ "$(stat -c %s largeanswers/01.mdo)" -eq 16400 ] || wrong "no longest message"
ends 0 show largeanswers/01.mdo
{ cat largeanswers/01.mdo; printf x; } >longer.mdo
ends 1 show longer.mdo
says 'more than 16400 bytes'
says 'refused with 20'
ends 4 heard large longer.mdo largeanswers/02.mdo largeanswers/03.mdo
says 'refused with 20'
section "the longest message"
