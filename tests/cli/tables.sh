#!/usr/bin/env bash
# Tables in all forms that are taken and with every fault; numbers dropped, doubled and moved; the bound; numbers below 0.
source ./common.sh

# A is 2 by 3 and B 3 by 1.
job 'prime = 257' 'sizes = 2 3 1' 'cuts = 1 1 1' 'groups = 1 1' 'hosts = 3'
printf '1\n2\n3\n' >b
folders=0
# A table is taken, and gives the due table: taken TEXT
taken() {
    printf "$1" >a
    folders=$((folders + 1))
    ends 0 share some.job a b "t$folders"
    answer "t$folders" "ta$folders"
    ends 0 decode "t$folders" "tt$folders" "ta$folders"/*
    [ "$(sed 's/.*\t//' "tt$folders")" = $'14\n32' ] || wrong "another table for $1"
}
# A table is refused in words: unfit TEXT WORDS [OPTION ..]
unfit() {
    printf "$1" >a
    ends 1 share "${@:3}" some.job a b none
    says "$2"
    [ ! -e none ] || wrong "a folder for a refused table"
}
taken '1 2 3\n4 5 6\n'
taken '1 2 3\n4 5 6'
taken '  1   2 3 \n4 5  6\n\n\n'
taken '1\t2\t3\n4\t5\t6\n'
taken '1;2;3\r\n4;5;6\r\n'
taken '1;2;3\r\n4;5;6\r\n  \r\n\r\n'
taken '\357\273\2771,2,3\n4, 5 ,6\n'
taken '"1","2",3\n4,5,"6"\n'
unfit '' 'a: rows: 0, expected 2'
unfit '1 2 3\n' 'a: rows: 1, expected 2'
unfit '1 2 3\n4 5 6\n7 8 9\n' 'a, line 3: a row more than the 2'
unfit '1 2 3\n4 5 6\n\n7 8 9\n' 'a, line 4: a row more than the 2'
unfit '1,2,3\n4,5,6\n,\n' 'a, line 3: a row more than the 2'
unfit '1,2,3\n4,5,6\n""\n' 'a, line 3: a row more than the 2'
unfit '1 2 3\n4 5\n' 'a, line 2: 2 of 3 cells'
unfit '1 2 3\n4 5 6 6\n' 'a, line 2: more than 3 cells'
unfit '1 2 3\n\n4 5 6\n' 'a, line 2: 1 of 3 cells'
unfit '1,2,3\n4,,6\n' 'a, line 2, column 2: an empty cell'
unfit '1,2,3\n4,5,\n' 'a, line 2, column 3: an empty cell'
for cell in NA . 1.0 1e3 +1 x 0x1 '1 1' '--1' 1_0 '١'; do
    unfit "1,2,3\n4,$cell,6\n" "a, line 2, column 2: \"$cell\" is no whole number"
done
unfit '1,2,3\n4,05,6\n' 'line 2, column 2: "05" has a needless 0'
unfit '1,2,3\n4,-5,6\n' 'line 2, column 2: -5 is below 0, which needs --signed'
unfit '1,2,3\n4,-0,6\n' 'line 2, column 2: "-0" has a sign'
unfit '1,2,3\n4,-0,6\n' 'line 2, column 2: "-0" has a sign' --signed
unfit '1,2,3\n4,257,6\n' 'line 2, column 2: 257: refused with 14: an element is not below the prime 257'
unfit '1,2,3\n4,4294967553,6\n' 'line 2, column 2: 4294967553: refused with 14'
unfit '1,2,3\n4,99999999999999999999999,6\n' 'line 2, column 2: "99999999999999999999999" is too large'
unfit '1,2,3\n4,129,6\n' 'line 2, column 2: 129: refused with 25' --signed
unfit '1,2,3\n4,-129,6\n' 'line 2, column 2: -129: refused with 25' --signed
unfit '1,2,3\n4,18446744073709551615,6\n' 'line 2, column 2: 18446744073709551615: refused with 25' --signed
unfit '1,2,3\n4,"5,6\n' 'line 2, column 2: a quoted cell that is not closed'
unfit '1,2,3\n4,"5"5,6\n' 'line 2, column 2: something stands after a closing quote'
unfit '1,2,3\n4,5"5",6\n' 'line 2, column 2: a quote inside a cell'
unfit '1,2,3\r4,5,6\r' 'line 1: a lone CR'
unfit '1,2,3\n4,\0005,6\n' 'line 2: a byte 0'
unfit '\377\3761\000' 'UTF-16'
unfit '1,2,3\n4,\377,6\n' 'line 2: no UTF-8'
# With blanks between cells a name must stand in quotes: else a number that is lost could be made up for by a part of a name.
printf 'names_a = rows\n' >>some.job
taken '"lot 1" 1 2 3\n"lot 2" 4 5 6\n'
unfit '"lot 1" 1 2 3\nlot2 4 5 6\n' 'line 2, column 1: with blanks between cells a name must stand in quotes, or use tabs'
unfit 'oxeye 12 2 3\n"cowslip" 4 5 6\n' 'line 1, column 1: with blanks between cells a name must stand in quotes'
head -c 67108865 /dev/zero | tr '\0' ' ' >large
ends 1 share some.job large b none
says 'large: more than 67108864 bytes'
rm large
section "tables"

# Each number of README's table dropped or doubled, each row lost or doubled; markers in another order; a name twice.
for row in 2 3 4 5; do
    line=$(sed -n "${row}p" counts.tsv)
    for column in 2 3 4 5 6 7; do
        few=$(cut -f "1-$((column - 1)),$((column + 1))-" <<<"$line")
        sed "${row}s/.*/$few/" counts.tsv >few.tsv
        ends 1 share --transpose-b kinship.job few.tsv counts.tsv none
        says "few.tsv, line $row: 6 of 7 cells"
        more=$(cut -f "1-$column" <<<"$line")$'\t'$(cut -f "$column-" <<<"$line")
        sed "${row}s/.*/$more/" counts.tsv >more.tsv
        ends 1 share --transpose-b kinship.job counts.tsv more.tsv none
        says "more.tsv, line $row: more than 7 cells"
    done
    sed "${row}d" counts.tsv >few.tsv
    ends 1 share --transpose-b kinship.job few.tsv counts.tsv none
    says 'few.tsv: rows: 3, expected 4 after the line of names'
    sed "${row}p" counts.tsv >more.tsv
    ends 1 share --transpose-b kinship.job more.tsv counts.tsv none
    if [ $row -lt 5 ]; then says "more.tsv, line $((row + 1)), column 1: the name"; else says 'more.tsv, line 6: a row more'; fi
done
paste <(cut -f 1-2 counts.tsv) <(cut -f 4 counts.tsv) <(cut -f 3 counts.tsv) <(cut -f 5- counts.tsv) >swapped.tsv
ends 1 share --transpose-b kinship.job swapped.tsv counts.tsv none
says 'marker 2 is "m3" in swapped.tsv and "m2" in counts.tsv'
sed 's/m2/M2/' counts.tsv >swapped.tsv
ends 1 share --transpose-b kinship.job swapped.tsv counts.tsv none
says 'marker 2 is "M2" in swapped.tsv and "m2" in counts.tsv'
sed 's/m2/m2 /' counts.tsv >swapped.tsv
ends 1 share --transpose-b kinship.job swapped.tsv counts.tsv none
says 'marker 2 is "m2 " in swapped.tsv and "m2" in counts.tsv'
printf 'm1\t1\nm3\t1\nm2\t1\nm4\t1\nm5\t1\nm6\t1\n' >upright.tsv
sed 's/= 4 6 4/= 4 6 1/; s/names_b = both/names_b = rows/' kinship.job >upright.job
ends 1 share upright.job counts.tsv upright.tsv none
says 'marker 2 is "m2" in counts.tsv and "m3" in upright.tsv'
sed 's/m3/m2/' counts.tsv >twice.tsv
ends 1 share --transpose-b kinship.job twice.tsv twice.tsv none
says 'twice.tsv, line 1, column 4: the name "m2" is given twice, first in line 1, column 3'
sed 's/m3/M2/' counts.tsv >alike.tsv
ends 0 share --transpose-b kinship.job alike.tsv alike.tsv alike
sed 's/lot 31/lot 12/' counts.tsv >twice.tsv
ends 1 share --transpose-b kinship.job twice.tsv counts.tsv none
says 'twice.tsv, line 3, column 1: the name "oxeye daisy, lot 12" is given twice'
sed 's/^lot.//' counts.tsv >corner.tsv
ends 1 share --transpose-b kinship.job corner.tsv counts.tsv none
says 'corner.tsv, line 1: 6 of 7 cells; expected one above the row names'
sed 's/m1/m\x1b[1m1/' counts.tsv >escape.tsv
ends 1 share --transpose-b kinship.job escape.tsv counts.tsv none
says 'm\u{1b}[1m1'
[ ! -e none ] || wrong "a folder for a refused table"
section "numbers dropped, doubled and moved"

# The bound, at the largest entry that comes back whole and one more: bound PRIME STATUS A B [OPTION ..]
bound() {
    job "prime = $1" 'sizes = 1 2 1' 'cuts = 1 1 1' 'groups = 1 1' 'hosts = 3'
    printf '%s\n' "$3" >a
    tr ' ' '\n' <<<"$4" >b
    ends "$2" share "${@:5}" some.job a b "bound$((folders += 1))"
}
bound 257 0 '16 16' '16 0'
bound 257 1 '16 1' '16 1'
says 'as large as 257, and prime 257 brings back no entry above 256; prime = 65537 would do'
bound 257 0 '16 1' '16 1' --wrap
says 'warning: --wrap: entries may be no whole numbers'
answer "bound$folders" wrapped
ends 0 decode "bound$folders" wrappedtable wrapped/*
says 'shared with --wrap: entries are remainders by 257, and may be no whole numbers'
[ "$(cat wrappedtable)" = 0 ] || wrong "another table of remainders"
bound 257 0 '-16 0' '8 0' --signed
bound 257 1 '-16 1' '8 1' --signed
says 'as large as 129, and prime 257 brings back no size above 128; prime = 65537 would do'
bound 257 0 '-16 1' '8 1' --signed --wrap
bound 65537 0 '256 0' '256 1'
bound 65537 1 '256 1' '256 1'
bound 65537 0 '-256 0' '128 1' --signed
bound 65537 1 '-256 1' '128 1' --signed
says 'prime = 2147483647 would do'
bound 2147483647 0 '2147483646 0' '1 1'
bound 2147483647 1 '2147483646 1' '1 1'
bound 2147483647 0 '-1073741823 0' '1 1' --signed
bound 2147483647 1 '-1073741823 1' '1 1' --signed
bound 2147483647 1 '2147483646 2147483646' '2147483646 2147483646'
says 'as large as 9223372019674906632, and prime 2147483647 brings back no entry above 2147483646; no prime would do'
job 'prime = 257' 'sizes = 3 2 2' 'cuts = 1 1 1' 'groups = 1 1' 'hosts = 3'
printf '1 1\n16 16\n1 1\n' >a
printf '0 8\n8 1\n' >b
ends 0 share some.job a b "bound$((folders += 1))"
says 'no entry of A times B is larger than 256'
printf '0 8\n8 9\n' >b
ends 1 share some.job a b none
says 'as large as 272'
bound 13 0 '12 0' '1 5'
bound 13 1 '12 1' '1 1'
bound 13 0 '-6 0' '1 5' --signed
bound 13 1 '-6 1' '1 1' --signed
section "the bound"

# Numbers below 0: the table has their signs, and a page has none.
job 'prime = 257' 'sizes = 1 2 2' 'cuts = 1 1 1' 'groups = 1 1' 'hosts = 3'
printf '3 -4\n' >a
printf '1 -5\n2 6\n' >b
ends 0 share --signed some.job a b signed
answer signed answers
ends 1 decode --page page signed table answers/*
says 'a page has no sign'
[ ! -e table ] && [ ! -e page ] || wrong "a page or table though the page is refused"
ends 0 decode signed table answers/*
[ "$(cat table)" = $'-5\t-39' ] || wrong "another signed table"
section "numbers below 0"
