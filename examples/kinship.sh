#!/usr/bin/env bash
# Kinship of four seed lots, from counts 0..2 at six markers, through files as between machines: plan, share, every host's product,
# one answer twice, one damaged, decode, page.
#
#   examples/kinship.sh MUKERIHE [FOLDER]    MUKERIHE is the built command; FOLDER, which must not be there, keeps all files:
#                                            without it they are removed at the end
#
# Here one machine plays the bank and all nine hosts. With real machines, one for each garden, keep a list of pairs
#
#     01 user@machine.of.garden.one
#     02 user@machine.of.garden.two
#
# and go over its pairs, host i's files to machine i and to no other, in a folder of their own for each job:
#
#     at() {
#         ssh "$2" mkdir -m 700 kinship && scp kinship/send/"$1"/*.mdo "$2:kinship" &&
#             ssh "$2" "cd kinship && mukerihe multiply *.a.mdo *.b.mdo answer.mdo && rm *.a.mdo *.b.mdo" &&
#             scp "$2:kinship/answer.mdo" "answers/$1.mdo"
#     }
#     export -f at
#     parallel --link at ::: $(cut -d ' ' -f 1 machines) ::: $(cut -d ' ' -f 2 machines)
#
# Never --sshlogin: it gives a job to whichever machine is free, and a retry to another, so that one garden may get the shares of
# more hosts than the group may have. Two machines of one garden, one cluster, one mail server, one backup are one reader.
set -euo pipefail

[ $# -ge 1 ] && [ $# -le 2 ] || { echo "usage: examples/kinship.sh MUKERIHE [FOLDER]" >&2; exit 2; }
mukerihe=$(realpath "$1")
here=$(realpath "$(dirname "$0")")
if [ $# -eq 2 ]; then
    mkdir -m 700 "$2"
    cd "$2"
else
    room=$(mktemp -d)
    trap 'rm -rf "$room"' EXIT
    cd "$room"
fi
cp "$here/kinship.job" "$here/counts.tsv" .

# Shows a command and runs it.
run() {
    echo "\$ ${*/#$mukerihe/mukerihe}"
    "$@"
}

# A host's part: it multiplies what it got, and sends back one file.
host() {
    "$mukerihe" multiply kinship/send/"$1"/*.a.mdo kinship/send/"$1"/*.b.mdo answers/"$1".mdo >"answers/$1.said"
}

# The bank plans and shares: B is A transposed.
run "$mukerihe" plan kinship.job
run "$mukerihe" share --transpose-b kinship.job counts.tsv counts.tsv kinship

# All hosts answer, side by side where GNU parallel is there.
hosts=(01 02 03 04 05 06 07 08 09)
mkdir answers
if parallel --version 2>/dev/null | grep -q GNU; then
    export -f host
    export mukerihe
    parallel --will-cite host ::: "${hosts[@]}"
else
    for number in "${hosts[@]}"; do
        host "$number"
    done
fi
echo "every host has answered; host 6 was told:"
cat answers/06.said

# Host 3's answer comes damaged, and again as it was; host 6's comes twice; those of hosts 1 and 9 are spare.
{ head -c 16 answers/03.mdo; printf '\377'; tail -c +18 answers/03.mdo; } >answers/damaged.mdo
run "$mukerihe" heard kinship answers/06.mdo answers/02.mdo answers/damaged.mdo || [ $? -eq 4 ]
run "$mukerihe" decode --page kinship.page kinship kinship.tsv answers/06.mdo answers/02.mdo answers/08.mdo answers/06.mdo \
    answers/damaged.mdo answers/03.mdo answers/05.mdo answers/04.mdo answers/07.mdo answers/01.mdo answers/09.mdo
run cat kinship.tsv
run cat kinship.page
