# What the parts of tests/cli.sh have in common. Each part is run with a room of its own as its folder, and ends at the first thing
# that is not as expected.
#
#   ends      runs the command, which must end with a status
#   says      the last run said a text
#   wrong     ends with what is wrong
#   section   ends a section
#   nothing_unfinished
#             no file or folder is left under a temporary name
#   answer    every host's part
#   job       writes the file some.job
#   turned    copies of a file, each with one bit turned
#   share     how README's job is shared
set -uo pipefail
export LC_ALL=C

part=$(basename "$0" .sh)
examples=$(realpath ../../examples)
room=$(mktemp -d)
trap 'rm -rf "$room"' EXIT
cd "$room" || exit 1
cp "$examples/kinship.job" "$examples/counts.tsv" .
share=(share --transpose-b kinship.job counts.tsv counts.tsv)
tried=0

# Ends with what is wrong, and with what the command said last.
wrong() {
    echo "cli: $part: $1" >&2
    head -c 2000 said >&2
    exit 1
}

# Runs the command, which must end with a status: ends STATUS ARGUMENT .. Both its outputs are in the file said.
ends() {
    local due=$1 got
    shift
    "$MUKERIHE" "$@" >said 2>&1
    got=$?
    [ "$got" -eq "$due" ] || wrong "mukerihe $* ends with $got, and $due is due"
    tried=$((tried + 1))
}

# The last run said a text.
says() {
    grep -qF -- "$1" said || wrong "it does not say: $1"
}

# Ends a section.
section() {
    echo "cli: $1: $tried runs as expected"
    tried=0
}

# No file or folder is left under a temporary name: nothing_unfinished WHEN
nothing_unfinished() {
    [ -z "$(find . -name '.*mukerihe-unfinished*')" ] || wrong "something unfinished is left: $1"
}

# Answers all that stands in FOLDER/send: answer FOLDER ANSWERS
answer() {
    local place
    mkdir -p "$2"
    for place in "$1"/send/*; do
        "$MUKERIHE" multiply "$place"/*.a.mdo "$place"/*.b.mdo "$2/${place##*/}.mdo" >said 2>&1 || wrong "multiply in $place"
    done
}

# Writes the file some.job: job LINE ..
job() {
    printf '%s\n' "$@" >some.job
}

# Writes copies of a file, each with one bit turned, to FOLDER/BYTE.BIT: turned FILE FOLDER
turned() {
    python3 - "$1" "$2" <<'PYTHON'
import pathlib, sys
data, folder = pathlib.Path(sys.argv[1]).read_bytes(), pathlib.Path(sys.argv[2])
folder.mkdir()
for byte in range(len(data)):
    for bit in range(8):
        copy = bytearray(data)
        copy[byte] ^= 1 << bit
        (folder / f"{byte}.{bit}").write_bytes(copy)
PYTHON
}

# The table of README's job, and its page.
tr '|' '\t' >table.due <<'TABLE'
|oxeye daisy, lot 12|oxeye daisy, lot 31|cowslip, lot 4|cowslip, lot 9
oxeye daisy, lot 12|10|9|3|3
oxeye daisy, lot 31|9|10|2|4
cowslip, lot 4|3|2|10|8
cowslip, lot 9|3|4|8|10
TABLE
cat >page.due <<'PAGE'
               1          2          3          4
    1         10          9          3          3
    2          9         10          2          4
    3          3          2         10          8
    4          3          4          8         10
PAGE
