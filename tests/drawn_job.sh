#!/usr/bin/env bash
# Runs the job of crates/whole_job/stdin with fresh masks, drawn from the machine's random words: what is printed does not depend
# on the masks.
#
#   tests/drawn_job.sh WHOLE_JOB MASK_DRAWER    the two built programs
#
# It prints one line and ends with 0 where each run prints what crates/whole_job/stdout has and no two had the same masks. Where
# that is not so, it says so and ends with 1.
set -euo pipefail

[ $# -eq 2 ] || { echo "usage: tests/drawn_job.sh WHOLE_JOB MASK_DRAWER" >&2; exit 2; }
whole_job=$1
mask_drawer=$2
job=$(dirname "$0")/../crates/whole_job/stdin
due=$(dirname "$0")/../crates/whole_job/stdout
draws=20

room=$(mktemp -d)
trap 'rm -rf "$room"' EXIT

# Ends with what is wrong.
wrong() {
    echo "drawn_job: $1" >&2
    exit 1
}

# Draws so many masks from as many random words and some more, should one be skipped.
draw() {
    { echo "$modulus $1"; od -An -v -tu4 -N $((4 * ($1 + 16))) /dev/urandom; } | "$mask_drawer"
}

# The job with the masks of A and of B from two files.
with_masks() {
    awk -v a="$1" -v b="$2" '
        function put(file, line) { print; while ((getline line < file) > 0) print line; left_out = 1 }
        /^[A-Z]/ { left_out = 0 }
        $1 == "MASKS_A" { put(a) }
        $1 == "MASKS_B" { put(b) }
        !left_out' "$job"
}

# How many masks there are, from the numbers of the section JOB.
read -r modulus t s r m p n x_a x_b _ <<<"$(sed 's/#.*//' "$job" | tr '\n' ' ' | sed 's/.*JOB//; s/POINTS.*//')"
masks_a=$((x_a * (t / m) * (s / p)))
masks_b=$((x_b * (s / p) * (r / n)))

for ((i = 1; i <= draws; i++)); do
    draw "$masks_a" >"$room/a" || wrong "mask_drawer ends with $?"
    draw "$masks_b" >"$room/b" || wrong "mask_drawer ends with $?"
    cat "$room/a" "$room/b" | grep -v '^#' | tr '\n' ' ' >>"$room/masks"
    echo >>"$room/masks"
    with_masks "$room/a" "$room/b" >"$room/job"
    drawings=$(grep -c '^# USED [0-9]*$' "$room/job" || true)
    [ "$drawings" -eq 2 ] || wrong "the job has not two drawings: $(head -qn 1 "$room/a" "$room/b")"
    "$whole_job" <"$room/job" >"$room/printed" || wrong "whole_job ends with $?"
    cmp -s "$room/printed" "$due" || wrong "with fresh masks whole_job prints something else: $(head -n 1 "$room/printed")"
done
[ "$(sort -u "$room/masks" | wc -l)" -eq "$draws" ] || wrong "two drawings gave the same masks"
[ "$(awk '{ print NF }' "$room/masks" | sort -u)" = "$((masks_a + masks_b))" ] || wrong "other than $masks_a and $masks_b masks"
echo "drawn_job: $draws jobs with fresh masks, all as expected"
