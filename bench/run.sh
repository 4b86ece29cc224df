#!/usr/bin/env bash
# Makes every figure of docs/BENCHMARKS.md: the product beside FLINT, then every stage beside plain Rust.
#
#   bench/run.sh [--yes] [FOLDER]    FOLDER has libmukerihe.a and libmukerihe_bank.a; without it they are proved and built
#
# It needs gcc, rustc and FLINT. Where FLINT is missing it asks before it installs Debian's libflint-dev; with --yes it does not
# ask. Where nobody can be asked it says what is needed and ends with 2.
set -euo pipefail
cd "$(dirname "$0")/.."

flint=(bash bench/flint.sh)
if [ "${1:-}" = --yes ]; then
    flint+=(--yes)
    shift
fi
"${flint[@]}"

library=${1:-target/staticlib}
if [ $# -eq 0 ]; then
    bash tools/build.sh libraries
fi

bash bench/product.sh "$library"

room=$(mktemp -d)
trap 'rm -rf "$room"' EXIT

build=(rustc --edition 2021 -D warnings -C opt-level=3)
"${build[@]}" --crate-type rlib --crate-name plain docs/src/plain/lib.rs --out-dir "$room"
"${build[@]}" bench/stages/main.rs --extern plain="$room/libplain.rlib" \
    -L native="$library" -l static=mukerihe_bank -l static=mukerihe -o "$room/stages"
"$room/stages"
