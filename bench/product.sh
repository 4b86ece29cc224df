#!/usr/bin/env bash
# Times the 64 x 64 x 64 product: the library, FLINT's nmod_mat_mul and plain Rust, in one run.
#
#   bench/product.sh [--yes] [FOLDER]    FOLDER has libmukerihe.a; without it the library is proved and built
#
# It needs gcc, rustc and FLINT. Where FLINT is missing it asks before it installs Debian's libflint-dev; with --yes it does not
# ask. Where nobody can be asked it says what is needed and ends with 2.
set -euo pipefail
cd "$(dirname "$0")/.."

flint=(bash bench/flint.sh)
if [ "${1:-}" = --yes ]; then
    flint+=(--yes)
    shift
fi
"${flint[@]}"

library=${1:-target/staticlib}
[ $# -gt 0 ] || bash tools/build.sh libraries

room=$(mktemp -d)
trap 'rm -rf "$room"' EXIT

rustc --edition 2021 -D warnings --crate-type staticlib -C opt-level=3 docs/src/plain/lib.rs -o "$room/libplain.a"
gcc -std=gnu11 -O2 -Wall -Wextra -Werror -Iinclude bench/product.c "$library/libmukerihe.a" "$room/libplain.a" \
    -lflint -lgmp -lpthread -ldl -lm -o "$room/product"

grep -m 1 'model name' /proc/cpuinfo
"$room/product"
