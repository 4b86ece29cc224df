#!/usr/bin/env bash
# Proves and builds what is linked or run outside `rt`, where it is older than its sources:
#
#   tools/build.sh libraries      target/staticlib/libmukerihe.a and libmukerihe_bank.a
#   tools/build.sh program NAME   target/bin/NAME
set -euo pipefail
usage=$(sed -n '2,5s/^# \?//p' "$0")
cd "$(dirname "$0")/.."

# Copies a file that rt built, and keeps the time of one that is the same.
put() {
    mkdir -p "$(dirname "$2")"
    cmp -s "$1" "$2" || cp "$1" "$2"
}

# The library of C is called after what it offers, and not after the crate that exports it.
library() {
    (cd "crates/$1" && rt lib)
    put "crates/$1/out/lib$1.a" "target/staticlib/lib$2.a"
}

case "$*" in
libraries)
    library mukerihe_c mukerihe
    library mukerihe_bank mukerihe_bank
    ;;
program\ *)
    (cd "crates/$2" && rt run </dev/null >/dev/null)
    put "crates/$2/out/$2" "target/bin/$2"
    ;;
*)
    echo "$usage" >&2
    exit 2
    ;;
esac
