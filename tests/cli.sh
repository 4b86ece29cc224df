#!/usr/bin/env bash
# Tries the command: the parts of tests/cli, two at a time.
#
#   tests/cli.sh MUKERIHE REFERENCE    MUKERIHE is the built command, REFERENCE the Rust program of docs/src
#
# It needs strace (Debian's package of that name) and python3. Each part prints a line for each section, and it ends with 0 where all
# is as expected; otherwise it says what is not, and ends with 1.
set -euo pipefail

[ $# -eq 2 ] || { echo "usage: tests/cli.sh MUKERIHE REFERENCE" >&2; exit 2; }
export MUKERIHE REFERENCE
MUKERIHE=$(realpath "$1")
REFERENCE=$(realpath "$2")
cd "$(dirname "$0")/cli"

# By their names, so that none is lost unseen; and none stands there that is not named.
parts=(answers arguments files injected kinship largest random_jobs tables)
[ "$(ls)" = "$(printf '%s.sh\n' "${parts[@]}" common | sort)" ] || { echo "cli: other parts in tests/cli than ${parts[*]}" >&2; exit 1; }
printf '%s.sh\n' "${parts[@]}" | xargs -P 2 -n 1 bash || { echo "cli: something is not as expected" >&2; exit 1; }
echo "cli: all as expected"
