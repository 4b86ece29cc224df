#!/usr/bin/env bash
# Sees to it that FLINT is there, which bench/product.sh sets beside the library.
#
#   bench/flint.sh [--yes]    with --yes it installs without a question
#
# Where FLINT's headers are missing it asks on the terminal whether to install Debian's libflint-dev. It ends with 0 where FLINT
# is there in the end. It says what is needed and ends with 2 where nobody can be asked, or the reply is not yes.
set -euo pipefail

there() {
    printf '#include <flint/nmod_mat.h>\n' | gcc -fsyntax-only -x c - 2>/dev/null
}

stop() {
    echo "needed: FLINT and its headers, Debian's package libflint-dev; $1" >&2
    exit 2
}

if there; then
    exit 0
fi
command -v apt-get >/dev/null || stop "there is no apt-get here to install it"
if [ "${1:-}" != --yes ]; then
    [ -t 0 ] || stop "install it, or call this again with --yes"
    read -r -p "FLINT is missing. Install Debian's libflint-dev by apt-get? [y/N] " reply || reply=
    case $reply in
        [yY] | [yY][eE][sS]) ;;
        *) stop "nothing was installed" ;;
    esac
fi
apt-get update -qq
apt-get install -y -qq libflint-dev
