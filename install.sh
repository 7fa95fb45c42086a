#!/bin/sh
# install.sh PREFIX: copies the program to PREFIX/bin/vkd3d-compiler and its man page to PREFIX/share/man/man1/vkd3d-compiler.1.
# Where the program is not built yet, or a source is newer than it, vkd3d-compiler proves and builds it first, and its statuses 5 to 7
# end this too. What is installed needs the C library alone, and neither this repository nor the kit.
# Statuses of this script's own: 2 the words are not one PREFIX, 8 nothing can be written there.
set -u

# Says why nothing was installed, and ends with that status.
fail() {
    echo "install.sh: $2" >&2
    exit "$1"
}

# Copies a file to that name with that mode: whole, or not at all.
put() {
    mkdir -p -- "$(dirname -- "$3")" && cp -- "$2" "$3.new" && chmod "$1" "$3.new" && mv -f -- "$3.new" "$3" \
        || fail 8 "$3 cannot be written"
    echo "$3"
}

[ $# -eq 1 ] && [ -n "$1" ] || fail 2 "one word is wanted, the PREFIX to install below"
case $1 in
    -*) fail 2 "one word is wanted, the PREFIX to install below" ;;
esac
root=$(CDPATH='' cd -- "$(dirname -- "$0")" 2>/dev/null && pwd -P) || fail 7 "the repository is not there"

# The program is built, and translates one container.
"$root/vkd3d-compiler" <"$root/examples/smallest.dxbc" >/dev/null || exit

put 755 "$root/crates/compiler_cli/out/compiler_cli" "$1/bin/vkd3d-compiler"
put 644 "$root/docs/vkd3d-compiler.1" "$1/share/man/man1/vkd3d-compiler.1"
