#!/usr/bin/env bash
# The rows of `bench.sh --before COMMIT [NAME]`: this library's calls beside those of the library of an earlier commit, in one program
# (before.c). The earlier library is made once, with the oracle of that commit, in a folder outside this tree: rt takes every file of Rattle
# below a repository for one of its own. The library and its header stay, in oracle/build/before.
set -euo pipefail
here=$(cd "$(dirname "${BASH_SOURCE[0]}")" && pwd -P)
root=$(cd "$here/../.." && pwd -P)
place=$root/oracle/build/before

fail() { printf 'before.sh: %s\n' "$*" >&2; exit 1; }

[[ $# -ge 1 && $# -le 2 ]] || fail 'a commit, and the name of a call or none'
commit=$(git -C "$root" rev-parse --verify --quiet "$1^{commit}") || fail "there is no commit $1"
earlier=$place/$commit

# The library of a commit, with the header of its time.
if [[ ! -f $earlier/libhaythaw.a ]]; then
    echo "the library of $1 ..." >&2
    work=$(mktemp -d)
    trap 'rm -rf "$work"' EXIT
    git clone --quiet --shared --no-checkout "$root" "$work/tree"
    git -C "$work/tree" checkout --quiet --detach "$commit"
    "$work/tree/oracle/library.sh" >&2
    rm -rf "$earlier"
    mkdir -p "$earlier"
    cp "$work/tree/bind/c/haythaw.h" "$work/tree/oracle/build/libhaythaw.a" "$earlier/"
fi
"$root/oracle/library.sh" >&2

# A side's calls and its library become one object, which has the side's name alone: both libraries have the same names.
side() { # NAME FOLDER-OF-THE-HEADER LIBRARY
    cc -std=gnu11 -O2 -Wall -Wextra -Werror -fPIC -I"$2" -DSIDE="$1" -c "$here/side.c" -o "$place/$1.side.o"
    ld -r "$place/$1.side.o" "$3" -o "$place/$1.o"
    objcopy --keep-global-symbol="$1" "$place/$1.o"
}
side before "$earlier" "$earlier/libhaythaw.a"
side after "$root/bind/c" "$root/oracle/build/libhaythaw.a"

# Where the linker puts a loop decides some per cent of its time: the least of several places.
echo "machine: $(uname -m), $(lscpu | sed -n 's/^Model name: *//p' | head -n 1)"
for bytes in 0 16 32 48; do
    echo "linked at +$bytes ..." >&2
    printf '.text\n.skip %d\n.section .note.GNU-stack,"",%%progbits\n' "$((bytes + 64))" >"$place/pad.s"
    cc -std=gnu11 -O2 -Wall -Wextra -Werror "$place/pad.s" "$here/before.c" "$place/before.o" "$place/after.o" -o "$place/both"
    "$place/both" "${@:2}"
done
