#!/usr/bin/env bash
# Makes oracle/build/libhaythaw.a, the crate `haythaw` for this machine.
#
# On x86-64 it has the object of `rt lib`. For any other machine the module that the kit hands to its compiler for that machine is kept and
# compiled by the same words, with the marks where jumps may end (module.sh, marks.py), which is what ../dist packs. Beside that object there
# is one of bind/c/haythaw_text.c, two calls that are C and not proved.
#
#   HAYTHAW_LIBRARY=module    goes the second road on x86-64 too
#   HAYTHAW_MACHINE=aarch64   makes oracle/build/aarch64/libhaythaw.a, for that machine
#   HAYTHAW_PROCESSOR=x86-64-v3   makes oracle/build/x86-64-v3/libhaythaw.a, of the module, for such processors alone (the bench)
set -euo pipefail

root=$(cd "$(dirname "${BASH_SOURCE[0]}")/.." && pwd -P)
here=$(uname -m)
machine=${HAYTHAW_MACHINE:-$here}
processor=${HAYTHAW_PROCESSOR:-}

fail() { printf 'library.sh: %s\n' "$*" >&2; exit 1; }

case ${HAYTHAW_LIBRARY:-} in
'' | module) ;;
*) fail "HAYTHAW_LIBRARY is $HAYTHAW_LIBRARY; it can be 'module', or not set" ;;
esac
road=archive
if [[ $machine != x86_64 || ${HAYTHAW_LIBRARY:-} == module || -n $processor ]]; then road=module; fi

"$root/.ci/needs" library || exit 1
[[ -f $root/crates/haythaw/src/lib.rt ]] || fail "there is no crate haythaw in $root/crates"
# shellcheck source=oracle/module.sh
. "$root/oracle/module.sh"

place=$build
if [[ $machine != "$here" ]]; then place=$build/$machine; fi
if [[ -n $processor ]]; then place=$build/$processor; fi
archive=$place/libhaythaw.a

# What the library is made from, and how.
state() {
    {
        echo "$road $machine $processor"
        rt version
        cd "$root" && find crates.txt crates oracle/library.sh oracle/module.sh oracle/marks.py oracle/calls.c bind/c/test/results.h \
            bind/c/haythaw.h bind/c/haythaw_text.c -name out -prune -o -type f -exec sha256sum {} + | sort
    } | sha256sum
}

# The proved object, rt's own or assembled from the module's text, and beside it the two calls that are C.
from_archive() {
    keep_module "$machine" "$processor"
    cp "$(module_folder "$machine" "$processor")/libhaythaw.a" "$archive.new"
    text_object "$machine" "$place/haythaw_text.o"
    "$tools/llvm-ar" rs "$archive.new" "$place/haythaw_text.o"
}

from_module() {
    keep_module "$machine" "$processor"
    module_text "$machine" "$processor" "$place/haythaw.s"
    assembled "$machine" "$place/haythaw.s" "$place/haythaw.o"
    text_object "$machine" "$place/haythaw_text.o"
    rm -f "$archive.new"
    "$tools/llvm-ar" rcs "$archive.new" "$place/haythaw.o" "$place/haythaw_text.o"
}

# Runs calls.c with the library, for another machine under an emulator if there is one.
try_calls() {
    local cc=(cc) run=()
    if [[ $machine != "$here" ]]; then
        cc=("$machine-linux-gnu-gcc" -static) run=("qemu-$machine")
        if ! { command -v "${cc[0]}" && command -v "${run[0]}"; } >/dev/null; then
            echo "library: calls.c was not run: ${cc[0]} or ${run[0]} is not at hand"
            return
        fi
    fi
    "${cc[@]}" -Wall -Wextra -Werror -O1 -I"$root/bind/c" "$oracle/calls.c" "$archive.new" -o "$place/calls"
    "${run[@]}" "$place/calls" || fail "a call through the library failed (status $?)"
}

mkdir -p "$place"
now=$(state)
if [[ ! -f $archive || ! -f $archive.state || $(cat "$archive.state") != "$now" ]]; then
    rm -f "$archive.state"
    "from_$road"
    try_calls
    mv "$archive.new" "$archive"
    echo "$now" >"$archive.state"
fi
printf 'library: %s (%s, %s)\n' "${archive#"$root"/}" "$machine${processor:+, $processor}" "$road"
