#!/usr/bin/env bash
# The C boundary: compiles bind/c/test.c against the library for this machine and runs it, plainly, with the compiler's
# sanitizers and under valgrind, as far as these are at hand; compiles and runs the examples, the demo's program, and the header as
# C++; and looks at what the library asks of the program that links it. It prints what ran, then the plain run's
# `c: N checks, 0 wrong`. Status 1 if anything is wrong.
#   HAYTHAW_PROCESSOR=x86-64-v3   the same over the library for such processors alone
#   --v3                          over that one, but for the sanitizers and valgrind, where this processor is such a one
set -euo pipefail
root=$(cd "$(dirname "${BASH_SOURCE[0]}")/.." && pwd -P)
cd "$root"

watched=yes
case ${1:-} in
'') ;;
--v3)
    if [[ $(uname -m) != x86_64 ]] || ! grep -qw avx2 /proc/cpuinfo; then
        echo 'not tested: the library for x86-64-v3: this processor has no AVX2'
        exit 0
    fi
    export HAYTHAW_PROCESSOR=x86-64-v3
    watched=no
    ;;
*) echo 'usage: tests/c.sh [--v3]' >&2; exit 2 ;;
esac

oracle/library.sh
library=oracle/build/${HAYTHAW_PROCESSOR:+$HAYTHAW_PROCESSOR/}libhaythaw.a
made=$(mktemp -d)
trap 'rm -rf "$made"' EXIT
strict=(-std=c99 -Wall -Wextra -Wpedantic -Werror -O1 -g -Ibind/c)
ran=() left=()

# Runs a test whose last line has to end in ' 0 wrong', and shows what it left out; all that it said where it fails.
passes() { # NAME WORDS...
    local name=$1
    shift
    if ! "$@" >"$made/said" 2>&1 || [[ $(tail -n 1 "$made/said") != *' 0 wrong' ]]; then
        cat "$made/said"
        echo "c: FAILED: $name"
        exit 1
    fi
    ran+=("$name")
    sed -n "s/^c: left out: /c: left out ($name): /p" "$made/said"
}

cc "${strict[@]}" bind/c/test.c "$library" -o "$made/test"
passes plain "$made/test"
verdict=$(tail -n 1 "$made/said")

sanitizers=(-fsanitize=address,undefined -fno-sanitize-recover=all)
echo 'int main(void) { return 0; }' >"$made/empty.c"
if [[ $watched == no ]]; then
    :
elif cc "${sanitizers[@]}" "$made/empty.c" -o "$made/empty" 2>/dev/null && "$made/empty"; then
    cc "${strict[@]}" "${sanitizers[@]}" bind/c/test.c "$library" -o "$made/sanitized"
    passes sanitizers "$made/sanitized"
else
    left+=(sanitizers)
fi

if [[ $watched == no ]]; then
    :
elif command -v valgrind >/dev/null; then
    passes valgrind valgrind -q --error-exitcode=9 --leak-check=full "$made/test" heap
else
    left+=(valgrind)
fi

# What an example prints stands beside it.
examples() { # NAME COMPILER...
    local said
    for said in bind/c/*.out; do
        "${@:2}" "${said%.out}.c" -x none "$library" -o "$made/example"
        "$made/example" | diff "$said" - || { echo "c: FAILED: ${said%.out}.c, $1"; exit 1; }
    done
}
examples C cc "${strict[@]}"
ran+=(examples)

# The demo's program ends with 0 only if both layouts show the strip as it has to be.
cc "${strict[@]}" strip/strip.c "$library" -o "$made/strip"
"$made/strip" "$made" >"$made/said" || { cat "$made/said"; echo 'c: FAILED: strip/strip.c'; exit 1; }
cmp "$made/strip.png" docs/strip.png || { echo 'c: FAILED: docs/strip.png is not what the demo draws'; exit 1; }
ran+=(strip)

if command -v c++ >/dev/null; then
    c++ -std=c++11 -Wall -Wextra -Wpedantic -Werror bind/c/header.cc "$library" -o "$made/header"
    "$made/header" || { echo 'c: FAILED: the header as C++'; exit 1; }
    examples C++ c++ -std=c++11 -Wall -Wextra -Wpedantic -Werror -Ibind/c -x c++
    ran+=(C++)
else
    left+=(C++)
fi

# Every call that answers a number has the word for it before it: all but these.
if command -v python3 >/dev/null; then
    diff <(printf 'haythaw_%s\n' allocation_size is_avc_format map_size number_text version) <(python3 bind/c/exports.py --unmarked) ||
        { echo 'c: FAILED: a call that answers a number has no HAYTHAW_MUST_USE before it'; exit 1; }
fi
# An answer that is not looked at is warned of, and by a struct's call too; not where a program defines the word away.
for call in 'haythaw_view(0, 0, 0, 0, 0, 0, 0, 0, 0, 0)' 'haythaw_avc444_read(0, 0)' 'haythaw_picture_new(0)'; do
    printf '#include "haythaw_planes.h"\nvoid ignoring(void);\nvoid ignoring(void) { %s; }\n' "$call" >"$made/ignoring.c"
    if cc "${strict[@]}" -c "$made/ignoring.c" -o "$made/ignoring.o" 2>/dev/null; then echo "c: FAILED: no warning of $call"; exit 1; fi
    cc "${strict[@]}" -DHAYTHAW_MUST_USE= -c "$made/ignoring.c" -o "$made/ignoring.o"
done

# What the library takes from the C library: copies and fills, and nothing that allocates, prints, locks or ends the program.
asked=$(nm -u "$library" | awk '$1 == "U" { print $2 }' | sort -u | tr '\n' ' ')
for name in $asked; do
    case $name in
    memcpy | memset | memmove | memcmp | bcmp) ;;
    *) echo "c: FAILED: the library asks for $name"; exit 1 ;;
    esac
done
# The version can be read off the file.
version=$(awk '/^#define HAYTHAW_VERSION_/ { printf "%s%s", dot, $3; dot = "." }' bind/c/haythaw.h)
grep -qaF "haythaw-version-$version" "$library" || { echo "c: FAILED: the library does not have the text haythaw-version-$version"; exit 1; }
# It keeps nothing between calls: no symbol of data that is written.
if nm "$library" | awk '$2 ~ /^[bBdDcC]$/ { found = 1; print } END { exit !found }'; then
    echo 'c: FAILED: the library has data that is written'
    exit 1
fi

echo "c: ran ${ran[*]}${left:+; not at hand: ${left[*]}}; the library asks for: ${asked% }"
echo "$verdict"
