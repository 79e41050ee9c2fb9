#!/usr/bin/env bash
# Times the library's calls beside the Rust original's, and beside FreeRDP's and libyuv's where Debian's freerdp2-dev and libyuv-dev are
# installed; on x86-64 once more with the library, and the original, made for x86-64-v3. The rows stay in oracle/build/rows.
#   --only NAME   one call, beside the original and itself alone
#   --before COMMIT [NAME]   the calls, or one of them, beside the library of an earlier commit, both in one program: what a change costs
#   --page        the table of docs/SPEED.md, from the rows of the last whole run
set -euo pipefail
oracle=$(cd "$(dirname "${BASH_SOURCE[0]}")" && pwd -P)
rows=$oracle/build/rows

tables() { # WORDS: of the files that there are
    local files=("$rows/plain")
    [[ ! -s $rows/v3 ]] || files+=("$rows/v3")
    "$oracle/bench.py" "$@" "${files[@]}"
}

case ${1:-} in
'' | --only | --before | --page) ;;
*) sed -n '2,/^[^#]/s/^# \{0,1\}//p' "${BASH_SOURCE[0]}"; [[ $1 == --help ]]; exit ;;
esac

if [[ ${1:-} == --page ]]; then
    [[ -s $rows/plain ]] || { echo 'bench.sh: no run has left rows: oracle/bench.sh first' >&2; exit 1; }
    tables --page
    exit
fi

if [[ ${1:-} == --before ]]; then
    mkdir -p "$oracle/build/before"
    "$oracle/before/before.sh" "${@:2}" >"$oracle/build/before/rows"
    "$oracle/bench.py" "$oracle/build/before/rows"
    exit
fi

# A program in C over another library's header, if that is installed, linked with the library of a folder.
beside_another() { # NAME FOLDER WORDS-FOR-THE-COMPILER...
    cc -std=gnu11 -O2 -Wall -Wextra -Werror -I"$oracle/../bind/c" "$oracle/$1.c" "$2/libhaythaw.a" "${@:3}" -o "$2/$1"
    echo "$1 ..." >&2
    "$2/$1"
}

others() { # FOLDER
    if pkg-config --exists freerdp2 winpr2 2>/dev/null; then
        # shellcheck disable=SC2046 # words of the compiler, to be split
        beside_another freerdp "$1" $(pkg-config --cflags --libs freerdp2 winpr2)
    else
        echo 'not timed beside FreeRDP: freerdp2-dev is not installed'
    fi
    if echo '#include <libyuv.h>' | cc -E -x c - >/dev/null 2>&1; then
        beside_another libyuv "$1" -lyuv
    else
        echo 'not timed beside libyuv: libyuv-dev is not installed'
    fi
}

[[ $# -eq 0 ]] || rows=$rows/only
mkdir -p "$rows"
rm -f "$rows/plain" "$rows/v3"
{
    echo "machine: $(uname -m), $(lscpu | sed -n 's/^Model name: *//p' | head -n 1)"
    "$oracle/beside.sh" bench "$@"
    [[ $# -gt 0 ]] || others "$oracle/build"
} >"$rows/plain"
if [[ $(uname -m) != x86_64 ]]; then
    :
elif ! grep -qw avx2 /proc/cpuinfo; then
    echo 'not timed for x86-64-v3: this processor has no AVX2' >>"$rows/plain"
else
    export HAYTHAW_PROCESSOR=x86-64-v3
    {
        "$oracle/beside.sh" bench "$@"
        [[ $# -gt 0 ]] || others "$oracle/build/$HAYTHAW_PROCESSOR"
    } >"$rows/v3"
fi
tables
