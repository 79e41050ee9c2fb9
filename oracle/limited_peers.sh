#!/usr/bin/env bash
# Limited range beside FFmpeg's swscale, libyuv and real numbers, on every triple of samples and every colour (limited_peers.c): two tables, of
# how many differ and by how much. Where Debian's libswscale-dev or libyuv-dev is not installed it says so, and that is no failure. Not a part of
# the gate: what others answer is theirs, and changes with their versions.
set -euo pipefail
oracle=$(cd "$(dirname "${BASH_SOURCE[0]}")" && pwd -P)

not_compared() { printf 'not compared with others in limited range: %s\n' "$*"; exit 0; }

command -v cc >/dev/null || not_compared 'there is no C compiler (cc)'
pkg-config --exists libswscale libavutil 2>/dev/null || not_compared 'libswscale-dev is not installed'
echo '#include <libyuv.h>' | cc -E -x c - >/dev/null 2>&1 || not_compared 'libyuv-dev is not installed'
"$oracle/library.sh"
# shellcheck disable=SC2046 # words of the compiler, to be split
cc -std=gnu11 -O2 -Wall -Wextra -Werror -I"$oracle/../bind/c" "$oracle/limited_peers.c" "$oracle/build/libhaythaw.a" \
    $(pkg-config --cflags --libs libswscale libavutil) -lyuv -lm -o "$oracle/build/limited_peers"
echo "machine: $(uname -m), $(lscpu | sed -n 's/^Model name: *//p' | head -n 1)"
if command -v dpkg-query >/dev/null; then dpkg-query -W -f '${Package} ${Version}\n' 'libswscale[0-9]*' 'libyuv[0-9]*' 2>/dev/null || true; fi
"$oracle/build/limited_peers"
