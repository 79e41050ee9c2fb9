#!/usr/bin/env bash
# A real stream: pictures split, encoded without loss by x264, written into AVC444 payloads and read back, decoded by ffmpeg and combined,
# in both layouts, padded and cropped (tests/real_stream.c; docs/REAL_STREAM.md has a run). By hand, outside the gate: it needs the commands
# x264 and ffmpeg, Debian's packages of these names.
#
#   tests/real_stream.sh               the self-test, then every size
#   tests/real_stream.sh --self-test   the self-test alone
#   tests/real_stream.sh --install     the packages first, by apt-get, and then as without it
set -euo pipefail
cd "$(dirname "$0")/.."

case ${1:-} in
'' | --self-test) ;;
--install) apt-get install -y x264 ffmpeg ;;
*) sed -n '/^#   /s/^#  *//p' "$0" >&2; exit 2 ;;
esac
for needed in x264 ffmpeg cc; do
    command -v "$needed" >/dev/null && continue
    echo "real_stream.sh: $needed is not at hand; x264 and ffmpeg are in Debian's packages of these names (--install)" >&2
    exit 2
done

oracle/library.sh
cc -std=c99 -O2 -Wall -Wextra -Wpedantic -Werror -Ibind/c tests/real_stream.c oracle/build/libhaythaw.a -o oracle/build/real_stream
made=$(mktemp -d)
trap 'rm -rf "$made"' EXIT
x264 --version | head -n 1
ffmpeg -version | head -n 1
oracle/build/real_stream "$made" --self-test
if [[ ${1:-} != --self-test ]]; then oracle/build/real_stream "$made"; fi
