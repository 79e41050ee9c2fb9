#!/usr/bin/env bash
# Compiles one of this folder's runs over the library for this machine, lets it show that it notices a wrong answer, and runs it:
#
#   tests/run.sh agree [ARGS]   demand 3: pictures and lists onto earlier pictures through both layouts, V2 by both rules, every lent byte,
#                               by the calls that clip and by the strict ones (agree.c)
#   tests/run.sh check [ARGS]   a million pairs of views, split and laid out anew, then altered in one sample and in other ways: the check of them
#                               names exactly what was altered (check.c)
#   tests/run.sh wire [ARGS]    payloads good and bad, every answer beside a reader written from request E1's words alone (wire.c)
#   tests/run.sh write [ARGS]   kinds, lists, pairs and H.264 bytes good and bad, every answer and byte beside a writer written from
#                               request E7's words alone, and round trips both ways (write.c)
#
# ARGS are the run's: --seed, --cases, --seconds, --only.
set -euo pipefail
cd "$(dirname "$0")/.."

case ${1:-} in
agree | check | wire | write) name=$1 && shift ;;
*) sed -n '/^#   /s/^#   //p' "$0" >&2; exit 2 ;;
esac
oracle/library.sh
cc -std=c99 -O2 -Wall -Wextra -Wpedantic -Werror -Ibind/c "tests/$name.c" oracle/build/libhaythaw.a -o "oracle/build/$name"
"oracle/build/$name" --self-test
"oracle/build/$name" "$@"
