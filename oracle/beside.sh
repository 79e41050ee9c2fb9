#!/usr/bin/env bash
# Builds the library beside the Rust original and runs a program over both: beside.sh PROGRAM [ARGS]
# Where the original or cargo is not at hand it says so in one line, and that is no failure.
#   HAYTHAW_PROCESSOR=x86-64-v3   the library and the original are both made for such processors
set -euo pipefail

oracle=$(cd "$(dirname "${BASH_SOURCE[0]}")" && pwd -P)
program=$1
shift

not_compared() { printf 'not compared with the Rust original: %s\n' "$*"; exit 0; }

command -v cargo >/dev/null || not_compared "cargo is not at hand"
status=0
said=$("$oracle/original.sh" 2>&1) || status=$?
case $status in
0) printf '%s\n' "$said" ;;
3) not_compared "$said" ;;
*) printf '%s\n' "$said" >&2; exit "$status" ;;
esac

"$oracle/library.sh"
export HAYTHAW_LIB_DIR=$oracle/build CARGO_TARGET_DIR=$oracle/build/cargo
if [[ -n ${HAYTHAW_PROCESSOR:-} ]]; then
    export HAYTHAW_LIB_DIR=$oracle/build/$HAYTHAW_PROCESSOR
    export CARGO_TARGET_DIR=$HAYTHAW_LIB_DIR/cargo RUSTFLAGS=-Ctarget-cpu=$HAYTHAW_PROCESSOR
fi
(cd "$oracle" && cargo build --release --offline --quiet)
exec "$CARGO_TARGET_DIR/release/$program" "$@"
