#!/usr/bin/env bash
# Compares every answer of the library with the Rust original's. --help says which arguments there are.
#   HAYTHAW_PROCESSOR=x86-64-v3   the library, and the original, for such processors alone
set -euo pipefail
exec "$(dirname "${BASH_SOURCE[0]}")/beside.sh" differential "$@"
