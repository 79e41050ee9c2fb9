#!/usr/bin/env bash
# Runs one source file over the Rust original and over bind/rust, and compares all that both answer. --help says which arguments there are.
set -euo pipefail
exec "$(dirname "${BASH_SOURCE[0]}")/beside.sh" dropin "$@"
