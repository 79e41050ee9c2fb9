#!/usr/bin/env bash
# Writes the stored input and output of four files of tests/stored anew, from the Rust original's answers: replay_payload, replay_view,
# replay_picture and replay_layouts. --help says which arguments there are.
set -euo pipefail
exec "$(dirname "${BASH_SOURCE[0]}")/beside.sh" record "$@"
