#!/usr/bin/env bash
# Puts the crates haythaw and haythaw-sys into a folder, with the assembly in them: what builds with cargo and a C compiler, and no more.
#   package.sh FOLDER [FROM]   FROM has src/*/haythaw.s, src/haythaw_text.c and include/haythaw.h, as the tarball of ./dist; the default is
#                              the folder that FOLDER is in
set -euo pipefail

here=$(cd "$(dirname "${BASH_SOURCE[0]}")" && pwd -P)
[[ $# -eq 1 || $# -eq 2 ]] || { sed -n '3,4s/^# *//p' "$0" >&2; exit 2; }
mkdir -p "$1"
to=$(cd "$1" && pwd -P)
from=${2:-$(dirname "$to")}

# What git has here, but what is for the repository alone.
(cd "$here" && git ls-files -z -- . ':!package.sh' ':!*.gitignore' ':!rustfmt.toml' | xargs -0 cp --parents -t "$to")
mkdir -p "$to/sys/assembly"
for machine in x86_64 aarch64; do
    cp "$from/src/$machine/haythaw.s" "$to/sys/assembly/$machine.s"
done
cp "$from/src/haythaw_text.c" "$from/include/haythaw.h" "$to/sys/assembly/"
