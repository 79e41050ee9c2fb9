#!/usr/bin/env bash
# The archive of the library comes out bit for bit alike from two folders: it is made once more in a copy of the tree, in another folder, and
# compared with the one that is here (oracle/module.sh). With --quick, which the gate uses, the copy takes what the crates below `haythaw` left
# when they were proved here: it proves and compiles `haythaw` alone. Without it everything is proved from nothing there, which takes minutes.
set -euo pipefail
cd "$(dirname "$0")/.."

case ${1:-} in
'' | --quick) ;;
*) echo 'usage: tests/alike.sh [--quick]' >&2; exit 2 ;;
esac
root=$PWD
fail() { echo "alike: FAILED: $*"; exit 1; }
# shellcheck source=oracle/module.sh
. oracle/module.sh
mkdir -p "$build"
keep_module x86_64 ''

made=$(mktemp -d)
trap 'rm -rf "$made"' EXIT
mkdir "$made/elsewhere"
cp crates.txt "$made/elsewhere"
for part in crates/*/*; do
    case ${1:-}/$part in
    /*/out | --quick/crates/haythaw/out) ;;
    --quick/*/out) [[ ! -d $part/rlib ]] || { mkdir -p "$made/elsewhere/$part" && cp -R "$part/rlib" "$made/elsewhere/$part/"; } ;;
    *) mkdir -p "$made/elsewhere/${part%/*}" && cp -R "$part" "$made/elsewhere/$part" ;;
    esac
done
verbs=(lib)
# (what rt lib proves it may take from an earlier run on this machine)
[[ ${1:-} == --quick ]] || verbs=(verdict lib)
for verb in "${verbs[@]}"; do
    (cd "$made/elsewhere/crates/haythaw" && rt "$verb") >"$made/said" 2>&1 || { tail -n 20 "$made/said"; fail "rt $verb in a copy"; }
done
here=$(sha256sum <"$(module_folder x86_64 '')/libhaythaw.a") there=$(sha256sum <"$made/elsewhere/crates/haythaw/out/libhaythaw.a")
[[ $here == "$there" ]] || fail "two folders, two archives: ${here%% *} and ${there%% *}"
echo "alike: the archive is the same from two folders, sha256 ${here%% *}"
