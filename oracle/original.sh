#!/usr/bin/env bash
# Finds the Rust original and lays it out, unchanged, in oracle/build/original:
#   avc444.rs   whole, and one line more that declares its child module `probe`
#   decode.rs   whole
#   avc.rs      pdu/avc.rs, whole
# It looks in the folder HAYTHAW_RUST (a checkout's crates/ironrdp-egfx/src) if that is set, else in docs/src
# of this repository, else in the folder `shared` beside it. The files have the names that they have in a
# checkout, or src--crates--ironrdp-egfx--src--avc444.rs.txt and so on.
# Status 3: the original is not at hand.
set -euo pipefail

oracle=$(cd "$(dirname "${BASH_SOURCE[0]}")" && pwd -P)
root=$(dirname "$oracle")
out=$oracle/build/original
flat=src--crates--ironrdp-egfx--src--

fail() { printf 'original.sh: %s\n' "$*" >&2; exit 1; }

# Sets avc444, decode and avc to the three files in a folder.
found_in() { # FOLDER
    avc444=$1/avc444.rs decode=$1/decode.rs avc=$1/pdu/avc.rs
    [[ ! -f $avc444 || ! -f $decode || ! -f $avc ]] || return 0
    avc444=$1/${flat}avc444.rs.txt decode=$1/${flat}decode.rs.txt avc=$1/${flat}pdu--avc.rs.txt
    [[ -f $avc444 && -f $decode && -f $avc ]]
}

find_original() {
    if [[ -n ${HAYTHAW_RUST:-} ]]; then
        found_in "$HAYTHAW_RUST" && return
        printf 'avc444.rs, decode.rs and pdu/avc.rs are not in HAYTHAW_RUST, %s\n' "$HAYTHAW_RUST" >&2
    else
        found_in "$root/docs/src" && return
        found_in "$(dirname "$root")/shared" && return
        printf 'avc444.rs, decode.rs and pdu/avc.rs were looked for in docs/src and ../shared, and HAYTHAW_RUST is not set\n' >&2
    fi
    exit 3
}

# Puts a file in its place, and leaves an equal one alone, so that cargo builds nothing again.
settle() { # NEW PLACE
    if cmp -s "$1" "$2"; then rm "$1"; else mv "$1" "$2"; fi
}

find_original
mkdir -p "$out"
new=$out/new

[[ -z $(tail -c 1 "$avc444") ]] || fail "$avc444 does not end with a line end"
{
    cat "$avc444"
    echo '#[path = "../../original/src/probe.rs"] pub mod probe;'
} >"$new"
settle "$new" "$out/avc444.rs"

cat "$decode" >"$new"
settle "$new" "$out/decode.rs"

cat "$avc" >"$new"
settle "$new" "$out/avc.rs"

cmp -n "$(wc -c <"$avc444")" "$avc444" "$out/avc444.rs" || fail "the copy of avc444.rs is not the original's"
[[ $(wc -l <"$out/avc444.rs") -eq $(($(wc -l <"$avc444") + 1)) ]] || fail "avc444.rs has more than one line added"
cmp "$decode" "$out/decode.rs" || fail "the copy of decode.rs is not the original's"
cmp "$avc" "$out/avc.rs" || fail "the copy of pdu/avc.rs is not the original's"
printf 'original: %s\n' "$(dirname "$avc444")"
