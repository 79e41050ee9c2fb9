#!/usr/bin/env bash
# .ci/needs, and .ci/run, ./demo, oracle/library.sh and ./dist, which ask it: whatever is taken away is missed, in one line, before anything runs; and
# what fails on a full disk, or in a tree that cannot be written to, is never called unproved. They run in a copy of the tree, with a
# path of links that each case takes something from, and with stand-ins for rt and for all that the gate runs.
# The last line is `needs: N checks, 0 wrong`; status 1 if one is wrong.
set -euo pipefail
root=$(cd "$(dirname "${BASH_SOURCE[0]}")/.." && pwd -P)
made=$(mktemp -d)
trap 'chmod -R u+w "$made" && rm -rf "$made"' EXIT
tree=$made/tree bin=$made/bin said=$made/said
checks=0 wrong=0 left=()

# What runs as another user than root has to get there.
chmod 755 "$made"
mkdir "$made/temporary" && chmod 777 "$made/temporary"
as=()
if [[ $(id -u) -eq 0 ]]; then as=(setpriv --reuid=65534 --regid=65534 --clear-groups); fi

stand_in() { # PLACE LINES...
    rm -f "$1"
    mkdir -p "$(dirname "$1")"
    printf '%s\n' '#!/bin/sh' "${@:2}" >"$1"
    chmod 755 "$1"
}

# A fresh tree, and a path with everything.
fresh() {
    chmod -R u+w "$tree" 2>/dev/null || true
    rm -rf "$tree" "$bin"
    mkdir -p "$tree/.ci" "$tree/oracle" "$tree/tests" "$tree/bind/c/test" "$tree/crates/haythaw/src" "$bin"
    cp "$root"/.ci/* "$tree/.ci/"
    cp "$root/demo" "$root/dist" "$root/crates.txt" "$tree/"
    cp "$root"/oracle/{*.sh,marks.py,calls.c} "$tree/oracle/"
    cp "$root"/bind/c/haythaw{.h,_text.c} "$tree/bind/c/"
    cp "$root/bind/c/test/results.h" "$tree/bind/c/test/"
    cp "$root/tests/rust.sh" "$tree/tests/"
    : >"$tree/crates/haythaw/src/lib.rt"
    # shellcheck disable=SC2046 # names of crates, to be split
    (cd "$tree/crates" && mkdir -p $(sed -n 's/^haythaw[^:]*: *//p' "$root/crates.txt"))
    local one place
    for one in awk basename bash cat chmod cp cut date df dirname du env find grep head id ln mkdir mktemp mv nproc rm sed setpriv sha256sum \
        sh sort tail tee true; do
        place=$(command -v "$one") || continue
        ln -s "$place" "$bin/$one"
    done
    stand_in "$bin/uname" 'echo x86_64'
    for one in python3 cc cargo git tar gzip; do stand_in "$bin/$one" 'exit 0'; done
    # all that the gate runs, but rust.sh, which is tried itself
    while IFS= read -r one; do stand_in "$tree/$one" "echo 'ran ${one##*/}'"; done < <(grep -oE '\b(tests|docs)/[a-z_]+\.(py|sh)' "$root/.ci/run" | grep -v rust.sh | sort -u)
    passes
    chmod 777 "$tree" "$tree/oracle" "$tree/crates/haythaw"
}

# rt says its version, and all else as told.
rt_ends() { # STATUS SAYS [BEFORE]
    stand_in "$bin/rt" "case \$1 in version) cat '$root/.ci/kit'; exit ;; doc) echo /; exit ;; esac" "${3:-}" "echo '$2'" "exit $1"
}

# rt ci passes, and this is its line on the must-fail edits.
passes() { # [EDITS]
    rt_ends 0 '3 passed, 0 failed' "echo 'rt: ok; handles allowed: none; must-fail edits: ${1:-7 refused}; every proof was done in this run'"
}

runs() { # WORDS...: in the tree, with the path; what it says goes to $said
    status=0
    (cd "$tree" && PATH=$bin TMPDIR=${temporary:-$made/temporary} "$@") >"$said" 2>&1 || status=$?
}

check() { # WHAT WORDS...: the words are a test
    checks=$((checks + 1))
    "${@:2}" && return
    wrong=$((wrong + 1))
    printf 'needs: wrong: %s (status %s); it said:\n' "$1" "$status"
    sed 's/^/    /' "$said"
}

lines() { grep -ci "${1:-}" "$said" || true; } # [PATTERN]
answers() { [[ $status -eq $1 && $(lines) -eq $2 && $(lines "^needs: ${3:-}") -eq $2 ]]; } # STATUS LINES [PATTERN]
says() { [[ $status -eq $1 && $(lines "$2") -ge 1 ]]; } # STATUS PATTERN

# With everything at hand nobody misses anything.
fresh
for who in gate demo library dist; do runs .ci/needs $who && check "$who has all" answers 0 0; done
runs .ci/needs after && check 'after nothing' answers 0 0
for word in --help -h; do runs .ci/needs $word && check "$word" says 0 '^usage: '; done
for words in '' other 'gate gate'; do
    # shellcheck disable=SC2086 # to be split
    runs .ci/needs $words && check "bad usage: $words" says 2 '^usage: '
done

# One command less.
misses() { # WHO COMMAND STATUS LINES
    fresh
    rm "$bin/$2"
    runs .ci/needs "$1" && check "$1 without $2" answers "$3" "$4" "there is no command $2[,:]"
}
for who in gate demo library dist; do
    misses $who rt 1 1
    misses $who bash 1 1
done
for one in python3 git tar gzip; do misses dist $one 1 1; done
misses dist cc 0 0
for who in gate demo library; do misses $who python3 1 1; done
misses gate cc 0 1
misses gate cargo 0 1
misses demo cc 1 1
misses library cc 1 1
misses demo cargo 0 0
misses library cargo 0 0
fresh
rm "$bin/cc"
HAYTHAW_MACHINE=other runs .ci/needs library && check 'the library for another machine needs no cc' answers 0 0
rm "$bin/python3"
HAYTHAW_MACHINE=other runs .ci/needs library && check 'but python3' answers 1 1 'there is no command python3:'

# Another kit, and one that does not run.
fresh
stand_in "$bin/rt" 'echo another kit'
runs .ci/needs gate && check 'another kit is said' answers 0 1 'this kit is another kit;'
runs .ci/needs library && check 'and is none of the library'"'"'s' answers 0 0
stand_in "$bin/rt" 'echo nothing for this machine >&2' 'exit 2'
runs .ci/needs library && check 'rt does not run' answers 1 1 'rt does not run.*nothing for this machine'

# Little room: on the disk, but for what earlier runs have taken, and in the temporary folder, which is on it here.
disk_has() { stand_in "$bin/df" 'echo head' "echo disk 1 1 $(($1 * 1024)) 1% /"; } # MEGABYTES
fresh
disk_has 10
for who in gate demo library dist; do runs .ci/needs $who && check "$who on a full disk" answers 1 2 '10 MB are free for '; done
runs .ci/needs after && check 'after, on a full disk' answers 1 2 '10 MB are free for '
disk_has 3000
runs .ci/needs gate && check 'too little for the gate' answers 1 1 '3000 MB are free for .*: 4000 are needed'
runs .ci/needs library && check 'enough for the library' answers 0 0
stand_in "$bin/du" "echo '1126400 crates/haythaw/out'"
runs .ci/needs gate && check 'with 1100 MB from before' answers 0 0

# What cannot be written to.
fresh
temporary=$made/none runs .ci/needs gate && check 'no temporary folder' answers 1 1 'there is no folder .*none'
if [[ ${#as[@]} -eq 0 ]] || "${as[@]}" "$tree/.ci/needs" --help >/dev/null 2>&1; then
    mkdir "$tree/crates/haythaw/out" && chmod 555 "$tree/crates/haythaw/out"
    for who in gate demo library dist after; do
        runs "${as[@]}" .ci/needs $who && check "$who without out" answers 1 1 'cannot write to .*/haythaw/out (Permission denied):'
    done
    rmdir "$tree/crates/haythaw/out" && chmod 777 "$tree/crates/haythaw"
    chmod 555 "$tree"
    runs "${as[@]}" .ci/needs gate && check 'a closed tree' answers 1 1 'cannot write to [^(]*/tree (Permission denied):'
    chmod 555 "$tree/crates/haythaw"
    runs "${as[@]}" .ci/needs library && check 'and no out' answers 1 1 'cannot write to .*/crates/haythaw (Permission denied):'
    chmod 777 "$tree" "$tree/crates/haythaw" && chmod 555 "$made/temporary"
    runs "${as[@]}" .ci/needs demo && check 'a closed temporary folder' answers 1 1 'cannot write to .*/temporary (Permission denied):'
    chmod 777 "$made/temporary"
else
    left+=('folders that cannot be written to: root cannot become another user here')
fi

# The system's words in a log.
fresh
for words in 'cp: No space left on device' 'x: Read-only file system' 'Disk quota exceeded'; do
    echo "$words" >"$tree/log"
    runs .ci/needs after log && check "a log: $words" answers 1 1 'something could not be written'
done
echo 'rt: x NOT PROVED' >"$tree/log"
runs .ci/needs after log none && check 'a log without them' answers 0 0

# Those who ask stop before anything runs.
fresh
rm "$bin/cc"
runs ./demo && check 'demo without cc' answers 1 1 'there is no command cc:'
check 'and nothing was made' test ! -e "$tree/demo-out" -a ! -e "$tree/crates/haythaw/out"
runs oracle/library.sh && check 'library.sh without cc' answers 1 1 'there is no command cc:'
rm "$bin/rt"
runs ./dist && check 'dist without the kit' answers 1 1 'there is no command rt,'
check 'and nothing was made' test ! -e "$tree/dist-out" -a ! -e "$tree/crates/haythaw/out"
fresh
rm "$bin/python3" "$bin/cc"
runs .ci/run && check 'the gate without python3' says 2 '^\.ci/run: NO VERDICT: nothing was run'
check 'and it says why, and no more' test "$(lines '^needs: there is no command python3:') $(lines)" = '1 3'

# rt fails: status 1 is "not proved", but where the disk is full or the tree closed; and any other is no verdict.
for one in ./demo oracle/library.sh ./dist .ci/run; do
    no=1
    [[ $one != .ci/run ]] || no=2
    fresh
    rt_ends 1 'rt: x NOT PROVED'
    runs $one && check "$one: not proved" says 1 'is not proved'
    check "$one: that is the verdict" test "$(lines 'no verdict')" -eq 0
    rt_ends 2 'rt: broken'
    runs $one && check "$one: the kit failed" says $no 'no verdict'
    check "$one: and nothing is called unproved" test "$(lines 'is not proved')" -eq 0
    rt_ends 1 'rt: cannot write: No space left on device'
    runs $one && check "$one: a full disk, by the log" says $no 'no verdict.*could not be written'
    rt_ends 1 'rt: x NOT PROVED' "printf '%s\n' '#!/bin/sh' 'echo head' 'echo disk 1 1 1024 1% /' >'$bin/new'; chmod +x '$bin/new'; mv '$bin/new' '$bin/df'"
    runs $one && check "$one: the disk is full by then" says $no 'no verdict.*could not be written'
done

# The gate passes, and says what it left out directly above the verdict.
above() { [[ $status -eq 0 && $(tail -n 1 "$said") == '3 passed, 0 failed' && $(tail -n 2 "$said" | head -n 1) == "$1"* ]]; } # LINE
gate() {
    fresh
    stand_in "$tree/oracle/library.sh" 'exit 0'
    stand_in "$tree/tests/rust.sh" 'echo ran rust.sh'
    stand_in "$tree/oracle/compare.sh" 'echo ran compare.sh'
}
# What .ci/run runs before the library is made, and over it: the boundary, and the comparison with its self-test; where this processor is
# one of x86-64-v3, the comparison over that library too.
v3=0
if [[ $(uname -m) == x86_64 ]] && grep -qw avx2 /proc/cpuinfo; then v3=1; fi
before=$(grep -cE '^(tests|docs)/' "$root/.ci/run")
over=$(($(grep -E '^ +for one in tests/' "$root/.ci/run" | grep -oE '\b(tests|docs)/' | wc -l) + 2 + v3))
gate
runs .ci/run && check 'the gate' says 0 '^3 passed, 0 failed$'
check 'it left out nothing' test "$(lines '^ran ') $(lines '^not ')" = "$((before + over)) 0"
for edits in '6 refused, 1 bad' '5 refused, 1 of them only by a limit, 2 bad'; do
    gate
    passes "$edits"
    runs .ci/run && check "the gate: $edits" says 1 '^\.ci/run: FAILED: rt ci: a must-fail edit is bad:'
done
gate
rt_ends 0 '3 passed, 0 failed'
runs .ci/run && check 'the gate: rt does not say how many edits are bad' says 1 "has no line 'rt: ok'"
gate
rm "$bin/cc"
runs .ci/run && check 'the gate without cc' above 'not run: the library, from C, from Rust and beside the Rust original: there is no C compiler (cc)'
check 'and runs the rest' test "$(lines '^ran ') $(lines '^needs: there is no command cc,')" = "$before 1"
gate
rm "$bin/cargo"
cp "$root/tests/rust.sh" "$tree/tests/"
cp "$root/oracle/compare.sh" "$tree/oracle/"
runs .ci/run && check 'the gate without cargo' above 'not tested: bind/rust: cargo is not at hand'
check 'nor the original' test "$(tail -n 3 "$said" | head -n 1)" = 'not compared with the Rust original: cargo is not at hand'
gate
cp "$root/oracle/compare.sh" "$tree/oracle/"
HAYTHAW_RUST=$made/none runs .ci/run && check 'the gate without the original' above 'not compared with the Rust original: avc444.rs, decode.rs and pdu/avc.rs are not in HAYTHAW_RUST'

for one in "${left[@]}"; do echo "needs: left out: $one"; done
echo "needs: $checks checks, $wrong wrong"
[[ $wrong -eq 0 ]]
