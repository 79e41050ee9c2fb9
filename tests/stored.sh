#!/usr/bin/env bash
# The stored cases run: compiles tests/stored/run.c against the library for this machine, runs it on each file of tests/stored, and compares
# what it prints with the stored answers; with buffers lent in three ways, plainly and with the compiler's sanitizers, as far as these are
# at hand. Then its self-test: a stored file with one character altered or its last line cut off, and a run with one answer of the library
# altered, each has to be noticed. The last line is `stored: N files, M lines, 0 differ`. Status 1 if a line differs or something is not
# noticed.
set -euo pipefail
cd "$(dirname "$0")/.."

if ! command -v cc >/dev/null; then
    echo 'stored: not run: there is no C compiler (cc)'
    exit 0
fi
oracle/library.sh
made=$(mktemp -d)
trap 'rm -rf "$made"' EXIT
strict=(-std=c99 -O2 -Wall -Wextra -Wpedantic -Werror -Ibind/c)
sanitizers=(-fsanitize=address,undefined -fno-sanitize-recover=all)
ran=(plainly)

cc "${strict[@]}" tests/stored/run.c oracle/build/libhaythaw.a -o "$made/plainly"
echo 'int main(void) { return 0; }' >"$made/empty.c"
if cc "${sanitizers[@]}" "$made/empty.c" -o "$made/empty" 2>/dev/null && "$made/empty"; then
    cc "${strict[@]}" -g "${sanitizers[@]}" tests/stored/run.c oracle/build/libhaythaw.a -o "$made/sanitized"
    ran+=(sanitized)
fi
mapfile -t names < <("$made/plainly")
outputs=(tests/stored/*.out)
[[ ${#outputs[@]} -eq ${#names[@]} ]] || { echo "stored: ${#outputs[@]} stored outputs, and ${#names[@]} that are run"; exit 1; }

# Where a file's cases are; those of a file without .in stand in the C code.
cases() { # NAME
    if [[ -f tests/stored/$1.in ]]; then echo "tests/stored/$1.in"; else echo /dev/null; fi
}

# Whether a file is as it is stored; if not, the first line that differs, and both.
same() { # FILE STORED
    cmp -s "$1" "$2" && return
    awk -v file="$1" -v stored="$2" -v name="${2##*/}" 'BEGIN {
        do { line++; x = y = "(no line)"; a = (getline x < file) > 0; b = (getline y < stored) > 0 } while (a && b && x == y)
        printf "stored: %s: line %d differs\n  stored   %s\n  printed  %s\n", name, line, y, x
    }'
    return 1
}

# 1. Every file, in every way.
differ=0
for how in "${ran[@]}"; do
    for name in "${names[@]}"; do
        for way in end start heap; do
            status=0
            "$made/$how" "$name" "$way" <"$(cases "$name")" >"$made/said" 2>"$made/error" || status=$?
            same "$made/said" "tests/stored/$name.out" && [[ $status -eq 0 ]] && continue
            cat "$made/error"
            echo "stored: FAILED: $name, $how, buffers at the $way, status $status"
            differ=$((differ + 1))
            break
        done
    done
done
[[ $differ -eq 0 ]] || { echo "stored: ${#names[@]} files, $differ differ"; exit 1; }

# 2. Stored files that are altered: the comparison has to name the line.
files=0 lines=0 missed=0
noticed() { # NAME LINE FILE
    [[ $(same "$made/said" "$3") == "stored: ${3##*/}: line $2 differs"$'\n'* ]] && return
    echo "stored: not noticed: $1, line $2 altered or cut off"
    missed=$((missed + 1))
}
for name in "${names[@]}"; do
    stored=tests/stored/$name.out
    count=$(wc -l <"$stored")
    "$made/plainly" "$name" heap <"$(cases "$name")" >"$made/said"
    sed "$((count / 2))s/.\$/~/" "$stored" >"$made/altered.out"
    noticed "$name" $((count / 2)) "$made/altered.out"
    head -n -1 "$stored" >"$made/cut.out"
    noticed "$name" "$count" "$made/cut.out"
    files=$((files + 1)) lines=$((lines + count))
done

# 3. Answers that are altered on their way to the line, one in each run: the lines show it, or the program looked at what they do not show.
shown=0 looked=0
for name in "${names[@]}"; do
    "$made/plainly" "$name" heap list <"$(cases "$name")" 2>"$made/list"
    while read -r call what words; do
        "$made/plainly" "$name" heap "$call" "$what" <"$(cases "$name")" 2>&1 | cmp -s - "tests/stored/$name.out" &&
            ended=("${PIPESTATUS[@]}") || ended=("${PIPESTATUS[@]}")
        case "${ended[*]}" in
        '0 1' | '1 1' | '141 1') shown=$((shown + 1)) ;;
        '1 0') looked=$((looked + 1)) ;;
        *) echo "stored: not noticed: $name, $words (${ended[*]})"; missed=$((missed + 1)) ;;
        esac
    done <"$made/list"
done
[[ $missed -eq 0 ]] || exit 1

echo "stored: self-test: $((2 * files)) altered files and $((shown + looked)) altered answers are noticed, $shown of them by the lines alone"
echo "stored: ran ${ran[*]}, buffers at the end of a page, at its start and on the heap"
echo "stored: $files files, $lines lines, 0 differ"
