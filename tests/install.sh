#!/usr/bin/env bash
# The tarball of ./dist, as somebody has it who has no proof kit: with a path on which there is no rt it is unpacked, checked, installed into
# a fresh folder, used by pkg-config from C and C++, statically and shared, and removed. The symbols of the shared libraries are held to the
# header, their marks and needs looked at, the library for x86-64-v3 run where the processor is one, and the whole C test run over the
# installed archive. Two runs of ./dist have to give the same bytes (the second takes the module as the first kept it, and makes all else
# anew), and ./dist --verify has to refuse what is no tarball of this commit. The last line is `install: N checks, 0 wrong`.
set -euo pipefail
root=$(cd "$(dirname "${BASH_SOURCE[0]}")/.." && pwd -P)
cd "$root"
here=$(uname -m)

left_out() { printf 'not tested: %s\n' "$*"; }

case $here in
x86_64 | aarch64) ;;
*) left_out "the tarball: it is for x86-64 and aarch64, and this is $here"; exit 0 ;;
esac
for one in make cc git; do
    command -v "$one" >/dev/null || { left_out "the tarball: $one is not at hand"; exit 0; }
done
git rev-parse HEAD >/dev/null 2>&1 || { left_out 'the tarball: this is no git checkout'; exit 0; }

made=$(mktemp -d)
trap 'rm -rf "$made"' EXIT
checks=0 wrong=0 said=$made/said

check() { # WHAT WORDS...: the words have to succeed
    checks=$((checks + 1))
    "${@:2}" >"$said" 2>&1 && return
    wrong=$((wrong + 1))
    printf 'install: wrong: %s\n' "$1"
    tail -n 20 "$said" | sed 's/^/    /'
}

same() { diff <(printf '%s\n' "$1") <(printf '%s\n' "$2"); } # TEXT TEXT
refuses() { # PATTERN WORDS...: status 1, and one line that has the pattern
    local ended=0
    "${@:2}" >"$made/refusal" 2>&1 || ended=$?
    cat "$made/refusal"
    [[ $ended -eq 1 && $(wc -l <"$made/refusal") -eq 1 ]] && grep -q -- "$1" "$made/refusal"
}

# ---- Two runs of ./dist ----

check './dist --unless-made' ./dist --unless-made
[[ $wrong -eq 0 ]] || { echo "install: $checks checks, $wrong wrong"; exit 1; }
version=$(awk '/^#define HAYTHAW_VERSION_(MAJOR|MINOR|PATCH) / { printf "%s%s", dot, $3; dot = "." }' bind/c/haythaw.h)
tarball=$made/haythaw-$version.tar.gz
cp "dist-out/haythaw-$version.tar.gz" "$tarball"
check './dist' ./dist
check 'two runs, the same bytes' cmp "$tarball" "dist-out/haythaw-$version.tar.gz"

# ---- What --verify refuses; a whole run of it is left to whoever has a tarball to verify ----

refused_tarball() { # COMMIT-LINE
    rm -rf "$made/haythaw-9.9"
    mkdir "$made/haythaw-9.9"
    echo "commit: $1" >"$made/haythaw-9.9/ORIGIN"
    tar -czf "$made/other.tar.gz" -C "$made" haythaw-9.9
}
echo 'no tarball' >"$made/text"
tar -czf "$made/strange.tar.gz" -C "$made" text
check 'verify: no file' refuses 'there is no file' ./dist --verify "$made/none"
check 'verify: no tarball' refuses 'is no tarball of haythaw' ./dist --verify "$made/text"
check 'verify: another tarball' refuses 'is no tarball of haythaw' ./dist --verify "$made/strange.tar.gz"
refused_tarball 0123456789012345678901234567890123456789
check 'verify: another commit' refuses 'is of another commit' ./dist --verify "$made/other.tar.gz"
refused_tarball "$(git rev-parse HEAD), with changes that are in no commit"
check 'verify: of a tree with changes' refuses 'nobody can make it anew' ./dist --verify "$made/other.tar.gz"

# ---- From here on there is no kit ----

# A folder on the path that has rt is replaced by one of links to all else in it.
path='' number=0
while IFS= read -r -d : folder; do
    if [[ -e $folder/rt ]]; then
        number=$((number + 1))
        mkdir "$made/bin$number"
        for one in "$folder"/*; do
            [[ ${one##*/} == rt ]] || ln -s "$one" "$made/bin$number/"
        done
        folder=$made/bin$number
    fi
    path=$path${path:+:}$folder
done <<<"$PATH:"
export PATH=$path
unset RATTLE_HOME HAYTHAW_LIB_DIR CFLAGS CXXFLAGS CPPFLAGS LDFLAGS LD_LIBRARY_PATH PKG_CONFIG_PATH DESTDIR
no_kit() { ! command -v rt; }
check 'there is no kit' no_kit

prefix=$made/prefix
mkdir "$made/unpacked" "$prefix"
tar -xzf "$tarball" -C "$made/unpacked"
cd "$made/unpacked/haythaw-$version"
check 'SHA256SUMS' sha256sum --quiet -c SHA256SUMS
files() { find "$1" -type f | sed "s|^$1/||" | LC_ALL=C sort; } # FOLDER
check 'SHA256SUMS has every file' same "$(files . | grep -vx SHA256SUMS)" "$(awk '{ print $2 }' SHA256SUMS | LC_ALL=C sort)"
no_paths() { ! grep -rnF -e "$root" -e "$HOME/" .; }
check 'no path of this machine' no_paths
check 'make check' make check
programs=$(sed -n 's/^check: \([0-9]* programs\), 0 wrong$/\1/p' "$said" || true)
check 'make install' make install PREFIX="$prefix"
library=$prefix/lib
v3=$library/glibc-hwcaps/x86-64-v3

# ---- The installed files ----

declared=$(echo '#include "haythaw.h"' | cc -E -P -I"$prefix/include" -x c - | tr '\n' ' ' | grep -oE '\bhaythaw_[a-z0-9_]+ ?\(' | tr -d ' (' | LC_ALL=C sort)
shared=("$library/libhaythaw.so.$version")
[[ $here != x86_64 ]] || shared+=("$v3/libhaythaw.so.$version")
for one in "${shared[@]}"; do
    check "$one: exports what the header declares" same "$declared" \
        "$(nm -D --defined-only "$one" | awk '$2 != "A" { print $3 }' | sed 's/@.*//' | LC_ALL=C sort)"
    asked=$(nm -D --undefined-only "$one" | awk '$1 == "U" { print $2 }' | sed 's/@.*//' | LC_ALL=C sort | tr '\n' ' ')
    check "$one: asks for copies and fills" same 'memcpy memmove memset ' "$asked"
    dynamic=$(readelf -dW "$one")
    check "$one: soname" grep -q 'SONAME.*\[libhaythaw\.so\.0\]' <<<"$dynamic"
    check "$one: needs libc alone" same 1 "$(grep -c NEEDED <<<"$dynamic")"
    check "$one: no executable stack" grep -qE 'GNU_STACK .* RW +' <<<"$(readelf -lW "$one")"
    no_relocated_text() { ! grep -q TEXTREL <<<"$dynamic"; }
    check "$one: text is not written" no_relocated_text
    check "$one: its version as text" grep -qaF "haythaw-version-$version" "$one"
done
mkdir "$made/objects"
(cd "$made/objects" && ar x "$library/libhaythaw.a")
[[ $here == x86_64 ]] && marks='IBT, SHSTK' || marks=BTI
for one in "$made/objects"/*.o build/x86-64-v3/*.o; do
    [[ ! -f $one ]] || check "$one: marked where jumps may end ($marks)" grep -q "feature: $marks" <<<"$(readelf -n "$one")"
done
check 'the archive: its version as text' grep -qaF "haythaw-version-$version" "$library/libhaythaw.a"

# ---- Programs ----

compile=(-I"$prefix/include") link=(-L"$library" -lhaythaw)
if command -v pkg-config >/dev/null; then
    export PKG_CONFIG_PATH=$library/pkgconfig
    check 'pkg-config: the version' same "$version" "$(pkg-config --modversion haythaw)"
    read -ra compile <<<"$(pkg-config --cflags haythaw)"
    read -ra link <<<"$(pkg-config --libs haythaw)"
else
    left_out 'haythaw.pc: pkg-config is not at hand'
fi
languages=(cc)
if command -v c++ >/dev/null; then languages+=(c++); else left_out 'the installed library from C++: c++ is not at hand'; fi
for one in "${languages[@]}"; do
    as=() && [[ $one == cc ]] || as=(-x c++)
    check "$one, static" "$one" "${as[@]}" examples/combine.c -x none "${compile[@]}" "$library/libhaythaw.a" -o "$made/static-$one"
    check "$one, static, run" same "$(cat examples/combine.out)" "$("$made/static-$one")"
    check "$one, shared" "$one" "${as[@]}" examples/combine.c -x none "${compile[@]}" "${link[@]}" -o "$made/shared-$one"
    check "$one, shared, run" same "$(cat examples/combine.out)" "$(LD_LIBRARY_PATH=$library "$made/shared-$one")"
done

# Both libraries of x86-64: the plain one from a folder of its own, and of the installed two the one that glibc's loader takes by itself.
if [[ $here == x86_64 ]]; then
    mkdir "$made/plain"
    ln -s "$library/libhaythaw.so.0" "$made/plain/"
    check 'the plain library, run' same "$(cat examples/combine.out)" "$(LD_LIBRARY_PATH=$made/plain "$made/shared-cc")"
    loader=$(readelf -lW "$made/shared-cc" | sed -n 's/.*interpreter: \(.*\)\]/\1/p')
    if ! "$loader" --help 2>/dev/null | grep -q 'x86-64-v3 (supported'; then
        left_out 'the installed library for x86-64-v3: this processor, or its loader, does not take it'
    else
        check 'the library for x86-64-v3, run' same "$(cat examples/combine.out)" "$(LD_LIBRARY_PATH=$v3 "$made/shared-cc")"
        check 'the loader takes it by itself' grep -q "=> $v3/libhaythaw.so.0 " <<<"$(LD_LIBRARY_PATH=$library ldd "$made/shared-cc")"
        check 'and the plain one where it may not' grep -q "=> $library/libhaythaw.so.0 " \
            <<<"$("$loader" --glibc-hwcaps-mask none --library-path "$library" --list "$made/shared-cc")"
    fi
fi

# The whole C test, over the archive that was made of the text.
check 'bind/c/test.c compiles' cc -std=c99 -O1 -I"$root/bind/c" "$root/bind/c/test.c" "$library/libhaythaw.a" -o "$made/test"
check 'bind/c/test.c' "$made/test"
whole=$(tail -n 1 "$said")

# ---- And away; other folders; another make; from the repository ----

check 'make uninstall' make uninstall PREFIX="$prefix"
check 'nothing is left' same "$prefix" "$(find "$prefix")"
makes=(make)
if command -v bmake >/dev/null; then makes+=(bmake); fi
for one in "${makes[@]}"; do
    words=(DESTDIR="$made/root" PREFIX=/usr LIBDIR=/usr/lib64 PKGCONFIGDIR=/usr/share/pkgconfig)
    check "$one clean" "$one" clean
    check "$one install, with DESTDIR" "$one" install "${words[@]}"
    check "$one: the files" grep -qx usr/lib64/libhaythaw.a <<<"$(files "$made/root")"
    check "$one: haythaw.pc has no DESTDIR" grep -qx 'prefix=/usr' "$made/root/usr/share/pkgconfig/haythaw.pc"
    check "$one uninstall" "$one" uninstall "${words[@]}"
    check "$one: nothing is left" test ! -e "$made/root"
done
for one in riscv64-linux-gnu aarch64-apple-darwin x86_64-linux-gnux32; do
    make clean >/dev/null
    make HAYTHAW_MACHINE=$one >"$made/other" 2>&1 || true
    check "$one is refused" grep -q "^haythaw: no assembly for $one: " "$made/other"
done
cd "$root"
check 'make install in the repository' make install PREFIX="$prefix"
check 'its files' test -f "$library/libhaythaw.so" -a -f "$prefix/include/haythaw_planes.h"
check 'make uninstall there' make uninstall PREFIX="$prefix"
check 'nothing is left of it' same "$prefix" "$(find "$prefix")"
check 'make clean there' make clean

echo "install: haythaw-$version.tar.gz, $(stat -c %s "$tarball") bytes; $(wc -l <<<"$declared") symbols; ${programs:-no programs} by make check; by ${makes[*]}; $whole"
echo "install: $checks checks, $wrong wrong"
[[ $wrong -eq 0 ]]
