#!/usr/bin/env bash
# The crates haythaw and haythaw-sys as others get them: packaged with the assembly, and used by path, from a registry, vendored and by git;
# and what their build says where there is no library for it. All of it without the kit on the path, and without a network.
#   HAYTHAW_ASSEMBLY=FOLDER   a folder as ./dist makes it (src/*/haythaw.s, src/haythaw_text.c, include/haythaw.h), in place of dist-out
set -euo pipefail

root=$(cd "$(dirname "${BASH_SOURCE[0]}")/.." && pwd -P)
for tool in cargo cc ar git; do
    command -v "$tool" >/dev/null || { echo "not tested: the Rust packages: $tool is not at hand"; exit 0; }
done
if [[ -z ${HAYTHAW_ASSEMBLY:-} ]] && command -v rt >/dev/null; then "$root/dist" --unless-made; fi
from=${HAYTHAW_ASSEMBLY:-$root/dist-out/$(cat "$root/dist-out/current" 2>/dev/null || true)}
[[ -f $from/src/haythaw_text.c ]] || { echo 'not tested: the Rust packages: there is neither dist-out nor the kit to make it with'; exit 0; }

work=$(mktemp -d)
trap 'rm -rf "$work"' EXIT
version=$(sed -n 's/^version = "\(.*\)"$/\1/p' "$root/bind/rust/Cargo.toml")
checks=0

fail() {
    printf 'rust_package.sh: %s\n' "$*" >&2
    if [[ -f $work/said ]]; then tail -n 30 "$work/said" >&2; fi
    exit 1
}

# ---- A machine without the kit: every command that there is but its own, no network, nothing downloaded before ----

mkdir "$work/bin"
IFS=: read -ra folders <<<"$PATH"
for ((at = ${#folders[@]} - 1; at >= 0; at--)); do
    [[ ! -d ${folders[at]} ]] || find "${folders[at]}" -mindepth 1 -maxdepth 1 -exec ln -sf -t "$work/bin" {} +
done
rm -f "$work"/bin/{rt,rattle}
export PATH=$work/bin CARGO_HOME=$work/home CARGO_NET_OFFLINE=true CARGO_TARGET_DIR=$work/target CARGO_TERM_COLOR=never
export RUSTUP_TOOLCHAIN=${RUSTUP_TOOLCHAIN:-$(cd "$root" && rustup show active-toolchain 2>/dev/null | cut -d ' ' -f 1)}
[[ -n $RUSTUP_TOOLCHAIN ]] || unset RUSTUP_TOOLCHAIN
export PKG_CONFIG_PATH='' PKG_CONFIG_LIBDIR=$work/none
unset HAYTHAW_LIB_DIR CC AR TARGET_CC TARGET_AR HOST_CC HOST_AR RUSTFLAGS
! command -v rt rattle >/dev/null || fail 'the kit is still on the path'

# Runs a command that is to succeed.
good() { # WHAT COMMAND...
    local what=$1
    shift
    "$@" >"$work/said" 2>&1 || fail "$what: status $?"
    checks=$((checks + 1))
}

# Runs a command that is to fail, and to say this.
bad() { # WHAT TEXT COMMAND...
    local what=$1 text=$2
    shift 2
    if "$@" >"$work/said" 2>&1; then fail "$what: it was not refused"; fi
    grep -qF -- "$text" "$work/said" || fail "$what: it did not say: $text"
    checks=$((checks + 1))
}

# A program over the crate.
program() { # FOLDER DEPENDENCY
    mkdir -p "$1/src" "$1/.cargo"
    printf '[package]\nname = "program"\nversion = "0.0.0"\nedition = "2021"\n\n[dependencies]\nhaythaw = %s\n\n[workspace]\n' "$2" >"$1/Cargo.toml"
    cat >"$1/src/main.rs" <<'RUST'
use haythaw::{Avc444Layout, ExclusiveRectangle, Yuv444Frame};

fn main() {
    let sent = Yuv444Frame::from_rgba(&[255, 0, 0, 255].repeat(4 * 2), 4, 2).expect("4 x 2 pixels");
    let (main, auxiliary) = sent.split(Avc444Layout::V2).expect("no side is above 65,520");
    let whole = ExclusiveRectangle { left: 0, top: 0, right: 4, bottom: 2 };
    let mut shown = Yuv444Frame::new(4, 2);
    shown.apply_main_view(&main, &[whole]);
    shown.apply_auxiliary_view(Avc444Layout::V2, &auxiliary, &[whole]);
    println!("{:?}", &shown.to_rgba(&whole)[28..]);
}
RUST
}

# Builds and runs it.
runs() { # WHAT FOLDER
    good "$1" cargo run --quiet --manifest-path "$2/Cargo.toml" --config "$2/.cargo/config.toml"
    grep -qxF '[252, 0, 0, 255]' "$work/said" || fail "$1: another pixel"
}

# ---- Packages ----

"$root/bind/rust/package.sh" "$work/rust" "$from"
cd "$work/rust"
good 'both are packaged, and the packages compile' cargo package --workspace
for name in haythaw haythaw-sys; do
    mkdir -p "$work/unpacked"
    tar -xzf "$work/target/package/$name-$version.crate" -C "$work/unpacked"
done
ours=$work/unpacked/haythaw-$version sys=$work/unpacked/haythaw-sys-$version
for file in "$sys"/assembly/{x86_64.s,aarch64.s,haythaw_text.c,haythaw.h} "$sys/build.rs" {"$ours","$sys"}/{README.md,NOTICE,src/lib.rs}; do
    [[ -f $file ]] || fail "the package has no ${file#"$work/unpacked/"}"
done
good 'the package has its tests' cargo test --quiet --manifest-path "$sys/Cargo.toml"

# ---- By path ----

by_path=$work/by_path
program "$by_path" "{ path = '$ours' }"
printf '[patch.crates-io]\nhaythaw-sys = { path = "%s" }\n' "$sys" >"$by_path/.cargo/config.toml"
runs 'by path' "$by_path"
good 'by path, once more' cargo build -v --manifest-path "$by_path/Cargo.toml" --config "$by_path/.cargo/config.toml"
grep -q 'Fresh haythaw-sys' "$work/said" || fail 'by path: the build script ran again, with nothing changed'
archives=("$work"/target/debug/build/haythaw-sys-*/out/libhaythaw.a)
archive=${archives[0]}

# ---- By version, from a registry; and vendored from there ----

registry=$work/registry
mkdir -p "$registry/index/ha/yt"
for name in haythaw haythaw-sys; do
    cp "$work/target/package/$name-$version.crate" "$registry/"
    needs=''
    if [[ $name == haythaw ]]; then
        needs="{\"name\":\"haythaw-sys\",\"req\":\"=$version\",\"features\":[],\"optional\":false,\"default_features\":true,\"target\":null,\"kind\":\"normal\"}"
    fi
    printf '{"name":"%s","vers":"%s","deps":[%s],"cksum":"%s","features":{},"yanked":false}\n' "$name" "$version" "$needs" \
        "$(sha256sum <"$registry/$name-$version.crate" | cut -d ' ' -f 1)" >"$registry/index/ha/yt/$name"
done
by_version=$work/by_version
program "$by_version" "'$version'"
printf '[source.crates-io]\nreplace-with = "here"\n[source.here]\nlocal-registry = "%s"\n' "$registry" >"$by_version/.cargo/config.toml"
runs 'by version' "$by_version"
cd "$by_version"
good 'cargo vendor' cargo vendor --quiet --respect-source-config vendor
printf '[source.crates-io]\nreplace-with = "vendored"\n[source.vendored]\ndirectory = "%s/vendor"\n' "$by_version" >.cargo/config.toml
mv "$registry" "$registry.away"
rm -rf "$work/home/registry"
runs 'vendored' "$by_version"

# ---- By git: a checkout has no assembly, so the library is in a folder or installed ----

mkdir -p "$work"/{lib,so,prefix/lib/pkgconfig,prefix/include}
cp "$archive" "$work/lib/"
cc -shared -Wl,--whole-archive "$archive" -Wl,--no-whole-archive -o "$work/so/libhaythaw.so"
by_git=$work/by_git
program "$by_git" "{ git = 'file://$root' }"
: >"$by_git/.cargo/config.toml"
# A folder is fetched from too; of the network there is none all the same.
CARGO_NET_OFFLINE=false CARGO_HTTP_PROXY=127.0.0.1:9 good 'a clone by cargo' cargo fetch --quiet --manifest-path "$by_git/Cargo.toml"

bad 'by git, with no library' "libhaythaw $version was not found. It can come from" cargo build --manifest-path "$by_git/Cargo.toml"
for way in HAYTHAW_LIB_DIR=/ '2. pkg-config' "3. assembly/$(uname -m).s" oracle/library.sh; do
    grep -qF -- "$way" "$work/said" || fail "what is said where there is no library has nothing of $way"
done
HAYTHAW_LIB_DIR=$work/lib runs 'by git, a folder' "$by_git"
HAYTHAW_LIB_DIR=$work/so LD_LIBRARY_PATH=$work/so runs 'by git, a folder with the shared library alone' "$by_git"

# Writes what an installed library says of itself.
install_version() { # VERSION
    printf 'prefix=%s\n\nName: haythaw\nDescription: .\nVersion: %s\nLibs: -L${prefix}/lib -lhaythaw\nCflags: -I${prefix}/include\n' \
        "$work/prefix" "$1" >"$work/prefix/lib/pkgconfig/haythaw.pc"
}
if command -v pkg-config >/dev/null; then
    export PKG_CONFIG_PATH=$work/prefix/lib/pkgconfig
    cp "$work/lib/libhaythaw.a" "$work/so/libhaythaw.so" "$work/prefix/lib/"
    cp "$from/include/haythaw.h" "$work/prefix/include/"
    install_version "$version"
    runs 'by git, pkg-config' "$by_git"
    [[ $(ldd "$work/target/debug/program") != *haythaw* ]] || fail 'pkg-config: not static, where it could be'
    rm "$work/prefix/lib/libhaythaw.a"
    LD_LIBRARY_PATH=$work/prefix/lib runs 'by git, pkg-config, the shared library alone' "$by_git"
    [[ $(ldd "$work/target/debug/program") == *haythaw* ]] || fail 'pkg-config: static, and there is no libhaythaw.a any more'
    install_version 0.3.9
    bad 'pkg-config has another version' "pkg-config has haythaw 0.3.9, and this is haythaw-sys $version" cargo build --manifest-path "$by_git/Cargo.toml"
    HAYTHAW_NO_PKG_CONFIG=1 bad 'pkg-config passed by' "libhaythaw $version was not found" cargo build --manifest-path "$by_git/Cargo.toml"
    HAYTHAW_LIB_DIR=$work/lib runs 'a folder comes before pkg-config' "$by_git"
    export PKG_CONFIG_PATH=
else
    echo 'not tested: the Rust packages over pkg-config, which is not at hand'
fi

cd "$by_git"
good 'cargo vendor, of git' cargo vendor --quiet vendor
printf '[source."git"]\ngit = "file://%s"\nreplace-with = "vendored"\n[source.vendored]\ndirectory = "%s/vendor"\n' "$root" "$by_git" >.cargo/config.toml
rm -rf "$work/home/git"
HAYTHAW_LIB_DIR=$work/lib runs 'vendored from git' "$by_git"

# ---- The build script by itself: what it refuses ----

scripts=("$work"/target/debug/build/haythaw-sys-*/build-script-build)
script=${scripts[0]}
here=$(uname -m)
build_script() { # TARGET OS MACHINE BITS [NAME=VALUE...]
    local target=$1 os=$2 machine=$3 bits=$4
    shift 4
    rm -rf "$work/out" && mkdir "$work/out"
    env "OUT_DIR=$work/out" "HOST=$here-unknown-linux-gnu" "TARGET=$target" "CARGO_CFG_TARGET_OS=$os" "CARGO_CFG_TARGET_ARCH=$machine" \
        "CARGO_CFG_TARGET_POINTER_WIDTH=$bits" CARGO_CFG_TARGET_ENDIAN=little "$@" "$script"
}
own() { build_script "$here-unknown-linux-gnu" linux "$here" 64 "$@"; } # [NAME=VALUE...]

# A file of the library that has these bytes.
file_with() { # FOLDER BYTES
    mkdir -p "$work/$1" && printf '%s' "$2" >"$work/$1/libhaythaw.a"
}
file_with older '..haythaw-version-0.3.0..'
file_with mute '..haythaw_version..'
bad 'an archive of another version' "/older/libhaythaw.a is of version 0.3.0" own "HAYTHAW_LIB_DIR=$work/older"
bad 'an archive without a version' '/mute/libhaythaw.a does not say its version' own "HAYTHAW_LIB_DIR=$work/mute"
bad 'a folder without the library' 'there is neither libhaythaw.a nor libhaythaw.so in it' own "HAYTHAW_LIB_DIR=$work/none"
bad 'a folder by a relative path' 'it has to be an absolute path' own HAYTHAW_LIB_DIR=oracle/build
bad 'Windows' 'the target is x86_64-pc-windows-msvc; the library is for Linux' build_script x86_64-pc-windows-msvc windows x86_64 64
bad 'a Mac' 'the target is aarch64-apple-darwin; the library is for Linux' build_script aarch64-apple-darwin macos aarch64 64
bad '32 bits' 'the target is i686-unknown-linux-gnu; the library is for Linux' build_script i686-unknown-linux-gnu linux x86 32
[[ $(wc -l <"$work/said") -eq 1 ]] || fail 'a target that is not supported is said in more than one line'

# ---- The same from the package, which has the assembly ----

cd "$sys"
script=$work/of_package
CARGO_MANIFEST_DIR=$sys CARGO_PKG_VERSION=$version good 'its build script compiles' rustc --edition 2021 -o "$script" build.rs
good 'from the assembly' own
grep -qx "cargo::metadata=include=$sys/assembly" "$work/said" || fail 'it does not say where haythaw.h is'
bad 'no C compiler' 'the assembly needs a C compiler: there-is-none' own CC=there-is-none
bad 'a C compiler that fails' 'the assembly was not compiled' own CC=false
good 'a C compiler with words of its own' own 'CC=env cc' AR=ar
other=aarch64
if [[ $here == aarch64 ]]; then other=x86_64; fi
if command -v "$other-linux-gnu-gcc" "$other-linux-gnu-ar" >/dev/null; then
    good 'for another machine' build_script "$other-unknown-linux-gnu" linux "$other" 64
    cp "$work/out/$other.o" "$work/other.o"
    good 'for another machine, by TARGET_CC' build_script "$other-unknown-linux-gnu" linux "$other" 64 "TARGET_CC=$other-linux-gnu-gcc" CC=false
    cmp -s "$work/out/$other.o" "$work/other.o" || fail 'TARGET_CC made another object'
    good 'for another C library' build_script "$other-unknown-linux-musl" linux "$other" 64
else
    echo "not tested: the Rust packages for $other: $other-linux-gnu-gcc is not at hand"
fi
printf 'rust_package: haythaw and haythaw-sys %s: %s checks passed\n' "$version" "$checks"
