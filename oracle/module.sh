# shellcheck shell=bash
# The modules that the kit hands to its compiler, and what is made of them: what library.sh and ../dist share. Sourced; it takes `root`, the top
# of the repository, and `fail`, and sets `oracle`, `build` and `tools`. A PROCESSOR is '', the least of the machine, or x86-64-v3.
#
#   keep_module MACHINE PROCESSOR        proves, and keeps in the folder `module_folder` says: libhaythaw.a, rt's own archive for that machine and
#                                        processor; module.ll, what its object was made of; words, how
#   module_text MACHINE PROCESSOR OUT    that module as assembly text, by the same words, with the marks where jumps may end
#   assembled MACHINE TEXT OUT           that text as an object
#   text_object MACHINE OUT              bind/c/haythaw_text.c, the two calls that are not proved, as an object
# shellcheck disable=SC2154 # root is the caller's

oracle=$root/oracle build=$root/oracle/build
kit=$(dirname "$(rt doc)")
tools=$kit/toolchain/bin

# Runs rt in a folder of the repository, and shows what it said if it fails, and where `progress` is set what it proves, crate by crate. Its
# status is 1 where something is not proved, on a full disk too, which is asked for first; any other is no verdict.
run_rt() { # FOLDER RT WORDS...
    local ended=0
    (cd "$root/$1" && "${@:2}") 2>&1 | tee "$build/rt.log" | shown || ended=${PIPESTATUS[0]}
    [[ $ended -ne 0 ]] || return 0
    tail -n 40 "$build/rt.log" >&2
    "$root/.ci/needs" after "$build/rt.log" || fail "rt ${*:3}: no verdict, since something could not be written"
    [[ $ended -ne 1 ]] || fail "rt ${*:3}: something is not proved, or was refused"
    fail "rt ${*:3} ended with status $ended, with no verdict"
}

# A line for each crate that rt begins.
shown() {
    if [[ -n ${progress:-} ]]; then
        { grep --line-buffered '^rt: chose --jobs ' || true; } | sed -u 's/.* for /proving /'
    else
        cat >/dev/null
    fi
}

# Links everything in a folder into another, but what has these names.
link_all_but() { # 'NAME..' FROM TO
    local entry
    mkdir -p "$3"
    for entry in "$2"/*; do
        case " $1 " in *" ${entry##*/} "*) ;; *) ln -s "$entry" "$3/" ;; esac
    done
}

# A kit of links, whose compiler keeps how it makes an object, and of what. rt takes the kit that its own file is in, so it is copied. Outside
# the repository, in which rt takes no link.
make_keeping_kit() { # FOLDER KEEP
    link_all_but 'bin toolchain' "$kit" "$1"
    link_all_but 'rt rtlib.py' "$kit/bin" "$1/bin"
    cp "$kit"/bin/{rt,rtlib.py} "$1/bin/"
    link_all_but bin "$kit/toolchain" "$1/toolchain"
    link_all_but clang "$tools" "$1/toolchain/bin"
    cat >"$1/toolchain/bin/clang" <<WRAPPER
#!/bin/sh
case " \$* " in *' -c '*)
    printf '%s\n' "\$@" >'$2/words' || exit 1
    last=
    for word in "\$@"; do
        [ "\$last" != ir ] || cp "\$word" '$2/module' || exit 1
        last=\$word
    done
    ;;
esac
exec '$tools/clang' "\$@"
WRAPPER
    chmod +x "$1/toolchain/bin/clang"
}

module_folder() { # MACHINE PROCESSOR
    printf '%s' "$build/module/$1${2:+-$2}"
}

# What a module is made from.
module_state() {
    {
        rt version
        cd "$root" && find crates.txt crates oracle/module.sh -name out -prune -o -type f -exec sha256sum {} + | sort
    } | sha256sum
}

# Proves the crate `haythaw` and what it stands on, and makes the module and rt's archive, unless both are here from these very files.
keep_module() { # MACHINE PROCESSOR
    local now kept how=() work
    now=$(module_state)
    kept=$(module_folder "$1" "$2")
    [[ ! -f $kept/state || $(cat "$kept/state") != "$now" ]] || return 0
    rm -rf "$kept"
    mkdir -p "$kept"
    [[ $1 == x86_64 ]] || how+=(--target "$1-unknown-linux-gnu")
    [[ -z $2 ]] || how+=(--cpu "$2")
    run_rt crates/haythaw rt check
    work=$(mktemp -d)
    make_keeping_kit "$work/kit" "$kept"
    progress='' run_rt crates/haythaw "$work/kit/bin/rt" lib "${how[@]}"
    rm -rf "$work"
    [[ -f $kept/words && -f $kept/module ]] || fail "the kit's compiler was not handed a module"
    "$tools/clang" --target="$1-unknown-linux-gnu" -S -emit-llvm -Xclang -emit-llvm-uselists -x ir -O0 -Xclang -disable-llvm-passes \
        -Wno-override-module "$kept/module" -o "$kept/module.ll"
    mv "$root/crates/haythaw/out/libhaythaw.a" "$kept/libhaythaw.a"
    echo "$now" >"$kept/state"
}

# The last line leaves out what older assemblers do not know; it says again what the note .note.gnu.property says.
module_text() { # MACHINE PROCESSOR OUT
    local kept word words=() last=''
    kept=$(module_folder "$1" "$2")
    while IFS= read -r word; do
        case $last/$word in
        */-c | */-o | -o/* | */-x | -x/ir | ir/* | */--sysroot=*) ;;
        *) words+=("$word") ;;
        esac
        last=$word
    done <"$kept/words"
    python3 "$oracle/marks.py" "$1" <"$kept/module.ll" >"$kept/marked.ll"
    "$tools/clang" "${words[@]}" -S -fno-addrsig -fno-verbose-asm -x ir "$kept/marked.ll" -o - | sed '/^\t\.aeabi_/d' >"$3"
}

assembled() { # MACHINE TEXT OUT
    "$tools/clang" --target="$1-unknown-linux-gnu" -Werror -c "$2" -o "$3"
}

# With headers of our own for the few types of haythaw.h: the kit's compiler has none.
text_object() { # MACHINE OUT
    local headers=$build/headers name
    mkdir -p "$headers"
    echo 'typedef __SIZE_TYPE__ size_t;' >"$headers/stddef.h"
    for name in 8 16 32; do echo "typedef __UINT${name}_TYPE__ uint${name}_t;"; done >"$headers/stdint.h"
    echo '#define bool _Bool' >"$headers/stdbool.h"
    (cd "$root/bind/c" && "$tools/clang" --target="$1-unknown-linux-gnu" -std=c99 -nostdinc -isystem "$headers" -O2 -fPIC -ffunction-sections \
        -fdata-sections -fno-addrsig -fno-ident -Wall -Wextra -Wpedantic -Werror -c haythaw_text.c -o "$2")
}
