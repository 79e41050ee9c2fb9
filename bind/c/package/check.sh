#!/bin/sh
# `make check`: the test and the examples, as C and as C++, over the static library, the shared one and, where this processor can run it,
# the shared one for x86-64-v3. What an example prints is compared with examples/NAME.out. The last line is 'check: N programs, 0 wrong'.
set -u
ran=0 wrong=0
mkdir -p build/check

# Where the shared programs look for the library: the plain one first, so that the loader chooses nothing by itself here.
plain=$PWD/build v3=$PWD/build/x86-64-v3

one() { # HOW FOLDER LANGUAGE NAME SOURCE WORDS-OF-THE-COMPILER...
    how=$1 folder=$2 language=$3 name=$4 source=$5
    shift 5
    program=build/check/$name
    ran=$((ran + 1))
    # shellcheck disable=SC2086 # words of the caller, to be split
    if "$@" $source -o "$program" $libraries $LDFLAGS && LD_LIBRARY_PATH=$folder $RUN "$program" >build/check/said; then
        [ ! -f "examples/$name.out" ] || cmp -s build/check/said "examples/$name.out" || {
            echo "check: $name ($language, $how) printed:" && cat build/check/said
            wrong=$((wrong + 1))
        }
    else
        echo "check: $name ($language, $how) does not compile, link or run"
        wrong=$((wrong + 1))
    fi
}

each() { # HOW FOLDER LIBRARIES
    libraries=$3
    for source in test/test.c examples/*.c; do
        name=${source##*/} name=${name%.c}
        # shellcheck disable=SC2086 # words of the caller, to be split
        one "$1" "$2" C "$name" "$source" $CC -std=c99 -Iinclude $CFLAGS
        # shellcheck disable=SC2086
        [ -z "$CXX" ] || one "$1" "$2" C++ "$name" "-x c++ $source -x none" $CXX -std=c++11 -Iinclude $CXXFLAGS
    done
}

# shellcheck disable=SC2086
if ! command -v $CXX >/dev/null 2>&1; then
    echo "check: not as C++: there is no command $CXX"
    CXX=
fi
each static "$plain" build/libhaythaw.a
each shared "$plain" '-Lbuild -lhaythaw'
if [ ! -d "$v3" ]; then :
elif [ -z "$RUN" ] && grep -qw avx2 /proc/cpuinfo && grep -qw bmi2 /proc/cpuinfo && grep -qw fma /proc/cpuinfo; then
    each 'shared, x86-64-v3' "$v3" '-Lbuild -lhaythaw'
else
    echo 'check: not over the library for x86-64-v3: this processor is none'
fi
echo "check: $ran programs, $wrong wrong"
[ "$wrong" -eq 0 ]
