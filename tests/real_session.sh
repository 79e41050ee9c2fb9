#!/usr/bin/env bash
# A real session: FreeRDP's server sends a screen as AVC444v2 to FreeRDP's own client on 127.0.0.1; what the client receives, decodes and shows is
# recorded, and held to the library by the same test as the stored recordings (tests/recorded.py). docs/REAL_SESSION.md has a run. By hand, outside
# the gate: it needs Debian's packages freerdp2-shadow-x11, freerdp2-x11, xvfb and xz-utils, and freerdp2-dev, libwinpr2-dev, libavcodec-dev and
# libx11-dev to make the recorder and the painter. The recordings stay in oracle/build/real_session/.
#
#   tests/real_session.sh [--install] [--v1] [WIDTHxHEIGHT ..]
#
#   --install      the packages that are not at hand first, by apt-get
#   --v1           the server is made to send AVC444 (V1); else it sends AVC444v2, as it does by itself
#   WIDTHxHEIGHT   the size of its screen, the width even; 336x200, 334x201 and 800x600 where none is given
#   --help         these lines
set -euo pipefail
cd "$(dirname "${BASH_SOURCE[0]}")/.."

readonly PICTURES=14 LIMIT=20 folder=oracle/build/real_session
readonly include=(-isystem /usr/include/freerdp2 -isystem /usr/include/winpr2)
layout=v2 sizes=() install=''
work='' started=() next='' display=''

say() { printf 'real session: %s\n' "$*"; }

# Says what went wrong, and shows the end of each log.
fail() { # WHAT [LOG ..]
    local log
    printf 'real_session.sh: %s\n' "$1" >&2
    for log in "${@:2}"; do
        printf 'the end of %s:\n' "${log##*/}" >&2
        tail -n 15 "$log" | sed 's/^/    /' >&2
    done
    exit 1
}

# ---- What is asked for, and what is at hand ----

arguments() {
    local word
    for word in "$@"; do
        case $word in
        --help | -h) sed -n '/^#   /s/^#   //p' "${BASH_SOURCE[0]}" && exit 0 ;;
        --install) install=yes ;;
        --v1) layout=v1 ;;
        *) [[ $word =~ ^[1-9][0-9]{0,4}x[1-9][0-9]{0,4}$ ]] || fail "$word is no option and no WIDTHxHEIGHT (--help)"
            [[ $((${word%x*} % 2)) -eq 0 ]] || fail "$word: x264 encodes no odd width, so the server cannot send it"
            sizes+=("$word") ;;
        esac
    done
    if [[ ${#sizes[@]} -eq 0 ]]; then sizes=(336x200 334x201 800x600); fi
}

includes() { printf '#include <%s>\n' "$@" | cc "${include[@]}" -fsyntax-only -x c - 2>/dev/null; }

missing() {
    command -v freerdp-shadow-cli >/dev/null || echo freerdp2-shadow-x11
    command -v xfreerdp >/dev/null || echo freerdp2-x11
    command -v Xvfb >/dev/null || echo xvfb
    command -v xz >/dev/null || echo xz-utils
    includes winpr/wtypes.h || echo libwinpr2-dev
    includes freerdp/freerdp.h freerdp/codec/h264.h || echo freerdp2-dev
    includes libavcodec/avcodec.h || echo libavcodec-dev
    includes X11/Xlib.h || echo libx11-dev
}

at_hand() {
    local command lack=()
    for command in cc python3 setsid; do command -v "$command" >/dev/null || fail "$command is not at hand"; done
    mapfile -t lack < <(missing)
    if [[ -n $install && ${#lack[@]} -gt 0 ]]; then
        apt-get update
        DEBIAN_FRONTEND=noninteractive apt-get install -y --no-install-recommends "${lack[@]}"
        mapfile -t lack < <(missing)
    fi
    [[ ${#lack[@]} -eq 0 ]] || fail "not at hand: ${lack[*]} (Debian's packages of these names; --install)"
}

build() {
    local strict=(-O2 -Wall -Wextra -Werror) side
    mkdir -p "$folder"
    for side in client server; do
        cc -std=gnu11 "${strict[@]}" -D_GNU_SOURCE -fPIC -shared "${include[@]}" "tests/real_session/record_$side.c" -o "$folder/record_$side.so"
    done
    cc -std=gnu11 "${strict[@]}" tests/real_session/painter.c -lX11 -o "$folder/painter"
    cc -std=c99 "${strict[@]}" -Ibind/c tests/real_session/shown.c oracle/build/libhaythaw.a -o "$folder/shown"
    cc -std=gnu11 "${strict[@]}" -Ibind/c tests/real_session/decoders.c oracle/build/libhaythaw.a -lavcodec -lavutil -o "$folder/decoders"
}

versions() {
    # shellcheck disable=SC2016 # dpkg-query's own names
    dpkg-query -W -f '${Package} ${Version}\n' freerdp2-shadow-x11 freerdp2-x11 libavcodec59 libx264-164 xvfb 2>/dev/null || true
}

# ---- Processes: each in a group of its own, so that it is ended with all that it started, and nothing else is ----

run() { # LOG WORDS...: in the background; $input is its standard input
    setsid "${@:2}" <"${input:-/dev/null}" >"$1" 2>&1 &
    started+=($!)
}

alive() { [[ -z $1 ]] || kill -0 "$1" 2>/dev/null; }

# Waits until a test is true, while a process lives.
wait_for() { # SECONDS PID WORDS...
    local end=$((SECONDS + $1))
    until "${@:3}"; do
        [[ $SECONDS -lt $end ]] && alive "$2" || return 1
        sleep 0.1
    done
}

gone() { ! kill -0 -- "-$1" 2>/dev/null; }

# Ends the processes from number FROM of those that were started, the last first.
end_from() { # FROM
    local i pid
    for ((i = ${#started[@]} - 1; i >= $1; i--)); do
        pid=${started[i]}
        kill -- "-$pid" 2>/dev/null || true
        wait_for 5 '' gone "$pid" || kill -KILL -- "-$pid" 2>/dev/null || true
        wait "$pid" 2>/dev/null || true
        unset 'started[i]'
    done
}

end_all() {
    end_from 0
    if [[ -n $work ]]; then rm -rf "$work"; fi
}

# ---- A session ----

# An X server with a screen of this size, on a display that is free; `display` is its name.
start_screen() { # WHICH SIZE
    local at=$work/$1.display
    : >"$at"
    run "$work/$1.log" Xvfb -displayfd 5 -screen 0 "$2x24" -nolisten tcp -noreset 5>"$at"
    wait_for "$LIMIT" "${started[-1]}" test -s "$at" || fail "Xvfb does not come up for the $1" "$work/$1.log"
    display=:$(cat "$at")
}

# A line for the painter each time it is to paint. This shell keeps both ends, so that neither waits for the other.
start_painter() {
    rm -f "$work/next" && mkfifo "$work/next"
    exec {next}<>"$work/next"
    DISPLAY=$display input=$work/next run "$work/painter.log" "$folder/painter" "$PICTURES"
    wait_for "$LIMIT" "${started[-1]}" grep -qs '^painted 1$' "$work/painter.log" || fail 'the painter paints nothing' "$work/painter.log"
}

listening() { grep -q "^ *[0-9]*: 0100007F:$(printf %04X "$1") 00000000:0000 0A " /proc/net/tcp; } # PORT, on 127.0.0.1

free_port() { python3 -c 'import socket; s = socket.socket(); s.bind(("127.0.0.1", 0)); print(s.getsockname()[1])'; }

start_server() { # RECORD PORT
    local own=(HOME="$work/home" XDG_CONFIG_HOME="$work/home/.config" DISPLAY="$display" HAYTHAW_RECORD="$1")
    if [[ $layout == v1 ]]; then own+=(HAYTHAW_V1=1); fi
    run "$work/server.log" env "${own[@]}" LD_PRELOAD="$PWD/$folder/record_server.so" \
        freerdp-shadow-cli /bind-address:127.0.0.1 "/port:$2" /sec:tls -auth
    wait_for "$LIMIT" "${started[-1]}" listening "$2" || fail 'freerdp-shadow-cli does not come up' "$work/server.log"
}

start_client() { # RECORD PORT SIZE
    run "$work/client.log" env HOME="$work/home" XDG_CONFIG_HOME="$work/home/.config" DISPLAY="$display" HAYTHAW_RECORD="$1" \
        LD_PRELOAD="$PWD/$folder/record_client.so" \
        xfreerdp "/v:127.0.0.1:$2" /u:x /p: /cert:ignore /sec:tls "/size:$3" /gfx:AVC444
}

through() { grep -c '^planes ' "$1.freerdp.txt" 2>/dev/null || true; } # RECORD: how many payloads the client has done with
more_than() { [[ $(through "$1") -gt $2 ]]; }                           # RECORD COUNT

# Waits for a payload more than COUNT, and until none has come for half a second.
settle() { # RECORD COUNT WHAT
    local before
    wait_for "$LIMIT" "${started[-1]}" more_than "$1" "$2" || fail "no payload for $3 came through" "$work/server.log" "$work/client.log"
    while before=$(through "$1"); do
        sleep 0.5
        [[ $(through "$1") -ne $before ]] || return 0
    done
}

# The next picture, each time the client has done with the one before. The server shows its screen to a client by planar bitmaps until it has read the
# client's capabilities; where it is late with that, no AVC444 comes before something changes, and the second picture is the first that is recorded.
follow() { # RECORD
    local painted=1 had=0
    wait_for 3 "${started[-1]}" more_than "$1" 0 || { echo >&"$next" && painted=2; }
    settle "$1" 0 'the first pictures'
    for ((; painted < PICTURES; painted++)); do
        had=$(through "$1")
        echo >&"$next"
        settle "$1" "$had" "picture $((painted + 1))"
    done
}

session() { # SIZE
    local size=$1 name=${layout}_$1 record port first=${#started[@]}
    record=$work/$name port=$(free_port)
    start_screen client 1024x768
    local client_display=$display
    start_screen server "$size"
    start_painter
    start_server "$record" "$port"
    say "$name: freerdp-shadow-cli is up on 127.0.0.1:$port, its screen is $display"
    display=$client_display
    start_client "$record" "$port" "$size"
    follow "$record"
    end_from "$first"
    exec {next}>&-
    keep "$name" "$record"
}

bytes() { stat -c %s "$1"; } # FILE

# Puts the recording where it stays. A client that was cut off within a payload, or a server that was a picture ahead, would show here.
keep() { # NAME RECORD
    local payloads file
    payloads=$(through "$2")
    for file in planes client screen; do
        [[ $(bytes "$2.$file") -eq $(bytes "$2.planes") ]] || fail "$1: the client's planes have $(bytes "$2.planes") bytes, $file has $(bytes "$2.$file")"
    done
    for file in views planes client screen; do xz -T1 -1 --stdout "$2.$file" >"$folder/$1.$file.xz"; done
    mv "$2.rdpgfx" "$2.freerdp.txt" "$folder/"
    say "$1: $PICTURES pictures painted, $payloads payloads recorded"
}

arguments "$@"
at_hand
versions
say 'making the library, the recorder and the painter'
oracle/library.sh
build
work=$(mktemp -d)
trap end_all EXIT
trap 'exit 130' INT
trap 'exit 143' TERM
mkdir -p "$work/home"
names=()
for size in "${sizes[@]}"; do
    session "$size"
    names+=("${layout}_$size")
done
say 'holding the recordings to the library'
tests/recorded.py --folder "$folder" "${names[@]}"
python3 tests/real_session/numbers.py "${names[@]}"
