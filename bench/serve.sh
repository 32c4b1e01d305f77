#!/usr/bin/env bash
# Counts the instructions that a line takes of `PROGRAM serve`, and beside them those of bench/line_server.c, which is the
# same service in C over the real libtalloc and libtevent, at 1, 100 and 1,000 connections:
#   bench/serve.sh [PROGRAM]
# bench/line_load.c is the client of both, and checks each reply. It prints a table in markdown. A count is the difference of
# two runs of different lengths, so neither the start nor the connecting is in it, and callgrind counts the process alone and
# not the kernel.
# TVHOST names the program too; without both it is proved and built from the sources that are here. Packages: valgrind,
# gcc, libtalloc-dev and libtevent-dev.
export LC_ALL=C
here=$(cd -- "$(dirname -- "${BASH_SOURCE[0]}")/.." && pwd) || exit
program=${1:-${TVHOST:-$here/crates/tvhost/out/tvhost}}
[[ -n $1$TVHOST ]] || "$here/tvhost" prove || exit
if ! command -v valgrind >/dev/null || [[ ! -x $program ]]; then
    echo "bench/serve.sh: valgrind or $program is missing" >&2
    exit 2
fi

folder=$(mktemp -d) || exit
trap 'rm -rf "$folder"' EXIT
"${CC:-cc}" -O2 -o "$folder/line_load" "$here/bench/line_load.c" || exit
"${CC:-cc}" -O2 -o "$folder/line_server" "$here/bench/line_server.c" -ltevent -ltalloc || exit
ulimit -n "$(ulimit -Hn)"
socket=$folder/socket

# count CONNECTIONS LINES LANES SERVER..: the lines that were sent, and the instructions of the server that got them
count() {
    local connections=$1 lines=$2 lanes=$3 pid
    shift 3
    rm -f "$socket"
    valgrind --tool=callgrind --callgrind-out-file=/dev/null "$@" >/dev/null 2>"$folder/said" &
    pid=$!
    until [[ -S $socket ]]; do sleep 0.05; done
    "$folder/line_load" "$socket" "$connections" "$lines" "$lanes" "$pid" >"$folder/loaded" || exit
    kill "$pid"
    wait "$pid" 2>/dev/null
    sed -n 's/.*lines \([0-9]*\) replies.*/\1/p' "$folder/loaded"
    sed -n 's/.*Collected *: *//p' "$folder/said"
}

# per_line CONNECTIONS FEW MANY LANES SERVER..: the instructions of one line
per_line() {
    local connections=$1 few=$2 many=$3 lanes=$4 a b
    shift 4
    mapfile -t a < <(count "$connections" "$few" "$lanes" "$@")
    mapfile -t b < <(count "$connections" "$many" "$lanes" "$@")
    echo $(((b[1] - a[1]) / (b[0] - a[0])))
}

echo "| Connections | Lines in a batch | tvhost | the service in C | tvhost to the service in C |"
echo "|---|---|---|---|---|"
for case in "1 16000 64000 4" "100 64000 192000 4" "1000 64000 192000 1"; do
    read -r connections few many lanes <<<"$case"
    ours=$(per_line "$connections" "$few" "$many" "$lanes" "$program" serve "$socket" 1000000000)
    theirs=$(per_line "$connections" "$few" "$many" "$lanes" "$folder/line_server" "$socket")
    printf '| %d | %d | %d | %d | %d.%02d |\n' "$connections" $((16 * lanes)) "$ours" "$theirs" $((ours / theirs)) $((ours * 100 / theirs % 100))
done
