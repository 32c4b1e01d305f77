#!/usr/bin/env bash
# Counts the instructions that a line takes of `PROGRAM audit`, and its greatest memory:
#   bench/audit.sh [PROGRAM [N]]
# The transcripts are those of bench/schedules.sh at the size N, 20000 where it isn't given. It prints a table in markdown.
# Each must be orderly. A count by callgrind is the same on a busy machine; it is of the whole run.
# TVHOST names the program too; without both it is proved and built from the sources that are here. Packages: valgrind, time.
export LC_ALL=C
here=$(cd -- "$(dirname -- "${BASH_SOURCE[0]}")/.." && pwd) || exit
program=${1:-${TVHOST:-$here/crates/tvhost/out/tvhost}}
size=${2:-20000}
[[ -n $1$TVHOST ]] || "$here/tvhost" prove || exit
if ! command -v valgrind >/dev/null || [[ ! -x $program ]]; then
    echo "bench/audit.sh: valgrind or $program is missing" >&2
    exit 2
fi

folder=$(mktemp -d) || exit
trap 'rm -rf "$folder"' EXIT

echo "| Transcript of | Lines | Instructions a line | KiB of memory |"
echo "|---|---|---|---|"
for name in drawn row nest mix server report service; do
    "$here/bench/schedules.sh" "$name" "$size" | "$program" replay >"$folder/transcript" || exit
    said=$(valgrind --tool=callgrind --callgrind-out-file=/dev/null "$program" audit <"$folder/transcript" 2>"$folder/counts") || exit
    lines=$(wc -l <"$folder/transcript")
    [[ $said == "orderly $lines" ]] || exit
    /usr/bin/time -f %M -o "$folder/memory" "$program" audit <"$folder/transcript" >/dev/null || exit
    count=$(sed -n 's/.*Collected *: *//p' "$folder/counts")
    echo "| \`$name $size\` | $lines | $((count / lines)) | $(cat "$folder/memory") |"
done
