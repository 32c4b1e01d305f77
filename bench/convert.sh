#!/usr/bin/env bash
# Counts the instructions that `PROGRAM convert` takes for a line of a schedule, beside those of `PROGRAM replay`:
#   bench/convert.sh [PROGRAM [N]]
# The schedules are those of bench/schedules.sh at the size N, 20000 where it isn't given. It prints a table in markdown.
# What is written must replay to the transcript of the schedule itself. A count by callgrind is the same on a busy machine; it
# is of the whole run.
# TVHOST names the program too; without both it is proved and built from the sources that are here. Packages: valgrind.
export LC_ALL=C
here=$(cd -- "$(dirname -- "${BASH_SOURCE[0]}")/.." && pwd) || exit
program=${1:-${TVHOST:-$here/crates/tvhost/out/tvhost}}
size=${2:-20000}
[[ -n $1$TVHOST ]] || "$here/tvhost" prove || exit
if ! command -v valgrind >/dev/null || [[ ! -x $program ]]; then
    echo "bench/convert.sh: valgrind or $program is missing" >&2
    exit 2
fi

folder=$(mktemp -d) || exit
trap 'rm -rf "$folder"' EXIT

# count WORD: what the program writes of the schedule goes to a file of this name, and how many instructions it took is said.
count() {
    valgrind --tool=callgrind --callgrind-out-file=/dev/null "$program" "$1" <"$folder/schedule" 2>"$folder/counts" \
        >"$folder/$1" || exit
    sed -n 's/.*Collected *: *//p' "$folder/counts"
}

echo "| Schedule | Lines | Instructions a line, convert | replay | convert to replay |"
echo "|---|---|---|---|---|"
for name in drawn row mix server service; do
    "$here/bench/schedules.sh" "$name" "$size" >"$folder/schedule" || exit
    lines=$(wc -l <"$folder/schedule")
    convert=$(count convert) || exit
    replay=$(count replay) || exit
    "$program" replay <"$folder/convert" | cmp - "$folder/replay" || exit
    awk -v name="$name $size" -v lines="$lines" -v convert="$convert" -v replay="$replay" \
        'BEGIN {printf "| `%s` | %d | %d | %d | %.2f |\n", name, lines, convert / lines, replay / lines, convert / replay}'
done
