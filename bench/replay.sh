#!/usr/bin/env bash
# Times the replay of a schedule of a size N, 20000 where no number is given: bench/replay.sh NAME [N], run by hand.
# bench/schedules.sh says which schedules there are.
# It prints the last two lines of the transcript, how many lines of the schedule were replayed in a second of
# processor time, and the greatest resident memory where /usr/bin/time is there to tell it.
# TVHOST names a program that is built already. Without it the program is proved and built from the sources that are
# here.
export LC_ALL=C
here=$(cd -- "$(dirname -- "${BASH_SOURCE[0]}")/.." && pwd) || exit

folder=$(mktemp -d) || exit
trap 'rm -rf "$folder"' EXIT
"$here/bench/schedules.sh" "$1" "${2:-20000}" >"$folder/schedule" || exit

program=${TVHOST:-$here/crates/tvhost/out/tvhost}
[[ -n $TVHOST ]] || "$here/tvhost" prove || exit

replay=("$program" replay)
[[ -x /usr/bin/time ]] && replay=(/usr/bin/time -f %M -o "$folder/memory" "$program" replay)
TIMEFORMAT="%U %S"
{ time "${replay[@]}" <"$folder/schedule" >"$folder/transcript" 2>"$folder/error"; } 2>"$folder/seconds"
status=$?

cat "$folder/error" >&2
tail -2 "$folder/transcript"
awk -v lines="$(wc -l <"$folder/schedule")" '{
    seconds = $1 + $2
    rate = seconds > 0 ? int(lines / seconds) : "very many"
    printf "%d lines in %.3f s of processor time: %s lines a second\n", lines, seconds, rate
}' "$folder/seconds"
if [[ -s $folder/memory ]]; then
    echo "at most $(tail -1 "$folder/memory") KiB of memory"
fi
exit $status
