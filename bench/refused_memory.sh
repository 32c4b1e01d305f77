#!/usr/bin/env bash
# Refuses memory to `PROGRAM replay`, one allocation at a time, in each worked schedule:
#   bench/refused_memory.sh [PROGRAM]
# In run K of a schedule the program's K-th call of malloc or realloc is refused, and no other, up to the run that makes
# fewer calls. Each is to give the schedule's transcript with status 0, or a front of it with status 6 and `no memory`. The
# last run is to give the transcript.
# The schedules are those of examples/ and of the tables in crates/tree_specs/specs/Examples, each with its transcript beside
# it. It prints how many runs there were, and each wrong one; the status is 1 where there is one.
# TVHOST names the program too; without both it is crates/tvhost/out/tvhost. It needs glibc and a C compiler.
export LC_ALL=C
here=$(cd -- "$(dirname -- "${BASH_SOURCE[0]}")/.." && pwd) || exit
program=${1:-${TVHOST:-$here/crates/tvhost/out/tvhost}}
if [[ ! -x $program ]]; then
    echo "bench/refused_memory.sh: $program is missing" >&2
    exit 2
fi

folder=$(mktemp -d) || exit
trap 'rm -rf "$folder"' EXIT

# A library that stands before the C library, refuses the call with the number REFUSED, and says so on descriptor 9.
"${CC:-cc}" -O2 -shared -fPIC -o "$folder/refuse.so" -xc - <<'C' || exit
#include <errno.h>
#include <stddef.h>
#include <stdlib.h>
#include <unistd.h>

extern void *__libc_malloc(size_t size);
extern void *__libc_realloc(void *block, size_t size);

static unsigned long refused, calls;

__attribute__((constructor)) static void begin(void)
{
	const char *number = getenv("REFUSED");
	refused = number == NULL ? 0 : strtoul(number, NULL, 10);
	calls = 0;
}

static int is_refused(void)
{
	if (++calls != refused)
		return 0;
	if (write(9, "x", 1) != 1)
		abort();
	errno = ENOMEM;
	return 1;
}

void *malloc(size_t size)
{
	return is_refused() ? NULL : __libc_malloc(size);
}

void *realloc(void *block, size_t size)
{
	return is_refused() ? NULL : __libc_realloc(block, size);
}
C

# The tables' schedules and transcripts, each in a file. A table has a pair of texts on a line, and ends quietly.
awk -v folder="$folder" '
    function end_table() {
        print "end quiet" >transcript
        close(schedule)
        close(transcript)
        name = ""
    }
    FNR == 1 { file = FILENAME; gsub(/.*\/|\.antt$/, "", file) }
    /^abbrev pub [a-z_]+ : Example$/ {
        name = file "." $3
        schedule = folder "/" name ".schedule"
        transcript = folder "/" name ".transcript"
        print "tv schedule 1 pool" >schedule
        print "tv transcript 1" >transcript
    }
    name != "" && /^    \(".*", ".*"\) ∷$/ {
        text = substr($0, 7)
        sub(/"\) ∷$/, "", text)
        middle = index(text, "\", \"")
        told = substr(text, middle + 4)
        gsub(/\\n/, "\n", told)
        print substr(text, 1, middle - 1) >schedule
        print told >transcript
    }
    name != "" && /(^    |= )\[\]$/ { end_table() }
' "$here"/crates/tree_specs/specs/Examples/*.antt
cp "$here"/examples/*.schedule "$here"/examples/*.transcript "$folder" || exit

# refuse SCHEDULE K: one run, which leaves `status`, `out`, `err`, and whether the call was made in `made`
refuse() {
    out=$(REFUSED=$2 LD_PRELOAD=$folder/refuse.so "$program" replay <"$1" 2>"$folder/err" 9>"$folder/made"
        printf ' %d' "$?")
    status=${out##* }
    out=${out% *}
    err=$(<"$folder/err")
    made=$(<"$folder/made")
}

# is_right TRANSCRIPT: whether the run gave the transcript, or a front of it without memory
is_right() {
    [[ $status == 0 && $out == "$1" && -z $err ]] && return
    [[ $status == 6 && $1 == "$out"* && $err == "no memory" && -n $made ]]
}

schedules=0 runs=0 short=0 wrong=0
for schedule in "$folder"/*.schedule; do
    transcript=$(cat "${schedule%.schedule}.transcript" && echo x)
    transcript=${transcript%x}
    made=x
    for ((k = 1; ${#made} > 0; k++)); do
        refuse "$schedule" "$k"
        ((runs++))
        [[ $status == 6 ]] && ((short++))
        if ! is_right "$transcript"; then
            echo "WRONG: ${schedule##*/}, allocation $k: status $status $err"
            ((wrong++))
        fi
    done
    ((schedules++))
done
echo "$schedules schedules, $runs runs, $short of them out of memory, $wrong wrong"
[[ $schedules -gt 15 && $short -gt 0 && $wrong == 0 ]]
