#!/bin/sh
# Runs the program `otzarvim` on many inputs and compares what it writes, byte for byte, with what the
# independent program says; then runs the tools' tests with it.
#
#   tests/program.sh [SEED] [CASES]
#
# The program is crates/otzarvim/out/otzarvim, as `rt run` there leaves it, or the file that OTZARVIM names,
# and runs as rt runs programs, JOBS at a time (2 unless set). Each case is read from a file; some also
# come through a pipe in pieces, with pauses. Exit status 1 at the first difference: the case is shown,
# and left in target/program.
set -eu
. "$(dirname "$0")/common.sh"

[ $# -le 2 ] || die "usage: program.sh [SEED] [CASES]"
seed=${1-1}
count=${2-5700}
jobs=${JOBS-2}

copy_program otzarvim "${OTZARVIM-}"
limit=100
build
cases=$scratch/cases
mkdir "$cases"
"$independent" program "$seed" "$count" "$cases"
began=$(date +%s)

# differs CASE HOW: says so, once, and stops the others.
differs() {
    mkdir "$scratch/stop" 2>/dev/null || exit 1
    kept=$root/target/program
    rm -rf "$kept"
    mkdir -p "$kept"
    cp "$cases/$1.stdin" "$cases/$1.stdout" "$cases/$1.wrote" "$independent" "$kept/"
    {
        echo "seed $seed, case $1 DIFFERS ($2):"
        "$independent" show-input <"$cases/$1.stdin" | cut -c1-2000 | sed 's/^/  /'
        echo "  wrote:"
        head -c 20000 "$cases/$1.wrote" | sed 's/^/  /'
        echo "see target/program; show-input shows the case whole"
    } >&2
    exit 1
}

# check CASE HOW STATUS: what was written must be what is expected, and the program must end well.
check() {
    [ "$3" -eq 0 ] || differs "$1" "$2, status $3"
    cmp -s "$cases/$1.stdout" "$cases/$1.wrote" || differs "$1" "$2"
}

# A standard error that isn't empty is a difference too.
from_file() {
    ended=0
    run_program <"$cases/$1.stdin" >"$cases/$1.wrote" 2>&1 || ended=$?
    check "$1" "from a file" "$ended"
}

# pieces SIZE..: standard input to standard output in pieces of these sizes, with pauses, then the rest.
pieces() {
    for size in "$@"; do
        dd bs="$size" count=1 2>/dev/null
        sleep 0.01
    done
    cat 2>/dev/null
}

# in_pieces CASE SIZE..: the writer may be stopped early, where the program has read enough.
in_pieces() {
    number=$1
    shift
    ended=0
    pieces "$@" <"$cases/$number.stdin" 2>/dev/null |
        run_program >"$cases/$number.wrote" 2>&1 || ended=$?
    check "$number" "in pieces: $*" "$ended"
}

# worker FIRST: every so many of the cases, from FIRST on, as there are jobs.
worker() {
    number=$1
    while [ "$number" -le "$count" ] && [ ! -e "$scratch/stop" ]; do
        from_file "$number"
        number=$((number + jobs))
    done
}

workers=''
first=1
while [ "$first" -le "$jobs" ]; do
    worker "$first" &
    workers="$workers $!"
    first=$((first + 1))
done
failed=0
for worker in $workers; do wait "$worker" || failed=1; done
[ "$failed" -eq 0 ] || exit 1
echo "seed $seed: $count cases from files, every byte as expected, $(($(date +%s) - began)) s"

# In pieces: some of all, and some of those around the longest input and past it. The sizes end a piece
# after T13's length field, header and model, and after 8,191, 8,192 and 8,193 bytes.
fed=0
long=$(find "$cases" -name '*.stdin' -size +8180c | sed 's/.*\/\([0-9]*\)\.stdin/\1/' | sort -n | awk 'NR % 6 == 1')
for number in $(seq 1 97 "$count") $long; do
    in_pieces "$number" 1 3 9 38 500 3000 4640 1 1
    fed=$((fed + 1))
done
# shellcheck disable=SC2046
[ "$count" -lt 1 ] || in_pieces 1 $(seq 82 | sed 's/.*/1/')
echo "$fed cases in pieces, as expected"

# No input at all, and one without end; and inputs that can't be read at all: then the program writes nothing and ends with status 1.
echo 'refused 2' >"$scratch/refused"
# refused INPUT STATUS
refused() {
    if [ "$2" -ne 0 ] || ! cmp -s "$scratch/refused" "$scratch/wrote"; then
        echo "standard input $1: NOT refused 2, but status $2 and: $(head -c 500 "$scratch/wrote")" >&2
        exit 1
    fi
}
# unread INPUT STATUS
unread() {
    if [ "$2" -ne 1 ] || [ -s "$scratch/wrote" ] || [ ! -s "$scratch/said" ]; then
        echo "standard input $1: NOT told as an error, but status $2 and: $(head -c 500 "$scratch/wrote")" >&2
        exit 1
    fi
}
for input in /dev/null /dev/zero; do
    ended=0
    run_program <"$input" >"$scratch/wrote" 2>&1 || ended=$?
    refused "$input" "$ended"
done
ended=0
run_program <&- >"$scratch/wrote" 2>"$scratch/said" || ended=$?
unread closed "$ended"
ended=0
run_program </ >"$scratch/wrote" 2>"$scratch/said" || ended=$?
unread / "$ended"
echo "standard input empty and endless: refused 2; closed and a folder: an error, and nothing written"

echo "the tools' tests with the program:"
OTZARVIM=$scratch/run/program python3 -m unittest discover -s "$root/tools"
echo "seed $seed: the program stands, $(($(date +%s) - began)) s"
