#!/bin/sh
# Makes a batch from a seed, runs the program `trials` on it and compares the lines.
#
#   tests/long.sh SEED CALLS [LETTERS]
#
# The program is crates/trials/out/trials, as `rt run` there leaves it, or the file that TRIALS names, and
# runs as rt runs programs. Exit status 1 where a line differs; the batch, the lines expected and those
# written are then left in target/long.
set -eu
. "$(dirname "$0")/common.sh"

[ $# -eq 2 ] || [ $# -eq 3 ] || die "usage: long.sh SEED CALLS [LETTERS]"
copy_program trials "${TRIALS-}"

build
"$independent" make "$1" "$2" "$scratch/stdin" "$scratch/stdout" "${3-$letters}"
began=$(date +%s)
ended=0
run_program <"$scratch/stdin" >"$scratch/wrote" || ended=$?
seconds=$(($(date +%s) - began))
if [ "$ended" -eq 0 ] && cmp -s "$scratch/stdout" "$scratch/wrote"; then
    echo "seed $1: $2 calls, every line as expected, $seconds s"
    exit 0
fi

mkdir -p "$root/target/long"
cp "$scratch/stdin" "$scratch/stdout" "$scratch/wrote" "$root/target/long/"
cp "$independent" "$root/target/long/"
first=$(cmp "$scratch/stdout" "$scratch/wrote" 2>&1 | sed -n 's/.*line \([0-9]*\).*/\1/p')
if [ -n "$first" ]; then
    echo "the first line that differs is $first:"
    echo "  wrote: $(sed -n "${first}p" "$scratch/wrote")"
    "$independent" show "$first" <"$scratch/stdin" | cut -c1-2000 | sed 's/^/  /' || true
fi
echo "seed $1: $2 calls, the lines DIFFER or the program failed (status $ended), $seconds s; see target/long"
exit 1
