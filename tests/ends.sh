#!/bin/sh
# Runs the program `trials`, as long.sh does, on batches that end in a call which is none: past a limit,
# of an unknown letter, cut short anywhere, or with bytes left over. Each must get the lines before it,
# the line `? ` and its letter's byte, and nothing more.
#
#   tests/ends.sh
#
# Exit status 1 where a line differs; those batches, the lines expected and those written are then left
# in target/ends.
set -eu
. "$(dirname "$0")/common.sh"

[ $# -eq 0 ] || die "usage: ends.sh"
copy_program trials "${TRIALS-}"

build
ends=$scratch/ends
mkdir "$ends"
"$independent" ends "$ends"
differing=0
for input in "$ends"/*.stdin; do
    batch=${input%.stdin}
    ended=0
    run_program <"$input" >"$batch.wrote" || ended=$?
    if [ "$ended" -ne 0 ] || ! cmp -s "$batch.stdout" "$batch.wrote"; then
        differing=$((differing + 1))
        mkdir -p "$root/target/ends"
        cp "$input" "$batch.stdout" "$batch.wrote" "$root/target/ends/"
    fi
done
if [ "$differing" -eq 0 ]; then
    echo "every batch ends as expected"
    exit 0
fi
echo "$differing batches DIFFER or the program failed on them; see target/ends"
exit 1
