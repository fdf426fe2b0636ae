#!/bin/sh
# Makes the gate's batch anew and compares it with the one that is stored as the standard input of
# the program `trials`, with the expected lines as its standard output.
#
#   tests/regenerate.sh            exit status 1 where a stored file differs
#   tests/regenerate.sh --write    stores both files
set -eu
. "$(dirname "$0")/common.sh"

seed=1
calls=16000

[ $# -eq 0 ] || [ "$*" = --write ] || die "usage: regenerate.sh [--write]"
store=$root/crates/trials

build
"$independent" self-test
"$independent" make "$seed" "$calls" "$scratch/stdin" "$scratch/stdout" "$letters"
if [ $# -eq 1 ]; then
    [ -d "$store" ] || die "there is no crate trials"
    cp "$scratch/stdin" "$scratch/stdout" "$store/"
    echo "stored in crates/trials"
    exit 0
fi

status=0
for file in stdin stdout; do
    if ! cmp "$scratch/$file" "$store/$file"; then
        echo "regenerate.sh: crates/trials/$file is not what seed $seed makes" >&2
        status=1
    fi
done
[ "$status" -ne 0 ] || echo "the stored batch is what seed $seed makes"
exit "$status"
