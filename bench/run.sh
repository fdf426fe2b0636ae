#!/usr/bin/env bash
# Measures the library (a) beside plain C (b), plain Rust (c), C that decodes first (d), plain C that skips as the library does (e), and
# plain C and Rust that check as it does (f, g), on the same inputs in one run, compares all answers, and writes bench/RESULTS.md and its pictures. Words: how many seconds a turn takes, how many turns (the least counts),
# and a part of a workload's name to run only that (then RESULTS.md stays). See bench/README.md.
set -euo pipefail
root=$(cd "$(dirname "$0")/.." && pwd -P)
. "$root/bindings/common.sh"
. "$root/bindings/module.sh"

out=$target/bench
mkdir -p "$out"
c_tools
rust_tools || die "no Rust compiler for x86-64"

# The Rattle library and the program; elsewhere than on x86-64 also the same LLVM modules for this machine.
here() { # NAME CRATE RT-WORDS
    caught "$out" "$@"
    "$kit_clang" --target="$machine-unknown-linux-gnu" -Wno-override-module -O3 -fPIC -c -x ir "$out/$1.ll" -o "$out/$1-here.o"
}

archive
if [ "$machine" != x86_64 ]; then
    # shellcheck disable=SC2086
    here library export $archive_words
    here program otzarvim run
else
    (cd "$root/crates/otzarvim" && rt run </dev/null) >"$out/log" 2>&1 || { cat "$out/log"; die "the program is not proved"; }
fi
program=$root/crates/otzarvim/out/otzarvim

# Compiles a plain version by gcc and by clang, whose object and prefix have the other name. Functions start at multiples of 64 bytes: else
# what is linked before them moves them, and by that alone verdicts in plain Rust took up to 1.5 times as long on an Arm core.
both() { # FOLDER GCC TRIPLE FILE OBJECT PREFIX MORE..
    local folder=$1 compiler=$2 for=$3 file=$4 object=$5 prefix=$6
    shift 6
    set -- -std=gnu17 -O3 -falign-functions=64 -Wall -Wextra -Werror "$@" -c "$root/bench/$file.c"
    $compiler "$@" -DP="$prefix" -o "$folder/$object.o"
    "$kit_clang" --target="$for" "$@" -DP="${prefix/gcc/clang}" -o "$folder/${object/gcc/clang}.o"
}

# Builds the harness and the plain programs: where they run, their compilers, and the library.
build() { # NAME GCC TRIPLE RUSTC LIBRARY
    local dir=$out/$1 version
    mkdir -p "$dir"
    both "$dir" "$2" "$3" plain gcc_ gcc_
    both "$dir" "$2" "$3" decoded dgcc_ dgcc_
    both "$dir" "$2" "$3" plain sgcc_ sgcc_ -DSKIPPING
    both "$dir" "$2" "$3" search search-gcc gcc_
    both "$dir" "$2" "$3" claim claim-gcc gcc_
    $4 -C opt-level=3 -C panic=abort -C relocation-model=pic -C llvm-args=-align-all-functions=6 --crate-type lib --emit obj "$root/bench/plain.rs" -o "$dir/rust_.o"
    $2 -std=gnu17 -O2 -Wall -Wextra -Werror -I"$root/include" "$root/bench/harness.c" "$dir"/*_.o "$5" -o "$dir/harness"
    $2 -std=gnu17 -O2 -Wall -Wextra -Werror -I"$root/include" "$root/bench/searches.c" "$dir"/search-{gcc,clang}.o "$5" -o "$dir/searches"
    $2 -std=gnu17 -O2 -Wall -Wextra -Werror -I"$root/include" "$root/bench/claims.c" "$dir"/claim-{gcc,clang}.o "$dir"/{gcc,clang}_.o "$5" -o "$dir/claims"
    for version in gcc_ clang_ rust_ dgcc_ dclang_; do
        $2 -std=gnu17 -O3 -Wall -Wextra -Werror -DP=$version "$root/bench/program.c" "$dir/$version.o" -o "$dir/program-$version"
    done
}

# Measures the searches: seconds a turn, turns, a part of a name, and the words that run it.
searches() { # TURN TURNS ONLY RUN-WORDS
    local turn=$1 turns=$2 only=$3
    shift 3
    printf '\nThe search from one node, beside the same algorithm in C with allocated arrays (b), and beside the rounds of the library:\n\n'
    "$@" "$turn" "$turns" "$only"
}

# Measures the checker and the writer of claims; the words are the same.
claims() { # TURN TURNS ONLY RUN-WORDS
    local turn=$1 turns=$2 only=$3
    shift 3
    printf '\nClaims: the checker beside the same in C, which checks no graph (b), and beside the rounds of the library; and the writer:\n\n'
    "$@" "$turn" "$turns" "$only"
}

# Measures the programs: how many turns, where, the program (a), and the words that run it.
programs() { # TURNS ONLY NAME PROGRAM RUN-WORDS
    local turns=$1 only=$2 dir=$out/$3 program=$4
    shift 4
    "$out/start" "$turns" "$only" "$dir" "$out/life" "$@" -- "$program" "$dir"/program-{gcc_,clang_,rust_,dgcc_,dclang_}
}

build x86_64 "$gcc" x86_64-unknown-linux-gnu "$rustc" "$target/lib/libotzarvim.a"
if [ "$machine" != x86_64 ]; then
    build here gcc "$machine-unknown-linux-gnu" "rustc --edition 2021" "$out/library-here.o"
    gcc "$out/program-here.o" -o "$out/here/otzarvim"
fi
gcc -std=gnu17 -O2 -Wall -Wextra -Werror "$root/bench/start.c" -o "$out/start"
"$root/tools/otz" compile "$root/examples/formula_life.otz" 'A[true U<=42 interpreted]' -o "$out/life"

$gcc -std=gnu17 -O2 -Wall -Wextra -Werror -I"$root/include" "$root/bench/stack.c" "$target/lib/libotzarvim.a" -o "$out/stack"

# What runs x86-64 code: the word `itself` or `emulator`, and the processor's name as that code sees it. An emulator takes ten times as long.
$gcc -std=gnu17 -O2 -Wall -Wextra -Werror "$root/bench/where.c" -o "$out/where"
where=$($run "$out/where")
if [ "${where%% *}" = itself ]; then
    turn=0.01 turns=21
    ran="on this processor itself, without an emulator"
    heading="x86-64, without an emulator: ${where#* }"
else
    turn=0.005 turns=2
    emulator=${emulated#under }
    [ "$machine" != x86_64 ] || emulator="one that the system hides"
    ran="under an emulator ($emulator), which calls itself ${where#* }; no x86-64 processor ran it"
    heading="x86-64, under an emulator ($emulator): these times say little about an x86-64 processor"
fi
processor=$(lscpu | sed -n 's/^Model name: *//p' | head -n 1)
report=$out/RESULTS.md
{
    cat <<END
# Measured

Written by \`bench/run.sh\`; bench/README.md says what is measured. Least time of a call, in microseconds; (b), (d), (e) and (f) are the
better of gcc and clang, as named. Growth: how much longer than on half the size. \`bench/picture.py\` drew the pictures from the tables.

![The library's time divided by that of other versions, a row for each workload](ratios.svg)

![How the time grows with the size, for each workload](growth.svg)

- Kit: \`$(rt version)\`
- Processor: $machine, $processor
- x86-64 code ran $ran
- Compilers: $($gcc --version | head -n 1); $("$kit_clang" --version | head -n 1); $($rustc --version), all at -O3
END
    printf '\n## %s\n\n' "$heading"
    $run "$out/x86_64/harness" "${1:-$turn}" "${2:-$turns}" "${3:-}"
    searches "${1:-$turn}" "${2:-$turns}" "${3:-}" $run "$out/x86_64/searches"
    claims "${1:-$turn}" "${2:-$turns}" "${3:-}" $run "$out/x86_64/claims"
    printf '\nPrograms, with their start and end:\n\n'
    # shellcheck disable=SC2086
    programs $((10 * ${2:-$turns})) "${3:-}" x86_64 "$program" $run
    if [ "$machine" != x86_64 ]; then
        printf '\n## %s, without an emulator: the LLVM modules of the library and the program compiled for this machine\n\n' "$machine"
        "$out/here/harness" "${1:-0.01}" "${2:-21}" "${3:-}"
        searches "${1:-0.01}" "${2:-21}" "${3:-}" "$out/here/searches"
        claims "${1:-0.01}" "${2:-21}" "${3:-}" "$out/here/claims"
        printf '\nPrograms, with their start and end:\n\n'
        programs $((40 * ${2:-7})) "${3:-}" here "$out/here/otzarvim"
    fi
    printf '\n## Memory, on x86-64\n\n'
    printf 'No heap: beside its own functions the archive calls %s. What each function touches of the stack, on the inputs that need the most:\n\n' \
        "$("$nm" -u "$target/lib/libotzarvim.a" | sed -n 's/^ *U \(.*\)/`\1`/p' | paste -sd' ' | sed 's/ / and /')"
    $run "$out/stack"
    printf "\n"
    cat "$root/bench/why.md"
} | tee "$report"
[ -n "${3:-}" ] || {
    cp "$report" "$root/bench/RESULTS.md"
    python3 "$root/bench/picture.py" "$root/bench/RESULTS.md" "$root/bench"
}
