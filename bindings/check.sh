#!/usr/bin/env bash
# Proves and builds the library for C and Rust (target/lib/libotzarvim.a), builds the examples and the Rust crate over it, runs
# them and the doc tests of the crate, and compares what they write with what stands beside them. With --unproved the library is compiled
# from the same sources with no proof and with checks, for the gate, which proves them too. See bindings/README.md.
set -euo pipefail
root=$(cd "$(dirname "$0")/.." && pwd -P)
. "$root/bindings/common.sh"
. "$root/bindings/module.sh"
. "$root/bindings/unproved.sh"

out=$target/bindings
rm -rf "$out"
mkdir -p "$out"

c_tools
case "$*" in
'')
    archive
    lib=$target/lib
    say "target/lib/libotzarvim.a proved and compiled"
    ;;
--unproved)
    lib=$out/unproved
    unproved "$lib"
    say "target/bindings/unproved/libotzarvim.a compiled with checks, and not proved"
    ;;
*) die "usage: bindings/check.sh [--unproved]" ;;
esac

# The header alone, as C of two ages and, where there is such a compiler, as C++; and the symbols that it promises.
for std in c99 c17; do
    echo '#include "otzarvim.h"' | $gcc -std=$std -Wall -Wextra -Wpedantic -Werror -I"$root/include" -x c -c -o "$out/header.o" - || die "the header is not $std"
done
if command -v g++ >/dev/null; then
    echo '#include "otzarvim.h"' | g++ -std=c++11 -Wall -Wextra -Wpedantic -Werror -I"$root/include" -x c++ -fsyntax-only - || die "the header is not C++"
fi
promised=$(grep -o '^uint8_t otzarvim_[a-z_]*' "$root/include/otzarvim.h" | cut -d' ' -f2 | sort)
exported=$("$nm" "$lib/libotzarvim.a" 2>/dev/null | sed -n 's/.* T \(.*\)/\1/p' | sort)
[ "$promised" = "$exported" ] || die "the header and the archive differ: $(printf '%s\n' "$promised" "$exported" | sort | uniq -u | tr '\n' ' ')"
say "the header declares what the archive exports:" $(echo "$exported" | wc -l) "functions"

compare() { # NAME WROTE EXPECTED
    diff -u "$3" "$2" || die "$1 wrote something else"
    say "$1 ran, and wrote what it should"
}

# The examples in C, and the order of every parameter, which no contract fixes.
for source in examples/c/tour examples/c/life bindings/order; do
    name=$(basename "$source")
    $gcc -std=c99 -O2 -Wall -Wextra -Wpedantic -Werror -I"$root/include" "$root/$source.c" -L"$lib" -lotzarvim -o "$out/$name-c" ||
        die "$source.c does not build"
    $run "$out/$name-c" >"$out/$name-c.txt" || die "$source.c ended badly"
    compare "$source.c" "$out/$name-c.txt" "$root/$source.txt"
done

if ! rust_tools; then
    [ "$machine" != x86_64 ] || die "rustc is not on the path"
    die "no Rust library for x86-64: neither rustup (rustup target add $triple) nor Debian's packages could be had"
fi
$rustc -O -D warnings -D missing_docs --crate-type rlib --crate-name otzarvim "$root/bindings/rust/src/lib.rs" -L native="$lib" -o "$out/libotzarvim.rlib" ||
    die "bindings/rust does not build"
for name in tour life; do
    $rustc -O -D warnings "$root/examples/rust/$name.rs" --extern otzarvim="$out/libotzarvim.rlib" -L native="$lib" -o "$out/$name-rust" ||
        die "examples/rust/$name.rs does not build"
    $run_rust "$out/$name-rust" >"$out/$name-rust.txt" || die "examples/rust/$name.rs ended badly"
    compare "examples/rust/$name.rs" "$out/$name-rust.txt" "$root/examples/rust/$name.txt"
done

words=
for word in $run_rust; do
    if [ -z "$words" ]; then words="--test-runtool $word"; else words="$words --test-runtool-arg $word"; fi
done
# shellcheck disable=SC2086
$rustdoc --test --crate-name otzarvim "$root/bindings/rust/src/lib.rs" --extern otzarvim="$out/libotzarvim.rlib" -L native="$lib" $words >"$out/doc-tests.txt" 2>&1 ||
    { cat "$out/doc-tests.txt"; die "a doc test failed"; }
say "$(sed -n 's/^test result: ok\. \([0-9]* passed\).*/doc tests of bindings\/rust: \1/p' "$out/doc-tests.txt")"
say "ok (programs for x86-64, run $emulated)"
