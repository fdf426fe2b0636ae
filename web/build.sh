#!/usr/bin/env bash
# Proves the library, compiles it to WebAssembly and puts the whole static site into target/web. See web/README.md.
set -euo pipefail
root=$(cd "$(dirname "$0")/.." && pwd -P)
. "$root/bindings/common.sh"
. "$root/bindings/module.sh"

site=$target/web
work=$target/web-work
most=65536 # bytes of the library

# The functions that the header promises, and nothing else; the stack stands first, so that one that is too deep ends the call.
# shellcheck disable=SC2086
caught "$work" library export $archive_words
"$kit_clang" --target=wasm32-unknown-unknown -Wno-override-module -mbulk-memory -O3 -c -x ir "$work/library.ll" -o "$work/library.o"
ln -sf "$tools/bin/ld.lld" "$room/wasm-ld"
grep -o '^uint8_t otzarvim_[a-z_]*' "$root/include/otzarvim.h" | cut -d' ' -f2 | sort >"$work/functions"
sed 's/^/--export=/' "$work/functions" |
    xargs "$room/wasm-ld" --no-entry --strip-all --stack-first -z stack-size=98304 "$work/library.o" -o "$work/otzarvim.wasm"
size=$(wc -c <"$work/otzarvim.wasm")
[ "$size" -lt "$most" ] || die "otzarvim.wasm has $size bytes: fewer than $most are allowed"

# CodeMirror and dagre, from Debian's packages: as they are installed, or else unpacked outside the checkout.
from_debian() { # PACKAGE FILE FOLDER
    local file=$2
    [ -e "$file" ] || { unpack "$1" && file=$unpacked/root$2; } || die "no $2: Debian's package $1 could not be had"
    cp -L "$file" "$3/"
}

rm -rf "$site"
mkdir -p "$site/elsewhere" "$site/examples"
cp -R "$root/web/site/." "$site/"
cp "$work/otzarvim.wasm" "$site/"
cp "$root"/examples/*.otz "$site/examples/"
from_debian libjs-codemirror /usr/share/javascript/codemirror/lib/codemirror.js "$site/elsewhere"
from_debian libjs-codemirror /usr/share/javascript/codemirror/lib/codemirror.css "$site/elsewhere"
from_debian node-dagre-layout /usr/share/nodejs/dagre/dist/dagre.min.js "$site/elsewhere"
say "target/web/otzarvim.wasm: $size bytes, $(wc -l <"$work/functions") functions, proved up to the last step"
say "the site is in target/web: python3 -m http.server -d target/web"
