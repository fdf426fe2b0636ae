# Read by bindings/check.sh with `.` after common.sh and module.sh: the library from the same sources with no proof, in half a minute, for a gate
# that proves them too. `rt lib` builds only what is proved, and `rt try` compiles programs that are not: so it is given the library with a `main`
# that calls each exported function, and the module that it hands to the kit's compiler is kept. In it the exported functions are plain ones, of
# the same parameters, and each place where a proof is owed has a check, which ends the process where it fails; wrappers.py gives each its C
# function. The crates are copied for that to a folder outside the checkout.

# The archive for C and Rust, compiled and not proved: FOLDER/libotzarvim.a.
unproved() { # FOLDER
    local folder=$1 copy=$room/copy
    mkdir -p "$folder" "$copy/.git"
    mirrored "$room/kit"
    sed 's/^export staticlib:/export:/' "$root/crates.txt" >"$copy/crates.txt"
    (cd "$root" && tar -c --exclude='crates/*/out' crates) | tar -x -C "$copy"
    rm "$copy/crates/export/src/lib.rt"
    { cat "$root/crates/export/src/lib.rt" && python3 "$root/bindings/wrappers.py" main "$root/crates/export/src/lib.rt"; } >"$copy/crates/export/src/main.rt"
    (cd "$copy/crates/export" && "$room/kit/bin/rt" try </dev/null) >"$folder/log" 2>&1 || { cat "$folder/log"; die "the library does not compile"; }
    [ -e "$room/kit/module.bc" ] || die "rt handed no module of the library to its compiler"
    "$kit_clang" --target="$triple" -S -emit-llvm -Xclang -disable-llvm-passes -x ir "$room/kit/module.bc" -o "$folder/module.ll"
    python3 "$root/bindings/wrappers.py" module "$root/crates/export/src/lib.rt" "$folder/module.ll" >"$folder/library.ll" || die "the library has no C functions"
    "$kit_clang" --target="$triple" -march=x86-64 -O3 -fPIC --no-default-config -c -x ir "$folder/library.ll" -o "$folder/otzarvim.o"
    rm -f "$folder/libotzarvim.a"
    "$tools/bin/llvm-ar" rcs "$folder/libotzarvim.a" "$folder/otzarvim.o"
}
