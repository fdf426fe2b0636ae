# Shared by bench/run.sh, web/build.sh and unproved.sh, which read it with `.` after common.sh: the LLVM modules of proved crates, caught on their
# way to the kit's compiler. A module is the proved code up to the last step, the back end, so it can be compiled for another machine.

# The kit's compiler: the one that compiles the library. It comes without headers.
kit_clang=$tools/bin/clang

# A folder outside the checkout, removed at the end: rt ci refuses links in a checkout, and sources that no crate reads.
room=$(mktemp -d)
trap 'rm -rf "$room"' EXIT

# A kit that is the real one but for its compiler, which also keeps the module that it is to compile: of an archive and of a program, which are
# compiled at -O3, and of what `rt try` compiles with checks. rt goes by where its own file stands, so that is a copy.
mirrored() { # FOLDER
    local f
    rm -rf "$1"
    mkdir -p "$1/bin" "$1/toolchain/bin"
    for f in "$kit"/*; do
        case $(basename "$f") in bin | toolchain) ;; *) ln -s "$f" "$1/" ;; esac
    done
    for f in "$kit"/bin/*; do
        case $(basename "$f") in rt | rt-* | *.py) cp "$f" "$1/bin/" ;; *) ln -s "$f" "$1/bin/" ;; esac
    done
    for f in "$tools"/*; do [ "$(basename "$f")" = bin ] || ln -s "$f" "$1/toolchain/"; done
    # the other tools are links to clang there, which goes by the name that it is called by
    for f in "$tools"/bin/*; do [ "$(basename "$f")" = clang ] || ln -s "$f" "$1/toolchain/bin/"; done
    printf '#!/bin/sh\ncase " $* " in *" -O3 "* | *" -fsanitize=address "*) cp module.bc "%s/module.bc" ;; esac\nexec "%s" "$@"\n' "$1" "$kit_clang" >"$1/toolchain/bin/clang"
    chmod +x "$1/toolchain/bin/clang"
}

# Has rt prove and compile a crate, by `lib` or by `run`, and leaves the module as FOLDER/NAME.ll, without what names a machine.
caught() { # FOLDER NAME CRATE RT-WORDS
    local folder=$1 name=$2 crate=$3
    shift 3
    mkdir -p "$folder"
    mirrored "$room/kit"
    # what the crate stands on is proved by the real kit, which shares its work; and with a stamp a program would not be compiled again
    (cd "$root/crates/$crate" && rt "$@" </dev/null && rm -f "out/$crate.stamp" && "$room/kit/bin/rt" "$@" </dev/null) >"$folder/log" 2>&1 ||
        { cat "$folder/log"; die "$name is not proved"; }
    [ -e "$room/kit/module.bc" ] || die "rt handed no module of $name to its compiler"
    "$kit_clang" --target="$triple" -S -emit-llvm -Xclang -disable-llvm-passes -x ir "$room/kit/module.bc" -o "$folder/$name.ll"
    # (ptrtoaddr gives as many bits as this machine's addresses have; ptrtoint any)
    sed -i -e '/^target triple/d' -e '/^target datalayout/d' -e 's/"target-cpu"="[^"]*"//' -e 's/"probe-stack"="inline-asm"//' -e 's/"stack-probe-size"="[0-9]*"//' \
        -e 's/= ptrtoaddr /= ptrtoint /' "$folder/$name.ll"
}
