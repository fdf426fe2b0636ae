# Shared by the scripts beside it, which read it with `.`: where things stand, how the independent
# program is built, and how `trials` and `otzarvim` are run.

here=$(cd "$(dirname "$0")" && pwd -P)
root=$(dirname "$here")

# The calls that `trials` knows.
letters=GMFTRVSCWN

die() {
    printf '%s: %s\n' "$(basename "$0")" "$*" >&2
    exit 2
}

# A folder of the script's own, removed when it ends.
scratch=$(mktemp -d) || die "no temporary folder"
trap 'rm -rf "$scratch"' EXIT
trap 'exit 2' HUP INT TERM

build() {
    command -v rustc >/dev/null || die "rustc is not on the path"
    rustc --edition 2021 -O -D warnings -o "$scratch/independent" "$here/independent/main.rs" ||
        die "the independent program does not build"
    independent=$scratch/independent
}

# copy_program NAME [FILE]: copies a program out of the repository: crates/NAME/out/NAME, as `rt run` in
# crates/NAME leaves it, or the file that is given.
copy_program() {
    program=${2:-$root/crates/$1/out/$1}
    [ -f "$program" ] || die "there is no $program: build it with rt run </dev/null in crates/$1"
    mkdir "$scratch/run"
    cp "$program" "$scratch/run/program"
    chmod 711 "$scratch"
    chmod 755 "$scratch/run" "$scratch/run/program"
    drop=''
    if [ "$(id -u)" = 0 ]; then
        drop='setpriv --reuid=65534 --regid=65534 --clear-groups --no-new-privs'
    fi
    limit=''
}

# Runs the copy as rt runs programs, as nobody where the caller is root; its input and output are the
# caller's. Where `limit` is set, for so many seconds at most.
run_program() {
    (
        cd "$scratch/run" || exit
        # shellcheck disable=SC2086
        exec $drop ${limit:+timeout "$limit"} ./program
    )
}
