# Shared by bindings/check.sh and bench/run.sh, which read it with `.`: how programs for x86-64 Linux are
# built and run on this machine. On x86-64 they are built by the machine's own compilers and run as they are.
# Elsewhere they are built by Debian's cross compiler and run under the emulator of a Rattle kit that has one; for Rust,
# which wants a library for x86-64 that rustup may be unable to fetch, Debian's compiler is unpacked,
# and programs with Rust's own `main` run under Debian's emulator, unpacked there too: the kit's
# emulator cannot read /proc/self/maps, which such a program does when it starts.

say() { printf '%s: %s\n' "$(basename "$0" .sh)" "$*"; }
die() {
    printf '%s: %s\n' "$(basename "$0" .sh)" "$*" >&2
    exit 2
}

target=$root/target
# Where Debian's packages are unpacked: outside the checkout, in which rt ci refuses links, as packages have them.
unpacked=${XDG_CACHE_HOME:-${HOME:-/tmp}/.cache}/otzarvim
machine=$(uname -m)
kit=$(dirname "$(rt doc)")
tools=$kit/toolchain
triple=x86_64-unknown-linux-gnu

# Runs a command as root: the installation of a Debian package.
as_root() { if [ "$(id -u)" = 0 ]; then "$@"; else sudo "$@"; fi; }

# Installs Debian's packages, and does so where a command is missing.
installed() { # COMMAND PACKAGE..
    command -v "$1" >/dev/null || install_packages "${@:2}"
}
install_packages() { # PACKAGE..
    say "installing $*"
    as_root apt-get install -y -qq --no-install-recommends "$@" >/dev/null 2>&1 ||
        { as_root apt-get update -qq >/dev/null && as_root apt-get install -y -qq --no-install-recommends "$@" >/dev/null; } ||
        die "apt-get install $* failed"
}

# Sets `gcc`, `nm` and `run`: a command for x86-64 each; and `emulated`: how programs run.
c_tools() {
    if [ "$machine" = x86_64 ]; then
        gcc=gcc
        nm=nm
        run=
        emulated="as they are"
        installed gcc gcc libc6-dev
        return
    fi
    gcc=x86_64-linux-gnu-gcc
    installed $gcc gcc-x86-64-linux-gnu libc6-dev-amd64-cross
    nm=x86_64-linux-gnu-nm
    sysroot=/usr/x86_64-linux-gnu
    [ -x "$tools/bin/qemu-x86_64" ] || die "the kit has no emulator at $tools/bin/qemu-x86_64"
    run="$tools/bin/qemu-x86_64 -L $sysroot"
    emulated="under $("$tools/bin/qemu-x86_64" --version | sed -n '1s/ *(.*//p')"
}

# Sets `rustc`, `rustdoc` (for x86-64) and `run_rust`; fails where there is no way.
rust_tools() {
    if [ "$machine" = x86_64 ]; then
        installed rustc rustc
        rustc="rustc --edition 2021"
        rustdoc="rustdoc --edition 2021"
        run_rust=
        return
    fi
    run_rust="$run"
    if [ -d "$(rustc --print sysroot 2>/dev/null)/lib/rustlib/$triple" ]; then
        rustc="rustc"
        rustdoc="rustdoc"
    else
        unpack_rust || return 1
        libraries=$(dirname "$(find "$unpacked/root/usr/lib" -name 'librustc_driver-*.so' | head -n 1)")
        rustc="env LD_LIBRARY_PATH=$libraries $unpacked/root/usr/bin/rustc --sysroot $unpacked/root/usr"
        rustdoc="env LD_LIBRARY_PATH=$libraries $unpacked/root/usr/bin/rustdoc --sysroot $unpacked/root/usr"
    fi
    unpack qemu-user-static || return 1
    run_rust="$unpacked/root/usr/bin/qemu-x86_64-static -L $sysroot"
    rustc="$rustc --edition 2021 --target $triple -C linker=$gcc"
    rustdoc="$rustdoc --edition 2021 --target $triple -C linker=$gcc"
}

# apt-get and apt-cache over lists of packages of their own, so that nothing of the system changes.
apt() { # get|cache WORDS
    local tool=$1
    shift
    "apt-$tool" -qq -o APT::Architecture="$(dpkg --print-architecture)" -o APT::Architectures="$(dpkg --print-architecture),amd64" \
        -o Dir::State="$unpacked/apt" -o Dir::State::status=/dev/null -o Dir::Cache="$unpacked/apt/cache" \
        -o APT::Sandbox::User="$(id -un)" "$@"
}

# Unpacks packages below $unpacked/root, each once.
unpack() { # PACKAGE..
    local p
    mkdir -p "$unpacked/deb" "$unpacked/root" "$unpacked/done"
    for p in "$@"; do
        [ ! -e "$unpacked/done/$p" ] || continue
        if [ ! -d "$unpacked/apt/lists" ]; then
            mkdir -p "$unpacked/apt/lists/partial" "$unpacked/apt/cache/archives/partial"
            apt get update >/dev/null 2>&1 || { rm -rf "$unpacked/apt"; return 1; }
        fi
        say "unpacking $p below $unpacked"
        rm -f "$unpacked"/deb/*.deb
        (cd "$unpacked/deb" && apt get download "$p" >/dev/null) && dpkg -x "$unpacked"/deb/*.deb "$unpacked/root" && touch "$unpacked/done/$p" || return 1
        rm -f "$unpacked"/deb/*.deb
    done
}

depended() { apt cache depends "$1" | sed -n "s/^ *Depends: \($2.*\)/\1/p"; } # PACKAGE START

unpack_rust() {
    command -v apt-get >/dev/null && command -v dpkg >/dev/null || return 1
    unpack rustc-web libstd-rust-web-dev libstd-rust-web-dev:amd64 || return 1
    driver=$(depended libstd-rust-web-dev libstd-rust-web)
    unpack "$driver" || return 1
    unpack "$(depended "$driver" libllvm)"
}

# The words by which rt makes the archive: for every x86-64 processor, since an archive, other than a program, does not look at what it runs on.
archive_words="lib --cpu x86-64"

# The archive for C and Rust, proved and compiled: target/lib/libotzarvim.a. What it stands on is proved before, one crate after another.
archive() {
    mkdir -p "$target/lib"
    # shellcheck disable=SC2086
    (cd "$root/crates/export" && rt $archive_words) >"$target/lib/log" 2>&1 ||
        { cat "$target/lib/log"; die "the library is not proved"; }
    cp "$root/crates/export/out/libexport.a" "$target/lib/libotzarvim.a"
}
