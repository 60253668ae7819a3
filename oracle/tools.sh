# Sourced by the scripts that prove, and by those that build Rust: finds or installs what a build
# needs, says how to build and run x86-64 programs on this machine.
need() { # a program, and the packages that bring it
    command -v "$1" >/dev/null 2>&1 || { shift && install "$@"; }
}
install() {
    [ -n "${updated:-}" ] || apt-get update >&2
    updated=yes
    DEBIAN_FRONTEND=noninteractive apt-get install -y --no-install-recommends "$@" >&2
}
# Has rt prove and build: a line a crate on a terminal, all that the prover says in target/NAME.log.
prove() { # the repository, rt's verb, NAME
    mkdir -p "$1/target"
    log=$1/target/$3.log
    progress=/dev/null
    [ ! -t 2 ] || { progress=/dev/stderr && echo "$3: proving it, crate by crate, this once" >&2; }
    { (cd "$1/crates/$3" && rt "$2") </dev/null 2>&1 || echo "$3: not proved"; } | tee "$log" |
        sed -nu 's/^crate \([a-z_]*\): .*/  \1/p' >"$progress"
    [ "$(tail -n 1 "$log")" != "$3: not proved" ] || { tail -n 20 "$log" >&2 && return 1; }
}
# Proves and builds the archive, under the name that its users know.
build_archive() { # the repository
    prove "$1" lib panel_routes_c
    mkdir -p "$1/target/staticlib"
    cp "$1/crates/panel_routes_c/out/libpanel_routes_c.a" "$1/target/staticlib/libpanel_routes.a"
}
# The archive that a Rust program links: proved and built, unless PANEL_ROUTES_LIB names one.
archive() { # the repository
    [ -n "${PANEL_ROUTES_LIB:-}" ] || build_archive "$1"
    PANEL_ROUTES_LIB=$(realpath "${PANEL_ROUTES_LIB:-$1/target/staticlib/libpanel_routes.a}")
    export PANEL_ROUTES_LIB
}

# Tells cargo to build x86-64 programs and how to run them. The archive is x86-64 code: on
# another machine everything is, and an emulator runs it.
machine() {
    need cargo cargo-web
    need gcc gcc libc6-dev
    if [ "$(uname -m)" = x86_64 ]; then
        need rustc rustc-web
        return
    fi
    if ! command -v x86_64-linux-gnu-gcc >/dev/null || ! command -v qemu-x86_64 >/dev/null ||
        [ ! -x /usr/bin/rustc ] || [ ! -d /usr/lib/rustlib/x86_64-unknown-linux-gnu ]; then
        dpkg --add-architecture amd64
        updated=
        install rustc-web libstd-rust-web-dev libstd-rust-web-dev:amd64 gcc-x86-64-linux-gnu libc6-dev:amd64 qemu-user
    fi
    export RUSTC=/usr/bin/rustc RUSTDOC=/usr/bin/rustdoc
    export CARGO_BUILD_TARGET=x86_64-unknown-linux-gnu
    export CARGO_TARGET_X86_64_UNKNOWN_LINUX_GNU_LINKER=x86_64-linux-gnu-gcc
    export CARGO_TARGET_X86_64_UNKNOWN_LINUX_GNU_RUSTFLAGS="-C target-feature=+crt-static -C relocation-model=static"
    export CARGO_TARGET_X86_64_UNKNOWN_LINUX_GNU_RUSTDOCFLAGS="$CARGO_TARGET_X86_64_UNKNOWN_LINUX_GNU_RUSTFLAGS"
    export CARGO_TARGET_X86_64_UNKNOWN_LINUX_GNU_RUNNER=qemu-x86_64
    export ORACLE_RUNNER=qemu-x86_64
}

# For the oracle and what builds on it: sets `build` (a command) and `built` (where its program lies).
prepare() { # $1: target folder
    for crate in serde serde_derive serde_json; do
        ls -d /usr/share/cargo/registry/"$crate"-[0-9]* >/dev/null 2>&1 ||
            install librust-serde-dev librust-serde-derive-dev librust-serde-json-dev
    done
    machine
    export CARGO_TARGET_DIR=$1
    # Debian may have put other versions of the crates here than at the last build.
    [ ! -f Cargo.lock ] || cargo metadata --offline --locked --format-version 1 >/dev/null 2>&1 || rm -f Cargo.lock
    build="cargo build --offline --release"
    built=$1/${CARGO_BUILD_TARGET:+$CARGO_BUILD_TARGET/}release
}
