# Sourced by scripts that compile against libsaltorchard.a, which is for x86-64 Linux alone. It exports
#   SALTORCHARD_CC      a C compiler for x86-64
#   SALTORCHARD_CARGO   a cargo that builds for x86-64
#   SALTORCHARD_RUN     what runs an x86-64 program: nothing, or an emulator
# On another processor it takes Debian's cross tools and emulator, installs them where it may, and says so. Where a tool is
# missing it says which, and fails.

saltorchard_missing() { # NAME..: the commands among them that aren't here
    local name
    for name in "$@"; do
        command -v "$name" >/dev/null 2>&1 || printf '%s ' "$name"
    done
}

saltorchard_native() {
    local missing
    missing=$(saltorchard_missing gcc cargo)
    if [ -n "$missing" ]; then
        echo "missing: ${missing% }. The C and Rust programs need gcc and cargo." >&2
        return 1
    fi
    export SALTORCHARD_CC=gcc SALTORCHARD_CARGO=cargo SALTORCHARD_RUN=
}

saltorchard_cross_here() { # the commands, and the x86-64 C and Rust libraries
    [ -z "$(saltorchard_missing x86_64-linux-gnu-gcc qemu-x86_64 /usr/bin/cargo /usr/bin/rustc)" ] &&
        [ -e /lib64/ld-linux-x86-64.so.2 ] &&
        [ -e /usr/x86_64-linux-gnu/include/stdio.h ] &&
        [ -d "$(/usr/bin/rustc --print sysroot)/lib/rustlib/x86_64-unknown-linux-gnu/lib" ]
}

saltorchard_install() { # PACKAGE..
    if [ "$(id -u)" != 0 ] || [ -n "$(saltorchard_missing apt-get dpkg)" ]; then
        echo "the archive is for x86-64 and this is $(uname -m): Debian's packages $* are needed, with amd64 as a second architecture." >&2
        return 1
    fi
    echo "installing, to build and run x86-64 programs on $(uname -m): $*" >&2
    dpkg --add-architecture amd64 >&2 && apt-get update >&2 &&
        DEBIAN_FRONTEND=noninteractive apt-get install -y "$@" >&2
}

saltorchard_cross() {
    if ! saltorchard_cross_here; then
        saltorchard_install gcc-x86-64-linux-gnu libc6-dev-amd64-cross qemu-user cargo rustc libstd-rust-dev:amd64 || return 1
        if ! saltorchard_cross_here; then
            echo "the x86-64 tools were installed and are still not all here." >&2
            return 1
        fi
    fi
    export SALTORCHARD_CC=x86_64-linux-gnu-gcc SALTORCHARD_CARGO=/usr/bin/cargo
    # No -L: the emulator then finds the x86-64 C library where Debian puts it, and mixes it with no other.
    export SALTORCHARD_RUN=qemu-x86_64
    # cargo and the compiler must be Debian's both: only its libstd is here for x86-64.
    export RUSTC=/usr/bin/rustc RUSTDOC=/usr/bin/rustdoc
    export CARGO_BUILD_TARGET=x86_64-unknown-linux-gnu
    export CARGO_TARGET_X86_64_UNKNOWN_LINUX_GNU_LINKER=$SALTORCHARD_CC
    export CARGO_TARGET_X86_64_UNKNOWN_LINUX_GNU_RUNNER=$SALTORCHARD_RUN
}

if [ "$(uname -s)" != Linux ]; then
    echo "the archive is for x86-64 Linux, and this is $(uname -s)." >&2
    return 1
elif [ "$(uname -m)" = x86_64 ]; then
    saltorchard_native || return 1
else
    saltorchard_cross || return 1
fi
