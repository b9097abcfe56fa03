# shellcheck shell=bash
# Finds, and where it is missing installs, what builds and runs x86-64 programs of C and Rust. Sourced, from the root of the project.
#
# Afterwards: CC compiles C for x86-64, `cargo_x86 ...` runs cargo for x86-64, and `run_x86 PROGRAM ...` runs what they built.

triple=x86_64-unknown-linux-gnu
archive=target/staticlib/libboard.a

fail() {
    echo "$*" >&2
    exit 1
}

# The archive of the proved library, from Rattle's toolchain if it is not there.
need_archive() {
    [ -f "$archive" ] && return
    command -v rt >/dev/null || fail "$archive is missing, and so is the command rt: \`./archive\` makes it with Rattle's toolchain."
    ./archive
    [ -f "$archive" ] || fail "\`./archive\` ended without $archive."
}

# Whether a rustc starts and has the standard library for x86-64.
has_std() {
    local folder
    folder=$("$1" --print target-libdir --target "$triple" 2>/dev/null) && compgen -G "$folder/libstd-*.rlib" >/dev/null
}

# Sets rust_bin to the folder of the first cargo and rustc that build for x86-64, /usr/bin after those of the PATH.
find_rust() {
    local cargo
    rust_bin=
    for cargo in "$(command -v cargo || true)" /usr/bin/cargo; do
        if [ -x "$cargo" ] && has_std "$(dirname "$cargo")/rustc"; then
            rust_bin=$(dirname "$cargo")
            return
        fi
    done
    return 1
}

# Whether a C compiler makes programs that link: the header files and the C library are packages of their own.
links_c() {
    echo '#include <stdio.h>
int main(void) { return puts("") < 0; }' | "$1" -x c -o /dev/null - 2>/dev/null
}

# Installs Debian's packages, or says that they are missing.
install() {
    local log
    if ! command -v apt-get >/dev/null || [ "$(id -u)" != 0 ]; then
        fail "Missing: Debian's packages $*. This is not root on a machine with apt-get, so nothing was installed."
    fi
    echo "Installing Debian's packages: $*" >&2
    log=$(mktemp)
    if ! apt_install "$@" >"$log" 2>&1; then
        tail -n 20 "$log" >&2
        rm -f "$log"
        fail "apt-get could not install them."
    fi
    rm -f "$log"
}

apt_install() {
    export DEBIAN_FRONTEND=noninteractive
    case "$*" in *:amd64*) dpkg --add-architecture amd64 || return ;; esac
    apt-get update -q && apt-get install -y -q --no-install-recommends -o DPkg::Lock::Timeout=600 "$@"
}

# On an x86-64 machine: what is there, without an emulator.
tools_here() {
    local missing=()
    CC=${CC:-cc}
    emulator=()
    find_rust || missing+=(cargo rustc)
    links_c "$CC" || missing+=(gcc libc6-dev)
    [ ${#missing[@]} = 0 ] && return
    install "${missing[@]}"
    links_c "$CC" || CC=gcc
}

# On any other machine: Debian's cross compiler, a Rust with the x86-64 library, and an emulator. What is emulated runs with the C library of libc6:amd64,
# which Rust's x86-64 library brings along, and not with the cross compiler's: a program that was given the loader of the one and the library of the other
# does not start.
tools_across() {
    local missing=()
    CC=x86_64-linux-gnu-gcc
    emulator=(qemu-x86_64)
    find_rust || missing+=(cargo rustc libstd-rust-dev:amd64)
    links_c "$CC" || missing+=(gcc-x86-64-linux-gnu libc6-dev-amd64-cross)
    command -v "${emulator[0]}" >/dev/null || missing+=(qemu-user)
    [ -e /lib64/ld-linux-x86-64.so.2 ] || missing+=(libc6:amd64)
    [ ${#missing[@]} = 0 ] || install "${missing[@]}"
}

need_tools() {
    case $(uname -m) in
    x86_64) tools_here ;;
    *) tools_across ;;
    esac
    [ -n "$rust_bin" ] || find_rust || fail "No cargo with a rustc that builds for $triple was found."
    links_c "$CC" || fail "$CC does not link C programs."
}

cargo_x86() {
    local command=$1 settings
    shift
    settings=(RUSTC="$rust_bin/rustc" RUSTDOC="$rust_bin/rustdoc" CARGO_TARGET_X86_64_UNKNOWN_LINUX_GNU_LINKER="$CC")
    # cargo takes no empty runner.
    [ ${#emulator[@]} = 0 ] || settings+=(CARGO_TARGET_X86_64_UNKNOWN_LINUX_GNU_RUNNER="${emulator[*]}")
    env "${settings[@]}" "$rust_bin/cargo" "$command" --manifest-path rust/Cargo.toml --target "$triple" --locked --offline "$@"
}

run_x86() {
    "${emulator[@]}" "$@"
}
