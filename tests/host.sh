# Sourced by the scripts that build programs with the archive, run them or look into it: compile_c,
# compile_rust, run and dump. The archive is for x86-64 Linux; on another processor a cross compiler builds and an
# emulator runs, whose name is in $emulator. With HV_NATIVE=1 the archive or the program that is tested is for this host.

target=x86_64-unknown-linux-gnu
packages="gcc-x86-64-linux-gnu libc6-dev:amd64 libc6-dev-amd64-cross rustc-web \
libstd-rust-web-dev:amd64 qemu-user"

# Prints the first rustc that has the target's libraries.
cross_rustc() {
    for compiler in rustc /usr/bin/rustc; do
        libraries=$("$compiler" --print target-libdir --target "$target" 2>/dev/null) || continue
        set -- "$libraries"/libstd-*.rlib
        if test -f "$1"; then
            echo "$compiler"
            return
        fi
    done
    return 1
}

# Whether all is there that another processor needs: to link statically, and to run a program that
# is not so linked.
cross_tools() {
    test -f "$(x86_64-linux-gnu-gcc -print-file-name=libc.a 2>/dev/null)" &&
        cross_rustc >/dev/null && command -v qemu-x86_64 >/dev/null &&
        test -f /lib64/ld-linux-x86-64.so.2
}

install_cross_tools() {
    test "$(id -u)" = 0 && command -v apt-get >/dev/null || return 1
    export DEBIAN_FRONTEND=noninteractive
    dpkg --add-architecture amd64
    apt-get update -qq >/dev/null
    # Unquoted: one word for each package.
    apt-get install -qq --no-install-recommends $packages >/dev/null
}

if test "$(uname -m)" = x86_64 || test -n "${HV_NATIVE:-}"; then
    compile_c() { gcc "$@"; }
    compile_rust() { rustc "$@"; }
    emulator=
    dump() { objdump "$@"; }
else
    cross_tools || { install_cross_tools && cross_tools; } ||
        { echo "needed on this processor, as Debian's packages: $packages" >&2; exit 1; }
    rust_compiler=$(cross_rustc)
    compile_c() { x86_64-linux-gnu-gcc -static "$@"; }
    compile_rust() {
        "$rust_compiler" --target "$target" -C linker=x86_64-linux-gnu-gcc \
            -C target-feature=+crt-static "$@"
    }
    emulator=qemu-x86_64
    dump() { x86_64-linux-gnu-objdump "$@"; }
fi

# Unquoted: no word where there is no emulator.
run() { $emulator "$@"; }
