# Sourced by the scripts that build programs for an Arm and run them: arm_tools and target_tools. Each word of arm_tools is COMMAND=PACKAGE, a command that is
# needed and Debian's package with it; without words a compiler and an emulated board for a bare Cortex-M. What is missing is installed where it may be (root,
# Debian's packages); otherwise the packages are named and the script fails.
arm_tools() {
    test $# -gt 0 || set -- arm-none-eabi-gcc=gcc-arm-none-eabi qemu-system-arm=qemu-system-arm
    arm_packages=$(arm_missing "$@")
    test -n "$arm_packages" || return 0
    if test "$(id -u)" = 0 && command -v apt-get >/dev/null; then
        apt-get update -qq >/dev/null || true
        # Unquoted: one word for each package.
        DEBIAN_FRONTEND=noninteractive apt-get install -qq --no-install-recommends $arm_packages >/dev/null || true
        arm_packages=$(arm_missing "$@")
    fi
    test -z "$arm_packages" || { echo "needed, as Debian's packages: $arm_packages" >&2; exit 1; }
}

# Prints the packages whose command is not there.
arm_missing() {
    for arm_tool in "$@"; do
        command -v "${arm_tool%%=*}" >/dev/null || printf '%s ' "${arm_tool#*=}"
    done
}

# Everything that programs for the processors of targets/table need. gcc64 is the compiler for AArch64, on such a host its own.
if test "$(uname -m)" = aarch64; then gcc64=gcc gcc64_package=gcc; else gcc64=aarch64-linux-gnu-gcc gcc64_package=gcc-aarch64-linux-gnu; fi
target_tools() {
    arm_tools arm-none-eabi-gcc=gcc-arm-none-eabi qemu-system-arm=qemu-system-arm qemu-system-aarch64=qemu-system-arm \
        qemu-arm=qemu-user qemu-armeb=qemu-user qemu-aarch64=qemu-user "$gcc64=$gcc64_package"
}
