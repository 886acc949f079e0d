# Sourced by scripts, and by hand before cargo: what cargo needs on Arm to build for x86-64, as the
# archive is, and to run what it built. On x86-64 it does nothing. host/setup installs the tools.
if [ "$(uname -m)" = aarch64 ]; then
    export RUSTC=/usr/bin/rustc # Debian's: the one that has the standard library for x86-64
    export CARGO_BUILD_TARGET=x86_64-unknown-linux-gnu
    export CARGO_TARGET_X86_64_UNKNOWN_LINUX_GNU_LINKER=x86_64-linux-gnu-gcc
    export CARGO_TARGET_X86_64_UNKNOWN_LINUX_GNU_RUNNER=qemu-x86_64-static
    unset QEMU_LD_PREFIX # with a prefix the emulator crashes
fi
