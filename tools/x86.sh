# To be sourced: x86-64 code on any processor. What Rattle compiles is x86-64; elsewhere a cross compiler and the emulator qemu-x86_64 stand in.
root=$(cd "$(dirname "${BASH_SOURCE[0]}")/.." && pwd)
. "$root/tools/need.sh"
emulator=() # what runs an x86-64 program

# x86_tools: installs what is missing
x86_tools() {
    [ "$(uname -m)" != x86_64 ] || return 0
    need x86_64-linux-gnu-gcc gcc-x86-64-linux-gnu libc6-dev-amd64-cross
    need qemu-x86_64 qemu-user
    emulator=(qemu-x86_64)
    QEMU_LD_PREFIX=$(dirname "$(dirname "$(x86_64-linux-gnu-gcc -print-file-name=libc.so.6)")")
    export QEMU_LD_PREFIX # where the emulator finds the x86-64 C library
}

# x86_cargo: from here on cargo builds for x86-64, and runs what it built. The x86-64 standard library of Rust, where rustc has none, is unpacked
# into target/rust-x86.
x86_cargo() {
    x86_tools
    [ "$(uname -m)" != x86_64 ] || return 0
    local target=x86_64-unknown-linux-gnu
    if [ ! -d "$(rustc --print sysroot)/lib/rustlib/$target/lib" ]; then
        [ -x "$root/target/rust-x86/rustc-x86" ] || bash "$root/tools/x86_rust.sh" "$root/target/rust-x86"
        export RUSTC=$root/target/rust-x86/rustc-x86
    fi
    export CARGO_BUILD_TARGET=$target
    export CARGO_TARGET_X86_64_UNKNOWN_LINUX_GNU_LINKER=x86_64-linux-gnu-gcc
    export CARGO_TARGET_X86_64_UNKNOWN_LINUX_GNU_RUNNER=qemu-x86_64
}
