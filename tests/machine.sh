# The one file that knows which machine this is; tests/common.sh sources it. The library's archive and the programs are
# for x86-64. On any other machine Debian's compilers for x86-64 make what links the archive, and an emulator of a plain
# x86-64, without its extensions, runs it; a time measured so says nothing.

machine=$(uname -m)
compiled_for=$machine
cc=cc
emulator=()
[ "$machine" = x86_64 ] || emulator=(qemu-x86_64 -cpu qemu64)

# Answers whether x86-64 programs are emulated here.
emulated() {
    [ ${#emulator[@]} -gt 0 ]
}

# Installs what runs an x86-64 program, as "${emulator[@]}" PROGRAM.
need_emulator() {
    emulated || return 0
    dpkg --print-foreign-architectures | grep -qx amd64 || dpkg --add-architecture amd64
    need qemu-x86_64:qemu-user :libc6:amd64
}

# From here on "$cc", rustc and cargo make x86-64 programs, and cargo runs them.
compile_for_x86_64() {
    emulated || return 0
    need_emulator
    need x86_64-linux-gnu-gcc:gcc-x86-64-linux-gnu :libc6-dev-amd64-cross :cargo-web :libstd-rust-web-dev:amd64
    echo "$(basename "$0"): this machine is $machine, and x86-64 programs are run by an emulator, ${emulator[*]}"
    compiled_for=x86_64
    cc=x86_64-linux-gnu-gcc
    export PATH=$root/tests/x86-64:/usr/bin:$PATH RUSTC=/usr/bin/rustc CARGO_BUILD_TARGET=x86_64-unknown-linux-gnu
    export CARGO_TARGET_X86_64_UNKNOWN_LINUX_GNU_LINKER=$cc
    export CARGO_TARGET_X86_64_UNKNOWN_LINUX_GNU_RUNNER="${emulator[*]}"
}
