# Read in by bash: sets `start` to what stands before a program of x86-64 on this machine. That is nothing on x86-64, and on Arm
# the kit's emulator with the kit's C library.
start=()
if [ "$(uname -m)" = aarch64 ]; then
    kit=${RATTLE_HOME:-$(dirname "$(dirname "$(readlink -f "$(command -v rt)")")")}
    tools=$kit/on/aarch64/toolchain
    start=("$tools/bin/qemu-x86_64" "$tools/lib/ld-linux-x86-64.so.2" --library-path "$tools/lib")
fi
