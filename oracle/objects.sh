#!/usr/bin/env bash
# Makes object files and shared objects for many processors by clang, gcc and rustc, in a folder.
#
#   oracle/objects.sh FOLDER
set -euo pipefail
mkdir -p "$1"
cd "$1"
cat > objects.c <<'C'
extern int other(int);
static int counter;
int table[4] = {1, 2, 3, 4};
const char text[] = "text";
__thread int own = 3;
int (*pointer)(int) = other;
__attribute__((weak)) int weak(int x) { return x + counter; }
__attribute__((visibility("hidden"))) int hidden(int x) { return x * 2; }
__attribute__((constructor)) static void start(void) { counter = 7; }
int sum(int a) {
    static int calls;
    calls++;
    return other(a) + weak(a) + own + table[a & 3] + hidden(text[a & 3]);
}
C
cat > objects.rs <<'R'
#![no_std]
#[no_mangle]
pub extern "C" fn sum(a: i32, b: i32) -> i32 {
    a.wrapping_add(b)
}
#[no_mangle]
pub static TABLE: [u8; 5] = [1, 2, 3, 4, 5];
R
processors="x86_64 i386 aarch64 aarch64_be arm armeb riscv32 riscv64 mips mipsel mips64 mips64el powerpc powerpc64
    powerpc64le s390x sparc sparcv9 hexagon"
count=0
compile() {
    local out="$1"
    shift
    if "$@" -o "$out" 2>/dev/null; then count=$((count + 1)); else rm -f "$out"; fi
}
for processor in $processors; do
    compile "clang-$processor-g.o" clang -target "$processor-linux-gnu" -g -O1 -fPIC -ffreestanding -c objects.c
    compile "clang-$processor.o" clang -target "$processor-linux-gnu" -O2 -ffunction-sections -ffreestanding -c objects.c
done
for width in 32 64; do
    compile "gcc-$width-g.o" gcc "-m$width" -g -O1 -ffreestanding -c objects.c
    compile "gcc-$width.o" gcc "-m$width" -O2 -fPIC -ffunction-sections -ffreestanding -c objects.c
    for style in sysv gnu both; do
        for linker in bfd gold lld; do
            compile "$linker-$width-$style.so" gcc "-m$width" "-fuse-ld=$linker" -fPIC -shared -nostdlib \
                "-Wl,--hash-style=$style" objects.c
        done
    done
done
compile rust.o rustc --crate-type lib --emit obj -C panic=abort objects.rs
compile rust-g.o rustc --crate-type lib --emit obj -C debuginfo=2 -C panic=abort objects.rs
rm -f objects.c objects.rs
echo "$count objects in $1"
