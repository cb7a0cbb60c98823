#!/bin/sh
# Makes prog of these sources, which was made by gcc 12.2 and GNU ld 2.40. It needs a library, which is made only to link it.
set -e
cd "$(dirname "$0")"
flags="-Os -fPIC -fcf-protection=none -fno-asynchronous-unwind-tables -fno-ident -nostdlib -Wl,--hash-style=gnu,--build-id=none"
gcc $flags -shared -Wl,-soname=libneed.so -o libneed.so need.c
gcc $flags -pie -Wl,-e,begin,-rpath,'$ORIGIN' -o prog prog.c libneed.so
rm libneed.so
