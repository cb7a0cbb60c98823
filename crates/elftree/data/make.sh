# Makes the program and its libraries by gcc 12.2 and GNU ld 2.40. What they get is in ../stdout, from what `ld.so` of glibc 2.36 prints of
# each program after `chroot` to this folder with LD_TRACE_LOADED_OBJECTS=1 and, for how each was found, LD_DEBUG=libs. The order of starts is that
# of LD_DEBUG=files where the same files are linked with nothing missing.
set -e
mkdir -p bin lib
link() {
    gcc -Os -fcf-protection=none -fno-asynchronous-unwind-tables -fno-ident -nostdlib -s -fPIC \
        -Wl,--build-id=none,--no-as-needed,-z,norelro,-z,noseparate-code,-z,max-page-size=4096,--hash-style=gnu \
        -Wl,--allow-shlib-undefined -Wl,--unresolved-symbols=ignore-all "$@"
}
library() {
    link -shared -x c - -x none "$@"
}
echo 'V1 { global: old; local: *; }; V2 { global: new; } V1;' > both.map
echo 'V1 { global: old; local: *; };' > first.map
# libraries that others are linked with, and then those themselves
for name in a none; do echo | library -Wl,-soname=lib$name.so -o lib/lib$name.so; done
echo 'int old; int new;' | library -Wl,-soname=libc1.so,--version-script=both.map -o lib/libc1.so
echo 'extern int new; int *b(void) { return &new; }' | library -Wl,-soname=libb.so,--enable-new-dtags,-rpath,'$ORIGIN/x' -o lib/libb.so lib/libc1.so
echo 'int a;' | library -Wl,-soname=liba.so -o liba.so lib/libc1.so lib/libb.so
echo 'int old;' | library -Wl,-soname=libc1.so,--version-script=first.map -o libc1.so lib/liba.so
echo 'void _start(void) { for (;;); }' | link -x c - -x none -Wl,--disable-new-dtags,-rpath,'$ORIGIN/../lib' -o bin/prog lib/liba.so lib/libb.so lib/libnone.so
mv liba.so libc1.so lib
rm lib/libnone.so both.map first.map
# a library with auxiliary entries: of the two that are loaded with the soname libs.so the one that is put before it is found by this
# name; of the file that is no library nothing is said
for name in f x y; do echo | library -Wl,-soname=lib$name.so -o lib/lib$name.so; done
echo 'void _start(void) { for (;;); }' | link -x c - -x none -Wl,--disable-new-dtags,-rpath,'$ORIGIN/../lib' -o bin/filters lib/libf.so lib/libx.so
for name in x y; do echo | library -Wl,-soname=libs.so -o lib/lib$name.so; done
echo | library -Wl,-soname=libf.so,-f,liby.so,-f,libs.so,-f,libtext.so,-f,libmiss.so -o lib/libf.so
echo text > lib/libtext.so
