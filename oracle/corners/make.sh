# Makes the base files of ../corners.toml by gcc 12.2 and GNU ld 2.40. Another compiler or linker may put the bytes that are edited elsewhere.
set -e
common="-Os -fcf-protection=none -fno-asynchronous-unwind-tables -fno-ident -nostdlib -s
    -Wl,--build-id=none,-z,noseparate-code,-z,max-page-size=4096,-z,norelro,--hash-style=sysv"
gcc $common -fPIC -shared -Wl,-soname=words.so -o words.so words_library.c
gcc $common -fno-pie -no-pie -Wl,-rpath,. -o words words.c words.so
gcc $common -fPIC -shared -o storage.so storage.c
gcc $common -fPIC -shared -fno-builtin -Wl,-z,now,-z,pack-relative-relocs -o packed.so packed.c -lc
gcc $common -m32 -fPIC -shared -Wl,-e,_start -o narrow narrow.c
