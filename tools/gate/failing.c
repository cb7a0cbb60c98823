/* The C library's calls for memory, reads and writes, of which the one fails whose number a variable of the environment has. */
#include <errno.h>
#include <stddef.h>
#include <stdlib.h>
#include <sys/types.h>
void *__libc_malloc(size_t), *__libc_realloc(void *, size_t);
ssize_t __read(int, void *, size_t), __write(int, const void *, size_t);
static int number(const char *name) {
    const char *text = getenv(name);
    return text ? atoi(text) : 0;
}
static int fails(const char *kind) {
    static int made;
    return number(kind) && ++made == number(kind);
}
static size_t few(const char *name, size_t size) {
    size_t most = number(name);
    return most && size > most ? most : size;
}
void *malloc(size_t size) {
    if (fails("FAIL_MEMORY")) { errno = ENOMEM; return 0; }
    return __libc_malloc(size);
}
void *realloc(void *old, size_t size) {
    if (fails("FAIL_MEMORY")) { errno = ENOMEM; return 0; }
    return __libc_realloc(old, size);
}
ssize_t read(int file, void *to, size_t size) {
    if (fails("FAIL_READ")) { errno = EIO; return -1; }
    return __read(file, to, few("FEW_READ", size));
}
ssize_t write(int file, const void *from, size_t size) {
    static int made;
    int is_cut = number("FAIL_OUTPUT") && file == 1 && ++made >= number("FAIL_OUTPUT");
    if (is_cut || fails("FAIL_WRITE")) { errno = EIO; return -1; }
    return __write(file, from, few("FEW_WRITE", size));
}
