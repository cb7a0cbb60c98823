/* A program of class 32, which ends with 42 if its word is relocated, and otherwise with 7. */
const char interpreter[] __attribute__((section(".interp"))) = "/lib/ld-linux.so.2";
static int number;
static int *volatile place = &number;
void _start(void) {
    __asm__ volatile("int $0x80" :: "a"(1), "b"(place == &number ? 42 : 7));
    __builtin_unreachable();
}
