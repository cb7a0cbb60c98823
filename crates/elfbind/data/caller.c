/* The program. It isn't position-independent, so that it copies `shared`, and takes the address of
   `taken` in its own file. */
extern int shared;
extern int choose(void);
extern int version(void);
extern int older(void);
extern int taken(void);
__asm__(".symver older, version@V1");
int own(void) { return 1; }
int (*const address)(void) = taken;
void _start(void) {
    volatile int sum = shared + choose() + version() + older() + address() + taken();
#ifdef __x86_64__
    __asm__ volatile("syscall" : : "a"(60), "D"(0));
#else
    __asm__ volatile("int $0x80" : : "a"(1), "b"(0));
#endif
}
