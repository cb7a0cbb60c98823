/* A program that writes which words are as they should be: the relative one of its library, the second of two addresses (or its low four
   bytes), the base in the library's entry DT_STRTAB, its own DT_DEBUG, the words before its slot, and what the copied pointer returns. */
#define HIDDEN __attribute__((visibility("hidden")))
extern void tell(char *text);
extern char (*pointer)(void);
HIDDEN extern unsigned long entries[][2] __asm__("_DYNAMIC"), slots[] __asm__("_GLOBAL_OFFSET_TABLE_");
const char interpreter[] __attribute__((section(".interp"))) = "/lib64/ld-linux-x86-64.so.2";
static char text[] = "rabds.\n";
void _start(void) {
    tell(text);
    for (int index = 0; entries[index][0]; index++)
        if (entries[index][0] == 21 && entries[index][1] == 0) text[3] = '-';
    if (slots[1] == 0 || slots[2] == 0) text[4] = '-';
    text[5] = pointer ? pointer() : '-';
    long ended = 1;
    __asm__ volatile("syscall" : "+a"(ended) : "D"(1), "S"(text), "d"(sizeof text - 1) : "rcx", "r11", "memory");
    __asm__ volatile("syscall" :: "a"(60), "D"(0));
}
