/* The library of loaded.c. */
int shared[4] = {1, 2, 3, 4};
static const char first[] = "loaded\n", second[] = "relocated\n";
const char *const greetings[2] = {first, second}; /* addresses in the library */
int *const copied = shared; /* the address of a symbol (R_X86_64_64) */

int *address_of_shared(void) { return copied == shared ? shared : 0; } /* also in the global offset table (R_X86_64_GLOB_DAT) */

int sum(const int *numbers, int count)
{
    int total = 0;
    for (int i = 0; i < count; i++) total += numbers[i];
    return total;
}

void say(const char *text)
{
    unsigned long size = 0, result;
    while (text[size] != 0) size++;
    __asm__ volatile("syscall" : "=a"(result) : "a"(1), "D"(1), "S"(text), "d"(size) : "rcx", "r11", "memory");
}
