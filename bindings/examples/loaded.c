/* A program without a C library, for load.c: it uses data and functions of loaded_library.c, and ends with a status by their sum. */
extern int shared[4];       /* copied into the program (R_X86_64_COPY) */
extern int *address_of_shared(void); /* a slot of the procedure linkage table (R_X86_64_JUMP_SLOT) */
extern int sum(const int *numbers, int count);
extern void say(const char *text);
extern const char *const greetings[2];

static int own = 5;
int *pointer = &own;        /* an address in the program (R_X86_64_RELATIVE) */
int (*function)(const int *, int) = sum; /* an address in the library (R_X86_64_64) */

int start(void)
{
    say(greetings[0]);
    if (address_of_shared() != shared) return 1; /* the library uses the copy */
    shared[3] += *pointer;
    say(greetings[1]);
    return function(shared, 4);
}

/* The stack begins with the number of arguments. */
__asm__(".globl _start\n_start:\n\tcall start\n\tmov %eax, %edi\n\tmov $231, %eax\n\tsyscall\n\thlt\n");
