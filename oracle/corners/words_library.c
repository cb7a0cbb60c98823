/* A library whose words the program words.c tells: two of the address of a number, one of another, and one that a function returns. */
#define HIDDEN __attribute__((visibility("hidden")))
int number;
static int other;
HIDDEN int *volatile relative = &other;
HIDDEN int *volatile one = &number, *volatile two = &number;
HIDDEN extern unsigned long entries[][2] __asm__("_DYNAMIC");
static char early(void) { return 'e'; }
static char late(void) { return 'l'; }
/* The relative word is already written, or not yet. */
static void *pick(void) { return relative == &other ? late : early; }
static char chosen(void) __attribute__((ifunc("pick")));
char (*pointer)(void) = chosen;
void tell(char *text) {
    unsigned long first = (unsigned long)one, second = (unsigned long)two;
    if (relative != &other) text[0] = '-';
    if (first != second) text[1] = (unsigned)first == (unsigned)second && second >> 32 == 0 ? '4' : '-';
    for (int index = 0; entries[index][0]; index++)
        if (entries[index][0] == 5 && entries[index][1] < 4096) text[2] = '-';
}
