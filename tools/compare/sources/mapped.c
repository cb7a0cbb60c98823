/* Prints the mappings of its process, some of them of zeros. */
#include <stdio.h>

int numbers[40000];

int main(void) {
    FILE *maps = fopen("/proc/self/maps", "r");
    int it;
    while ((it = getc(maps)) != EOF)
        putchar(it);
    return numbers[0];
}
