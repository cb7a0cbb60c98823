/* A program with thread-local storage. */
#include <stdio.h>

__thread int count = 40;

int main(int argc, char **argv) {
    printf("%d %s\n", argc, argv[0]);
    return count + 2;
}
