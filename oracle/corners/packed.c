/* A library with a packed relocation, which needs two versions of libc. */
static int number = 42;
static int *volatile place = &number;
extern int abs(int number);
int call(void) { return abs(*place); }
