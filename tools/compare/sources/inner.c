/* A program with a function that only its symbol table names. */
static __attribute__((noinline)) int inner(int x) { return x * 3; }

int main(int count, char **words) { return inner(count) + !words; }
