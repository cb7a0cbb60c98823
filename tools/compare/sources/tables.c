/* Relocations with and without a symbol, and packed ones. */
int f(int);
int x, *a[] = {&x};
static int w[40], *s[] = {w, w + 1, w + 30};

int g(int b) { return f(b) + *a[b] + *s[b]; }
