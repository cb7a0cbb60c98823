static const int numbers[] = {1, 2, 3};
static const int *const kept[] = {numbers, numbers + 1};
static int written = 5;
static char zeros[5000];

int shared(int x) { written += x; zeros[x] = 1; return *kept[x & 1] + written + zeros[x + 1]; }
