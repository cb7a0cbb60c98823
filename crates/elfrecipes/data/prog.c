extern int outer(int);
extern int data;

__attribute__((visibility("hidden"))) int zeros[4];

__attribute__((visibility("hidden"))) int twice(int x) { return outer(x) * 2; }

__attribute__((visibility("hidden"))) void begin(void) {
    zeros[0] = twice(data);
    for (;;) ;
}
