__asm__(".symver first_ab, ab@V1");
__asm__(".symver second_ab, ab@@V2");
int first_ab(void) { return 1; }
int second_ab(void) { return 2; }
extern int outer(int);
int call(int x) { return outer(x); }
