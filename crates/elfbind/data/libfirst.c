/* The first library: two versions of `version`, a weak `choose`, and `own` as the program has it. */
__asm__(".symver first_version, version@V1");
__asm__(".symver second_version, version@@V2");
int first_version(void) { return 1; }
int second_version(void) { return 2; }
int shared = 7;
int only = 8;
__thread int per_thread = 9;
__thread int static_thread = 10;
__attribute__((weak)) int choose(void) { return 1; }
int own(void) { return 2; }
int taken(void) { return 3; }
__attribute__((visibility("protected"))) int kept(void) { return 4; }
__attribute__((visibility("hidden"))) int unseen(void) { return 5; }
int (*pointers[3])(void) = {kept, unseen, own};
int call(void) { return own() + choose() + shared + pointers[0](); }
/* a module and an offset of `per_thread` */
#ifdef __x86_64__
__asm__("leaq per_thread@tlsgd(%rip), %rdi");
#else
__asm__("leal per_thread@tlsgd(,%ebx,1), %eax");
#endif
