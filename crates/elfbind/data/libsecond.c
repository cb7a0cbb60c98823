/* The second library, which is symbolic and asks for no versions. */
extern int shared;
extern int version(void);
extern int taken(void);
extern int only;
extern int absent(void) __attribute__((weak));
extern __thread int per_thread;
extern __thread int static_thread __attribute__((tls_model("initial-exec")));
static __thread int inner;
__asm__(".data\n.type only, %gnu_unique_object\n.globl only\nonly: .long 4\n.size only, 4\n.previous");
int choose(void) { return 2; }
int *places[2] = {&shared + 1, &shared - 1};
int (*address)(void) = taken;
int *storage(int index) { return index == 0 ? &inner : index == 1 ? &static_thread : &per_thread; }
int second(void) { return choose() + version() + taken() + only + (absent ? absent() : 0); }
