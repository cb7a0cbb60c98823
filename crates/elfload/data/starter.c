// A program of whose functions some run before its entry point, one of them of the library, and some after it.
void shared(void);
static int count;

static void before(void) { count = 1; }
static void later(void) { count += 2; }
void own_init(void) { count += 4; }
void _start(void) { own_init(); shared(); }

__attribute__((section(".preinit_array"), used)) static void (*const first[])(void) = {before};
__attribute__((section(".init_array"), used)) static void (*const others[])(void) = {later, shared};
