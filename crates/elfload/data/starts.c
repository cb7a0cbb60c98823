// A library with two functions that run when it is loaded.
static int count;

static void begin(void) { count = 3; }
void shared(void) { count += 5; }
void library_init(void) { count += 7; }

__attribute__((section(".init_array"), used)) static void (*const all[])(void) = {begin, shared};
