/* A library with thread-local storage at an offset from the thread pointer. */
__attribute__((tls_model("initial-exec"))) __thread int own = 42;
int call(void) { return own; }
