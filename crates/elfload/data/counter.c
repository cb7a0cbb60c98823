__thread int counted = 1;
char room[9000];
extern int shared(int);

int main_part(int x) { counted += x; return room[x] = shared(x); }

void _start(void) { main_part(0); __asm__("mov $60, %eax; xor %edi, %edi; syscall"); }
