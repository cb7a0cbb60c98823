int outer(int x) { return x + 1; }
int data = 3;
