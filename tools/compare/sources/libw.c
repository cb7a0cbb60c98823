int outer(int x) { return x; }
