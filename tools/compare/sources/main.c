int far(int x) { return x; } int near(int); int main(void) { return near(0) & 1; }
