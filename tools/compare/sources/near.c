extern int far(int);
int shared_number = 3;
static int hidden(int x) { return far(x) + shared_number; }
int near(int x) { return hidden(x) * 2; }
