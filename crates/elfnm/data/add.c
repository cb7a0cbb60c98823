int total;

static int twice(int number) { return number + number; }

int add(int one, int other) {
    total = twice(one) + other;
    return total;
}
