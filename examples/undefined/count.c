/* All bits of an int are shifted out. */
int low_bits(int n) { return (1 << n) - 1; }

int main(void) { return low_bits(32); }
