/* Two unsigned shorts are multiplied as ints. */
unsigned square(unsigned short x) { return x * x; }

int main(void) { return (int) (square(65535) >> 31); }
