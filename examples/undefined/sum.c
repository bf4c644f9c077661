/* The sum of two large ints: is it smaller than one of them? */
int larger(int x) { return x + 1 > x; }

int main(void) { return larger(2147483647); }
