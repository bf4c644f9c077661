/* The quotient of the least int and -1 is no int, and so its remainder has no value. */
int rest(int a, int b) { return a % b; }

int main(void) { return rest(-2147483647 - 1, -1); }
