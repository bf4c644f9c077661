/* A binary adder made of gates: each wire is a bool. */
#include <stdbool.h>
#include <stdio.h>

#define BITS 8

static bool sum[BITS];
static bool carry;

/* The three inputs of a full adder that are on: at least two, or an odd number. */
static bool majority(bool a, bool b, bool c) { return (a && b) || (b && c) || (a && c); }
static bool parity(bool a, bool b, bool c) { return a ^ b ^ c; }

/* Adds two numbers bit by bit. */
static void add(unsigned int x, unsigned int y)
{
    carry = false;
    for (int i = 0; i < BITS; i++) {
        bool a = x & 1u << i, b = y & 1u << i;
        sum[i] = parity(a, b, carry);
        carry = majority(a, b, carry);
    }
}

/* The number that the wires show. */
static unsigned int shown(const bool wires[])
{
    unsigned int number = 0;
    for (int i = 0; i < BITS; i++)
        number += (unsigned int)wires[i] << i;
    return number;
}

int main(void)
{
    bool agrees = true;

    printf("a b c | carry sum\n");
    for (int n = 0; n < 8; n++) {
        bool a = n & 4, b = n & 2, c = n & 1;
        printf("%d %d %d |   %d    %d\n", a, b, c, majority(a, b, c), parity(a, b, c));
    }
    for (unsigned int x = 0; x < 256; x += 17)
        for (unsigned int y = 3; y < 256; y += 29) {
            add(x, y);
            agrees &= shown(sum) == (x + y) % 256 && carry == (x + y > 255);
        }
    add(100, 200);
    printf("100 + 200 = %u and a carry of %d\n", shown(sum), carry);
    if (agrees)
        printf("all sums agree\n");
    return carry;
}
