/* The towers of Hanoi. */
#include <stdio.h>

int moves;

void move(int disks, char from, char to, char by)
{
    if (disks == 0)
        return;
    move(disks - 1, from, by, to);
    printf("%2d: disk %d from %c to %c\n", ++moves, disks, from, to);
    move(disks - 1, by, to, from);
}

int main(void)
{
    move(4, 'A', 'C', 'B');
    printf("%d moves\n", moves);
    return moves;
}
