/* Numbers, but Fizz for those that 3 divides, and Buzz for those that 5 divides. */
#include <stdio.h>

int main(void)
{
    int i;

    for (i = 1; i <= 30; i++) {
        if (i % 15 == 0)
            printf("FizzBuzz\n");
        else if (i % 3 == 0)
            printf("Fizz\n");
        else if (i % 5 == 0)
            printf("Buzz\n");
        else
            printf("%d\n", i);
    }
    return 0;
}
