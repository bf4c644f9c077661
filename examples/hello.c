#include <stdio.h>

int main(void)
{
    printf("Hello from %d tiles, %s by %s!\n", 16, "four", "four");
    return 0;
}
