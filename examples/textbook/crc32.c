/* The checksum CRC-32 of a text, by a table. */
#include <stdio.h>
#include <string.h>

unsigned table[256];

void prepare(void)
{
    unsigned n, c;
    int k;

    for (n = 0; n < 256; n++) {
        c = n;
        for (k = 0; k < 8; k++)
            c = c & 1 ? 0xedb88320u ^ c >> 1 : c >> 1;
        table[n] = c;
    }
}

unsigned crc(char s[])
{
    unsigned c = 0xffffffffu;
    int i, n = (int)strlen(s);

    for (i = 0; i < n; i++)
        c = table[(c ^ (unsigned)s[i]) & 255] ^ c >> 8;
    return c ^ 0xffffffffu;
}

int main(void)
{
    prepare();
    printf("%08x\n", crc("123456789"));
    printf("%08x\n", crc("The quick brown fox jumps over the lazy dog"));
    return crc("123456789") == 0xcbf43926u ? 0 : 1;
}
