/* The functions of the library, in the language that docs/LANGUAGE.md describes. bench/library makes the table of the
   crate c_library of them: a text that calls one of them gets its definition, and those that this one needs. The
   first `_` of a name of the library's own, as `print_d`, is a `.` there, so that no text can have the name. So is that
   of `exit_now`, which ends the run with its argument, a long: each include of `<stdio.h>` declares it. */

/* stdio.h */

/* What `printf` writes (7.21.6.1). Each gives the number of characters that it wrote. */

int print_c(int c)
{
    putchar(c);
    return 1;
}

int print_s(char s[])
{
    int n = 0;
    while (s[n]) {
        putchar(s[n]);
        n++;
    }
    return n;
}

int print_u(unsigned long n)
{
    int k = n < 10 ? 0 : print_u(n / 10);
    putchar('0' + n % 10);
    return k + 1;
}

int print_d(long n)
{
    if (n >= 0)
        return print_u(n);
    putchar('-');
    return 1 + print_u(-(unsigned long)n);
}

int print_x(unsigned long n)
{
    int k = n < 16 ? 0 : print_x(n >> 4);
    int d = n & 15;
    putchar(d < 10 ? '0' + d : 'a' - 10 + d);
    return k + 1;
}

/* so many times the character */
int print_fill(int c, int count)
{
    int k = 0;
    while (k < count) {
        putchar(c);
        k++;
    }
    return k;
}

/* how many digits the numeral has, none where the number is 0 */
int print_size(unsigned long n, int base)
{
    int k = 0;
    while (n != 0) {
        n /= base;
        k++;
    }
    return k;
}

/* these digits, with the letters from this one minus 10 on */
int print_digits(unsigned long n, int base, int letters)
{
    if (n == 0)
        return 0;
    int k = print_digits(n / base, base, letters);
    int d = n % base;
    putchar(d < 10 ? '0' + d : letters + d);
    return k + 1;
}

/* A number by the conversion of this letter, behind its sign (`#`: as the flag says; 0: none), with so many digits at
   least, in a field of this width that is filled by spaces in front, by zeros (`0`) or by spaces behind (`-`). */
int print_unsigned(unsigned long n, int letter, int sign, int fill, int width, int least)
{
    int base = letter == 'o' ? 8 : letter == 'x' || letter == 'X' ? 16 : 10;
    int size = print_size(n, base);
    int front = sign == 0 ? 0 : sign != '#' ? 1 : base == 16 && n != 0 ? 2 : 0;
    if (sign == '#' && base == 8 && least <= size)
        least = size + 1;
    if (least < size)
        least = size;
    if (fill == '0' && least < width - front)
        least = width - front;
    int spare = width - front - least;
    int k = fill == '-' ? 0 : print_fill(' ', spare);
    if (front != 0)
        putchar(front == 2 ? '0' : sign);
    if (front == 2)
        putchar(letter);
    k += front + print_fill('0', least - size);
    k += print_digits(n, base, letter == 'X' ? 'A' - 10 : 'a' - 10);
    return fill == '-' ? k + print_fill(' ', spare) : k;
}

int print_signed(long n, int sign, int fill, int width, int least)
{
    if (n < 0)
        return print_unsigned(-(unsigned long)n, 'd', '-', fill, width, least);
    return print_unsigned(n, 'd', sign, fill, width, least);
}

/* The characters of the string, at most so many, in a field. */
int print_string(char s[], int fill, int width, int most)
{
    int size = 0;
    while (size < most && s[size])
        size++;
    int k = fill == '-' ? 0 : print_fill(' ', width - size);
    int i = 0;
    while (i < size) {
        putchar(s[i]);
        i++;
    }
    k += size;
    return fill == '-' ? k + print_fill(' ', width - size) : k;
}

int print_char(int c, int fill, int width)
{
    int k = fill == '-' ? 0 : print_fill(' ', width - 1);
    putchar(c);
    k++;
    return fill == '-' ? k + print_fill(' ', width - 1) : k;
}

/* 7.21.7.9 */
int puts(char s[])
{
    int n = 0;
    while (s[n]) {
        putchar(s[n]);
        n++;
    }
    putchar('\n');
    return n + 1;
}

/* ctype.h (7.4), of ASCII */

int isdigit(int c)
{
    return c >= '0' && c <= '9';
}

int isupper(int c)
{
    return c >= 'A' && c <= 'Z';
}

int islower(int c)
{
    return c >= 'a' && c <= 'z';
}

int isalpha(int c)
{
    return c >= 'A' && c <= 'Z' || c >= 'a' && c <= 'z';
}

int isalnum(int c)
{
    return c >= '0' && c <= '9' || c >= 'A' && c <= 'Z' || c >= 'a' && c <= 'z';
}

int isxdigit(int c)
{
    return c >= '0' && c <= '9' || c >= 'A' && c <= 'F' || c >= 'a' && c <= 'f';
}

int isspace(int c)
{
    return c == ' ' || c >= '\t' && c <= '\r';
}

int isprint(int c)
{
    return c >= ' ' && c <= '~';
}

int ispunct(int c)
{
    return c > ' ' && c <= '~' && !(c >= '0' && c <= '9' || c >= 'A' && c <= 'Z' || c >= 'a' && c <= 'z');
}

int toupper(int c)
{
    return c >= 'a' && c <= 'z' ? c - 'a' + 'A' : c;
}

int tolower(int c)
{
    return c >= 'A' && c <= 'Z' ? c - 'A' + 'a' : c;
}

/* stdlib.h */

/* 7.22.6.1 */
int abs(int n)
{
    return n < 0 ? -n : n;
}

long labs(long n)
{
    return n < 0 ? -n : n;
}

/* The generator that 7.22.2.2 shows, whose RAND_MAX is 32767. */
unsigned long rand_next = 1;

int rand(void)
{
    rand_next = rand_next * 1103515245 + 12345;
    return (unsigned int)(rand_next / 65536) % 32768;
}

void srand(unsigned int seed)
{
    rand_next = seed;
}

/* 7.22.4.1: the run ends with the least long, which no int is */
#include <stdio.h>
void abort(void)
{
    exit_now((unsigned long)1 << 63);
}

/* 7.22.4.4 */
#include <stdio.h>
void exit(int status)
{
    exit_now(status);
}

/* string.h (7.24), of arrays of char; what C17 gives back as a pointer is nothing here */

unsigned long strlen(char s[])
{
    unsigned long n = 0;
    while (s[n])
        n++;
    return n;
}

int strcmp(char a[], char b[])
{
    unsigned long i = 0;
    while (a[i] && a[i] == b[i])
        i++;
    return (unsigned char)a[i] - (unsigned char)b[i];
}

void strcpy(char to[], char from[])
{
    unsigned long i = 0;
    while (from[i]) {
        to[i] = from[i];
        i++;
    }
    to[i] = 0;
}

void memset(char s[], int c, unsigned long n)
{
    unsigned long i = 0;
    while (i < n) {
        s[i] = c;
        i++;
    }
}

void memcpy(char to[], char from[], unsigned long n)
{
    unsigned long i = 0;
    while (i < n) {
        to[i] = from[i];
        i++;
    }
}
