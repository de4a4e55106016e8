/* The console of a program that is compiled for the machine at hand: standard output and input. */
#include <stdio.h>

void put(int byte)
{
    putchar(byte);
}

int get(void)
{
    int byte = getchar();
    return byte == '\n' ? '\r' : byte;
}

int get_typed(void)
{
    return get();
}
