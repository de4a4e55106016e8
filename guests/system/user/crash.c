/* CRASH does what a program mustn't: by its argument it reads page 0, reads the system's data, executes HALT, or divides by zero. */
#include "user.h"

static volatile u32 zero, place;

int main(const char *argument)
{
    if (strcmp(argument, "NULL") == 0)
        return *(volatile u32 *) place;
    place = 0x80000000;
    if (strcmp(argument, "SYSTEM") == 0)
        return *(volatile u32 *) place;
    if (strcmp(argument, "HALT") == 0)
        __asm__ volatile ("halt");
    return 1000 / (int) zero;
}
