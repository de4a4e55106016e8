/* The first guest: a line on the console. */
#include "guest.h"

int main(void)
{
    print("hello, %s: %d\n", "world", 6 * 7);
    return 0;
}
