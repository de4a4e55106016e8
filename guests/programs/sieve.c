/* The sieve of Eratosthenes: how many primes there are below 20,000, and the last ones. */
#include "guest.h"

enum { LIMIT = 20000 };

static u8 is_composite[LIMIT];

int main(void)
{
    int count = 0, last[5] = { 0 };
    for (int n = 2; n < LIMIT; n++) {
        if (is_composite[n])
            continue;
        last[count++ % 5] = n;
        for (int multiple = 2 * n; multiple < LIMIT; multiple += n)
            is_composite[multiple] = 1;
    }
    print("%d primes, the last ones", count);
    for (int i = 0; i < 5; i++)
        print(" %d", last[(count + i) % 5]);
    print("\n");
    return 0;
}
