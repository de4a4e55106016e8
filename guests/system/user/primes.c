/* PRIMES LIMIT: how many primes there are below a number. */
#include "user.h"

int main(const char *argument)
{
    u32 limit = 0, count = 0;
    for (; *argument; argument++)
        limit = 10 * limit + *argument - '0';
    for (int n = 2; n < (int) limit; n++) {
        int divisor = 2;
        while (divisor * divisor <= n && n % divisor != 0)
            divisor++;
        count += divisor * divisor > n;
    }
    print("%u primes below %u\n", count, limit);
    return 0;
}
