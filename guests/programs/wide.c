/* Numbers of 64 bits: products, quotients, shifts and comparisons, with and without sign. */
#include "guest.h"

static u64 state = 88172645463325252ull;

static u64 draw(void)
{
    state ^= state << 13;
    state ^= state >> 7;
    state ^= state << 17;
    return state;
}

static void show(const char *name, u64 value)
{
    print("%s %08x%08x\n", name, (u32) (value >> 32), (u32) value);
}

int main(void)
{
    u64 factorial = 1, unsigned_sum = 0;
    i64 signed_sum = 0;
    for (u32 n = 2; n <= 20; n++)
        factorial *= n;
    show("20!", factorial);
    show("20! / 1000003", factorial / 1000003);
    show("20! mod 1000003", factorial % 1000003);
    for (int i = 0; i < 12; i++) {
        u64 a = draw(), b = draw() >> 5 * i | 1;
        unsigned_sum = unsigned_sum * 6364136223846793005ull + a / b + a % b + (a > b);
        signed_sum += (i64) a / (i64) (b | 2) + (i64) a % 1000 + ((i64) a >> 5 * i) - (i64) (a << i) + ((i64) a < (i64) b);
        signed_sum += (i64) (i32) a * (i32) b;
    }
    show("without sign", unsigned_sum);
    show("with sign", signed_sum);
    return 0;
}
