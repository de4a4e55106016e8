/* Calls: recursion, many arguments of all sizes, a number of them that isn't fixed, pointers to functions, a jump over a table. */
#include "guest.h"

static u32 moves, trace;

static void hanoi(int discs, int from, int to, int other)
{
    if (discs == 0)
        return;
    hanoi(discs - 1, from, other, to);
    moves++;
    trace = trace * 31 + from * 4 + to;
    hanoi(discs - 1, other, to, from);
}

static int ackermann(int m, int n)
{
    return m == 0 ? n + 1 : n == 0 ? ackermann(m - 1, 1) : ackermann(m - 1, ackermann(m, n - 1));
}

static int many(int a, i8 b, i16 c, u8 d, u16 e, u32 f, i64 g, int h)
{
    return a + 2 * b + 3 * c + 4 * d + 5 * e + 6 * f + 7 * (int) g + 8 * h;
}

static int sum(int count, ...)
{
    va_list rest;
    int total = 0;
    va_start(rest, count);
    while (count-- > 0)
        total += va_arg(rest, int);
    va_end(rest);
    return total;
}

static int add(int a, int b) { return a + b; }
static int subtract(int a, int b) { return a - b; }
static int multiply(int a, int b) { return a * b; }
static int divide(int a, int b) { return a / b; }

static const char *name_of(int number)
{
    switch (number) {
    case 0: return "zero";
    case 1: return "one";
    case 2: return "two";
    case 3: case 4: return "few";
    case 7: return "seven";
    case 100: return "hundred";
    default: return number < 0 ? "below" : "many";
    }
}

int main(void)
{
    static int (*const operations[4])(int, int) = { add, subtract, multiply, divide };
    hanoi(10, 1, 2, 3);
    print("hanoi %u %08x\n", moves, trace);
    print("ackermann %d\n", ackermann(2, 9));
    print("many %d\n", many(1, -2, -3, 250, 65000, 7, -8, 9));
    print("sum %d\n", sum(6, 1, -20, 300, -4000, 50000, -600000));
    for (int i = 0; i < 4; i++)
        print("%d ", operations[i](-97, 10));
    for (int i = -1; i < 8; i++)
        print("%s ", name_of(i));
    print("%s\n", name_of(100));
    return 0;
}
