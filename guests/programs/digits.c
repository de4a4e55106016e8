/* The digits of pi, by a spigot, and 2 to the power of 200, by numbers of many digits. */
#include "guest.h"

enum { PLACES = 200, DIGITS = 60 };

static int places[PLACES];
static u8 power[70];

static int next_digit(void)
{
    int carry = 0;
    for (int i = PLACES - 1; i > 0; i--) {
        int value = places[i] * 10 + carry;
        places[i] = value % (2 * i + 1);
        carry = value / (2 * i + 1) * i;
    }
    int value = places[0] * 10 + carry;
    places[0] = value % 10;
    return value / 10;
}

/* A digit waits until it's known whether the next one is 10, which is a carry to it. */
static void show_pi(void)
{
    int waiting = -1;
    for (int i = 0; i < PLACES; i++)
        places[i] = 2;
    for (int i = 0; i <= DIGITS; i++) {
        int digit = next_digit();
        if (waiting >= 0)
            print("%d", waiting + digit / 10);
        waiting = digit % 10;
    }
    print("\n");
}

static void show_power(int exponent)
{
    u32 size = 1;
    power[0] = 1;
    for (int i = 0; i < exponent; i++) {
        u32 carry = 0;
        for (u32 at = 0; at < size; at++) {
            carry += 2 * power[at];
            power[at] = carry % 10;
            carry /= 10;
        }
        if (carry)
            power[size++] = carry;
    }
    while (size-- > 0)
        put('0' + power[size]);
    print("\n");
}

int main(void)
{
    show_pi();
    show_power(200);
    return 0;
}
