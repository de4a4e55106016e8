/* Typed bytes and the clock by interrupts: each line comes back backwards; an empty line ends it. */
#include "guest.h"

#ifndef NATIVE
enum { VECTOR_CLOCK = 0xc0, SEEN = 0xc1, BEGIN = 0x51, PERIOD = 100 };

static volatile u32 ticks;

static int tick(u32 *pushed)
{
    MTPR(SEEN, ICCS);
    ticks++;
    return 0;
}

static void begin(void)
{
    connect(VECTOR_CLOCK, tick);
    MTPR(-PERIOD, NICR);
    MTPR(BEGIN, ICCS);
    use_interrupts();
}

static int has_ticked(void)
{
    return ticks > 10;
}
#else
static void begin(void) { }
static int has_ticked(void) { return 1; }
#endif

int main(void)
{
    char line[80];
    int count;
    begin();
    do {
        int byte;
        for (count = 0; (byte = get_typed()) != '\r';)
            if (count < (int) sizeof line)
                line[count++] = byte;
        for (int i = count; i-- > 0;)
            put(line[i]);
        print("\n");
    } while (count > 0);
    print("the clock %s\n", has_ticked() ? "ticks" : "stands still");
    return 0;
}
