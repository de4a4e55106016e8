/* FILL writes more pages than memory has frames, and reads them again: they go to the volume and come back. */
#include "user.h"

enum { PAGES = 60, WORDS = BLOCK / 4 };

static u32 pages[PAGES][WORDS];

static u32 value(u32 page, u32 turn)
{
    return page * 0x01010101 + turn;
}

int main(void)
{
    u32 wrong = 0;
    for (u32 turn = 0; turn < 2; turn++) {
        for (u32 page = 0; page < PAGES; page++)
            pages[page][page] = value(page, turn);
        for (u32 page = 0; page < PAGES; page++)
            wrong += pages[page][page] != value(page, turn) || pages[page][(page + 1) % WORDS] != 0;
    }
    print("%u pages filled, %u wrong\n", PAGES, wrong);
    return wrong;
}
