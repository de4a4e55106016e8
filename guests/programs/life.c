/* Conway's life on a torus of 32 times 32 cells, a longword for each row: the neighbours of 32 cells are added at once. */
#include "guest.h"

static u32 rows[32], next[32];

static u32 left(u32 row) { return row << 1 | row >> 31; }
static u32 right(u32 row) { return row >> 1 | row << 31; }

static u32 next_row(u32 above, u32 row, u32 below)
{
    u32 neighbours[8] = { left(above), above, right(above), left(row), right(row), left(below), below, right(below) };
    u32 ones = 0, twos = 0, fours = 0;
    for (int i = 0; i < 8; i++) {
        u32 carry = ones & neighbours[i];
        ones ^= neighbours[i];
        fours |= twos & carry;
        twos ^= carry;
    }
    return twos & ~fours & (ones | row);
}

static void step(void)
{
    for (int y = 0; y < 32; y++)
        next[y] = next_row(rows[(y + 31) & 31], rows[y], rows[(y + 1) & 31]);
    memcpy(rows, next, sizeof rows);
}

static int population(void)
{
    int count = 0;
    for (int y = 0; y < 32; y++)
        for (u32 row = rows[y]; row != 0; row &= row - 1)
            count++;
    return count;
}

int main(void)
{
    /* A glider, and an acorn, which lives long. */
    rows[1] = 2, rows[2] = 4, rows[3] = 7;
    rows[15] = 2 << 14, rows[16] = 8 << 14, rows[17] = 0x73 << 14;
    for (int generation = 0; generation <= 60; generation++, step())
        if (generation % 12 == 0)
            print("generation %2d: %d cells\n", generation, population());
    for (int y = 10; y < 22; y++) {
        for (int x = 0; x < 32; x++)
            put(rows[y] >> x & 1 ? '*' : '.');
        print("\n");
    }
    return 0;
}
