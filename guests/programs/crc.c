/* CRC-32, by a table and bit by bit. The check value of "123456789" is cbf43926. */
#include "guest.h"

static u32 table[256];
static u8 data[1000];

static u32 eight_bits(u32 sum)
{
    for (int i = 0; i < 8; i++)
        sum = sum & 1 ? sum >> 1 ^ 0xedb88320 : sum >> 1;
    return sum;
}

static u32 by_table(const u8 *bytes, u32 size)
{
    u32 sum = ~0u;
    while (size-- > 0)
        sum = sum >> 8 ^ table[(sum ^ *bytes++) & 0xff];
    return ~sum;
}

static u32 by_bits(const u8 *bytes, u32 size)
{
    u32 sum = ~0u;
    while (size-- > 0)
        sum = eight_bits(sum ^ *bytes++);
    return ~sum;
}

int main(void)
{
    u32 drawn = 1;
    for (u32 i = 0; i < 256; i++)
        table[i] = eight_bits(i);
    for (u32 i = 0; i < sizeof data; i++) {
        drawn = drawn * 1664525 + 1013904223;
        data[i] = drawn >> 24;
    }
    print("crc-32 %08x %08x %08x\n", by_table((const u8 *) "123456789", 9), by_table(data, sizeof data), by_bits(data, 100));
    return by_table(data, 100) != by_bits(data, 100);
}
