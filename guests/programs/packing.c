/* An LZ compressor and its decompressor: a text is packed, unpacked and compared. An item is a byte, or a distance and a length. */
#include "guest.h"

enum { WINDOW = 255, SHORTEST = 3, LONGEST = 18 };

static u8 text[1200], packed[1600], again[1200];

static u32 same_bytes(const u8 *a, const u8 *b, u32 most)
{
    u32 count = 0;
    while (count < most && a[count] == b[count])
        count++;
    return count;
}

static u32 longest(u32 at, u32 size, u32 *distance)
{
    u32 best = 0, most = size - at < LONGEST ? size - at : LONGEST;
    for (u32 back = 1; back <= WINDOW && back <= at; back++) {
        u32 length = same_bytes(text + at - back, text + at, most);
        if (length > best) {
            best = length;
            *distance = back;
        }
    }
    return best;
}

/* Eight items have a byte of flags before them. */
static u32 pack(u32 size)
{
    u32 end = 0, flags = 0, distance = 0;
    for (u32 at = 0, item = 0; at < size; item = (item + 1) % 8) {
        if (item == 0)
            packed[flags = end++] = 0;
        u32 length = longest(at, size, &distance);
        if (length < SHORTEST) {
            packed[end++] = text[at++];
            continue;
        }
        packed[flags] |= 1 << item;
        packed[end++] = distance;
        packed[end++] = length;
        at += length;
    }
    return end;
}

static u32 unpack(u32 size)
{
    u32 end = 0, flags = 0;
    for (u32 at = 0, item = 0; at < size; item = (item + 1) % 8) {
        if (item == 0)
            flags = packed[at++];
        if (flags >> item & 1) {
            u32 distance = packed[at++], length = packed[at++];
            for (; length > 0; length--, end++)
                again[end] = again[end - distance];
        } else {
            again[end++] = packed[at++];
        }
    }
    return end;
}

int main(void)
{
    static const char *const words[8] = { "kernel ", "guest ", "volume ", "printer ", "reads ", "writes ", "a ", "the " };
    u32 size = 0, seed = 7, sum = 0;
    while (size + 10 < sizeof text) {
        seed = seed * 69069 + 1;
        const char *word = words[seed >> 29];
        memcpy(text + size, word, strlen(word));
        size += strlen(word);
    }
    u32 packed_size = pack(size), unpacked = unpack(packed_size);
    for (u32 i = 0; i < packed_size; i++)
        sum = sum * 31 + packed[i];
    print("%u bytes packed to %u, sum %08x, unpacked to %u\n", size, packed_size, sum, unpacked);
    print("%s\n", memcmp(text, again, size) == 0 ? "the same" : "another text");
    return 0;
}
