/* Bytes and texts: what GCC calls by itself, and a little more. */
#include "guest.h"

void *memcpy(void *to, const void *from, size_t size)
{
    return memmove(to, from, size);
}

void *memmove(void *to, const void *from, size_t size)
{
    u8 *target = to;
    const u8 *source = from;
    if (target > source && target < source + size) {
        while (size-- > 0)
            target[size] = source[size];
        return to;
    }
    for (; size >= 4; size -= 4, target += 4, source += 4)
        *(u32 *) target = *(const u32 *) source;
    while (size-- > 0)
        *target++ = *source++;
    return to;
}

void *memset(void *to, int byte, size_t size)
{
    u8 *target = to;
    u32 four = (byte & 0xff) * 0x01010101u;
    for (; size >= 4; size -= 4, target += 4)
        *(u32 *) target = four;
    while (size-- > 0)
        *target++ = byte;
    return to;
}

int memcmp(const void *left, const void *right, size_t size)
{
    const u8 *a = left, *b = right;
    for (; size > 0; size--, a++, b++)
        if (*a != *b)
            return *a - *b;
    return 0;
}

size_t strlen(const char *text)
{
    const char *end = text;
    while (*end)
        end++;
    return end - text;
}

int strcmp(const char *left, const char *right)
{
    return strncmp(left, right, ~(size_t) 0);
}

int strncmp(const char *left, const char *right, size_t size)
{
    const u8 *a = (const u8 *) left, *b = (const u8 *) right;
    for (; size > 0; size--, a++, b++)
        if (*a != *b || *a == 0)
            return *a - *b;
    return 0;
}

char *strcpy(char *to, const char *from)
{
    memmove(to, from, strlen(from) + 1);
    return to;
}
