/* Three ways to sort 400 numbers, by a function that compares; all must agree. */
#include "guest.h"

enum { COUNT = 400 };

typedef int comparing(const i32 *, const i32 *);

static i32 drawn[COUNT], sorted[3][COUNT];
static u32 compared;

static int by_value(const i32 *a, const i32 *b)
{
    compared++;
    return *a < *b ? -1 : *a > *b;
}

static void swap(i32 *a, i32 *b)
{
    i32 kept = *a;
    *a = *b;
    *b = kept;
}

static void quick(i32 *at, int count, comparing *compare)
{
    while (count > 1) {
        i32 middle = at[count / 2];
        int low = 0, high = count - 1;
        while (low <= high) {
            while (compare(&at[low], &middle) < 0)
                low++;
            while (compare(&at[high], &middle) > 0)
                high--;
            if (low <= high)
                swap(&at[low++], &at[high--]);
        }
        quick(at, high + 1, compare);
        at += low;
        count -= low;
    }
}

static void sink(i32 *at, int place, int count, comparing *compare)
{
    for (int child; (child = 2 * place + 1) < count; place = child) {
        if (child + 1 < count && compare(&at[child], &at[child + 1]) < 0)
            child++;
        if (compare(&at[place], &at[child]) >= 0)
            return;
        swap(&at[place], &at[child]);
    }
}

static void heap(i32 *at, int count, comparing *compare)
{
    for (int i = count / 2; i-- > 0;)
        sink(at, i, count, compare);
    while (--count > 0) {
        swap(&at[0], &at[count]);
        sink(at, 0, count, compare);
    }
}

static void shell(i32 *at, int count, comparing *compare)
{
    for (int gap = count / 2; gap > 0; gap /= 2)
        for (int i = gap; i < count; i++)
            for (int j = i; j >= gap && compare(&at[j - gap], &at[j]) > 0; j -= gap)
                swap(&at[j - gap], &at[j]);
}

int main(void)
{
    static void (*const ways[3])(i32 *, int, comparing *) = { quick, heap, shell };
    static const char *const names[3] = { "quicksort", "heapsort", "shellsort" };
    u32 seed = 12345;
    for (int i = 0; i < COUNT; i++) {
        seed = seed * 1103515245 + 12345;
        drawn[i] = (i32) seed / 1000;
    }
    for (int way = 0; way < 3; way++) {
        memcpy(sorted[way], drawn, sizeof drawn);
        compared = 0;
        ways[way](sorted[way], COUNT, by_value);
        print("%9s: %d %d %d, %u times compared\n", names[way], sorted[way][0], sorted[way][COUNT / 2], sorted[way][COUNT - 1], compared);
        if (memcmp(sorted[way], sorted[0], sizeof drawn) != 0)
            print("  differs from the first\n");
    }
    return 0;
}
