/* TWINS: after a fork both processes have the same pages, until one of them writes: then each sees its own. */
#include "user.h"

static u32 numbers[300];

static u32 total(void)
{
    u32 sum = 0;
    for (int i = 0; i < 300; i++)
        sum += numbers[i];
    return sum;
}

int main(void)
{
    for (int i = 0; i < 300; i++)
        numbers[i] = i;
    int child = fork();
    if (child == 0) {
        numbers[0] = 1000;
        numbers[299] = 0;
        print("the child has %u\n", total());
        return 7;
    }
    int ended = wait_child();
    print("the parent has %u, and the child's code is %u\n", total(), ended >> 8);
    return 0;
}
