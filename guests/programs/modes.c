/* The four modes, by the start file user.s: `main` is in user mode; CHMS and CHME call functions in supervisor and executive mode,
   and what user mode may not read is an access violation, which a handler in kernel mode tells. */
#include "guest.h"

enum { VECTOR_ACCESS = 0x20 };

static u32 mode(int lowest_bit)
{
    u32 psl;
    __asm__ volatile ("movpsl %0" : "=g" (psl));
    return psl >> lowest_bit & 3;
}

static void show(const char *name)
{
    print("%s: mode %u, from mode %u\n", name, mode(24), mode(22));
}

static int change_to_supervisor(int argument)
{
    register int r0 __asm__ ("r0"), r1 __asm__ ("r1") = argument;
    __asm__ volatile ("chms $0" : "=r" (r0) : "r" (r1) : "memory");
    return r0;
}

static int change_to_executive(int argument)
{
    register int r0 __asm__ ("r0"), r1 __asm__ ("r1") = argument;
    __asm__ volatile ("chme $0" : "=r" (r0) : "r" (r1) : "memory");
    return r0;
}

int executive(int argument)
{
    show("executive");
    return argument + 1;
}

int supervisor(int argument)
{
    show("supervisor");
    return 2 * change_to_executive(argument);
}

/* An access violation: its parameter, address and PC are shown, and the instruction of two bytes is skipped. */
static int violation(u32 *pushed)
{
    print("violation %u at address %08x\n", pushed[0], pushed[1]);
    show("kernel");
    pushed[2] += 2;
    return 2;
}

static u32 read(u32 *address)
{
    u32 value = 77;
    register u32 *r1 __asm__ ("r1") = address;
    __asm__ volatile ("tstl (%1)" : "+g" (value) : "r" (r1));
    return value;
}

int main(void)
{
    u64 product;
    show("user");
    connect(VECTOR_ACCESS, violation);
    print("%d\n", change_to_supervisor(20));
    print("%u\n", read((u32 *) 0xc0000000));
    print("%u\n", read((u32 *) 0x80000000));
    product = (u64) change_to_executive(99999) * 100000;
    print("%x %08x\n", (u32) (product >> 32), (u32) product);
    return 0;
}
