/* How a guest ends, and how it meets a trap that nobody handles. */
#include "guest.h"

handler *handlers[65];

void connect(u32 vector, handler *function)
{
    handlers[vector / 4] = function;
}

void exit(int code)
{
    if (code != 0)
        print("exit %d\n", code);
    stop();
}

void abort(void)
{
    print("abort\n");
    stop();
}

/* Shows a trap: its vector, its parameters from the top of the stack, and the PC. */
void show_trap(u32 vector, const u32 *pushed)
{
    int parameters = vector == 0x20 || vector == 0x24 || vector == 0x3c ? 2 : vector == 0x34 || (vector >= 0x40 && vector <= 0x4c);
    print("trap %02x", vector);
    for (int i = 0; i < parameters; i++)
        print(" %08x", pushed[i]);
    print(" at %08x\n", pushed[parameters]);
}

void unknown_instruction(const u32 *pushed)
{
    show_trap(0x10, pushed);
    stop();
}
