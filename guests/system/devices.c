/* Devices: the console, the clock, and packets for volumes and the printer. An interrupt does what can't wait, and asks for the software
   interrupt of LEVEL_COMPLETE, which wakes who waits. */
#include "system.h"

enum { RING = 256, PERIOD = 2000, ENABLE = 0x40, CLOCK_BEGIN = 0x51, CLOCK_SEEN = 0xc1, PACKETS = 8 };

struct packet {
    u32 function, unit, block, buffer, size;
    volatile u32 status;
    u32 is_used;
};

volatile u32 ticks;

static u8 ring[RING];
static volatile u32 kept, taken, typed;
static struct packet packets[PACKETS];
static volatile u32 free_packets = PACKETS;

void set_up_devices(void)
{
    MTPR(ENABLE, RXCS);
    MTPR(-PERIOD, NICR);
    MTPR(CLOCK_BEGIN, ICCS);
}

/* The console. A byte is shown at once; `typed` is how many bytes wait in the ring. */

void put(int byte)
{
    MTPR(byte, TXDB);
}

void typed_interrupt(void)
{
    u32 byte = MFPR(RXDB);
    if (typed < RING) {
        ring[kept++ % RING] = byte;
        typed++;
    }
    MTPR(LEVEL_COMPLETE, SIRR);
}

int console_get(void)
{
    if (!wait_or_end(&typed))
        return -1;
    int byte = ring[taken++ % RING];
    u32 old = raise_level(LEVEL_ALL);
    typed--;
    lower_level(old);
    return byte;
}

int get(void)
{
    return console_get();
}

/* The clock ticks each PERIOD steps: then another process has its turn. */

void clock_interrupt(void)
{
    MTPR(CLOCK_SEEN, ICCS);
    ticks++;
    if (current)
        current->ticks++;
    MTPR(LEVEL_RESCHEDULE, SIRR);
    MTPR(LEVEL_COMPLETE, SIRR);
}

int sleep_ticks(u32 count)
{
    u32 end = ticks + count;
    while ((i32) (end - ticks) > 0 && !current->is_killed) {
        u32 old = raise_level(LEVEL_COMPLETE);
        current->event = &ticks;
        current->state = WAITING;
        pause();
        lower_level(old);
    }
    return 0;
}

/* Packets: they are done at the end of a round. */

void packets_interrupt(void)
{
    MTPR(LEVEL_COMPLETE, SIRR);
}

int transfer(u32 function, u32 unit, u32 block, const void *buffer, u32 size)
{
    struct packet *packet = packets;
    wait_for(&free_packets);
    while (packet->is_used)
        packet++;
    free_packets--;
    *packet = (struct packet) { function, unit, block, (u32) buffer - SYSTEM, size, 0, 1 };
    MTPR((u32) packet - SYSTEM, KCALL);
    wait_for(&packet->status);
    packet->is_used = 0;
    free_packets++;
    wake(&free_packets);
    return packet->status;
}

/* The software interrupt: wakes all whose event has come. */
void complete(void)
{
    for (int i = 0; i < PACKETS; i++)
        if (packets[i].is_used && packets[i].status)
            wake(&packets[i].status);
    if (typed > 0)
        wake(&typed);
    wake(&ticks);
}
