/* The kernel's entries from C: what is set up at first, traps, and the calls by CHMK. */
#include "system.h"

enum { JOBS = 4, LINE = 132, FAULT = -1 };

static volatile u32 is_unlocked = 1, waiting_jobs;
static struct process *lock_owner;
static char jobs[JOBS][NAME];
static u32 sent, received;

void panic(const char *what, u32 number)
{
    print("\n*** %s: %x\n", what, number);
    __asm__ volatile ("halt");
    for (;;)
        ;
}

/* An instruction that isn't there, in any mode. */
void unknown_instruction(const u32 *pushed)
{
    if ((pushed[1] & MODE) == 0)
        panic("reserved instruction", pushed[0]);
    for (;;)
        kernel(K_EXIT, FAULT, 0, 0);
}

void set_up(void)
{
    u32 *vectors = (u32 *) SYSTEM;
    for (u32 i = 0; i < 65; i++)
        vectors[i] = (u32) trap_table + 8 * i;
    vectors[0x10 / 4] = (u32) reserved;
    vectors[0x40 / 4] = (u32) call_kernel;
    vectors[0x44 / 4] = (u32) call_executive;
    vectors[0x48 / 4] = (u32) call_supervisor;
    vectors[0x8c / 4] = (u32) reschedule;
    /* Bit 0 takes the interrupt stack. */
    vectors[0x98 / 4]++, vectors[0xc0 / 4]++, vectors[0xf8 / 4]++, vectors[0x100 / 4]++;
    set_up_memory();
    set_up_devices();
    print("Pebble, %u pages\n", (u32) ((i32) MFPR(MEMSIZE) / PAGE));
    begin_process("SHELL");
    begin_process("SPOOLER");
}

/* Traps. */

static int memory_trap(u32 vector, u32 parameter, u32 address)
{
    if (!current || (i32) address < 0)
        return 0;
    u32 old = raise_level(LEVEL_RESCHEDULE);
    int goes_on = vector == 0x24 ? page_fault(address) : !(parameter & 1) && protection_fault(address, parameter & 4);
    lower_level(old);
    return goes_on;
}

static void fatal(u32 vector, const u32 *pushed)
{
    u32 parameters = vector == 0x20 || vector == 0x24 ? 2 : vector == 0x34;
    u32 pc = pushed[parameters], psl = pushed[parameters + 1];
    if (!current || ((psl & MODE) == 0 && (parameters < 2 || (i32) pushed[1] < 0)))
        panic("trap in the kernel", vector);
    raise_level(LEVEL_RESCHEDULE);
    print("%s: trap %x at %x", current->name, vector, pc);
    if (parameters == 2)
        print(", address %x", pushed[1]);
    print("\n");
    end_process(FAULT);
}

/* How many parameters stand before the PC. */
u32 trapped(u32 vector, u32 *pushed)
{
    switch (vector) {
    case 0x20: case 0x24:
        if (memory_trap(vector, pushed[0], pushed[1]))
            return 2;
        break;
    case 0x98: complete(); return 0;
    case 0xc0: clock_interrupt(); return 0;
    case 0xf8: typed_interrupt(); return 0;
    case 0x100: packets_interrupt(); return 0;
    }
    fatal(vector, pushed);
    return 0;
}

/* Calls. */

static int print_text(u32 text, u32 size)
{
    char line[LINE];
    if (size > LINE || !is_users(text, size, 0))
        return BAD_ADDRESS;
    memcpy(line, (const char *) text, size);
    return transfer(3, 0, 0, line, size);
}

static int send_job(const char *name)
{
    if (!is_users((u32) name, NAME, 0))
        return BAD_ADDRESS;
    if (waiting_jobs == JOBS)
        return NO_ROOM;
    memcpy(jobs[sent++ % JOBS], name, NAME);
    waiting_jobs++;
    wake(&waiting_jobs);
    return 0;
}

static int receive_job(char *name)
{
    if (!is_users((u32) name, NAME, 1))
        return BAD_ADDRESS;
    if (!wait_or_end(&waiting_jobs))
        return NO_PROCESS;
    memcpy(name, jobs[received++ % JOBS], NAME);
    waiting_jobs--;
    return 0;
}

/* The lock of the files: executive mode holds it for a call. */
static int lock(void)
{
    wait_for(&is_unlocked);
    is_unlocked = 0;
    lock_owner = current;
    return 0;
}

int unlock(void)
{
    if (lock_owner != current)
        return NO_PROCESS;
    is_unlocked = 1;
    wake(&is_unlocked);
    return 0;
}

/* What only executive mode may ask for. */
static int executive_service(struct frame *frame)
{
    u32 *r = frame->r;
    switch (frame->number) {
    case K_EXECUTE: return execute(frame, (const struct program *) r[1]);
    case K_READ: return transfer(1, r[1], r[2], (void *) r[3], BLOCK);
    case K_WRITE: return transfer(2, r[1], r[2], (void *) r[3], BLOCK);
    case K_LOCK: return lock();
    case K_UNLOCK: return unlock();
    default: return NO_CALL;
    }
}

static int kernel_service(struct frame *frame)
{
    u32 *r = frame->r;
    switch (frame->number) {
    case K_EXIT: end_process(r[1]);
    case K_FORK: return (frame->psl & MODE) == MODE ? fork_process(frame) : NO_CALL;
    case K_WAIT: return wait_child();
    case K_SLEEP: return sleep_ticks(r[1]);
    case K_PUT: put(r[1]); return 0;
    case K_GET: return console_get();
    case K_PRINT: return print_text(r[1], r[2]);
    case K_TIME: return ticks;
    case K_PROCESS: return is_users(r[2], sizeof(struct info), 1) ? process_info(r[1], (struct info *) r[2]) : BAD_ADDRESS;
    case K_KILL: return kill_process(r[1]);
    case K_MEMORY: return is_users(r[1], sizeof(struct memory_info), 1) ? memory_info((struct memory_info *) r[1]) : BAD_ADDRESS;
    case K_SEND: return send_job((const char *) r[1]);
    case K_RECEIVE: return receive_job((char *) r[1]);
    default: return (frame->psl & 0x02000000) == 0 ? executive_service(frame) : NO_CALL;
    }
}

/* The kernel isn't interrupted for the turn of another process: it gives its turn up where it waits. */
void kernel_call(struct frame *frame)
{
    raise_level(LEVEL_RESCHEDULE);
    frame->r[0] = kernel_service(frame);
    if (current->is_killed && (frame->psl & MODE) == MODE)
        end_process(-9);
}
