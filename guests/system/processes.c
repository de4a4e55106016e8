/* Processes: their states, waiting and waking, and how they begin and end. */
#include "system.h"

enum { KSP, ESP, SSP, USP, R0, R1, PC = 18, PSL, P0BR, P0LR, P1BR, P1LR };
enum { MODE_ESP = 1, MODE_SSP = 2, MODE_USP = 3, NO_AST = 4 << 24, KILLED = -9 };

struct process processes[PROCESSES], *current;

static u32 last_number;

u32 raise_level(u32 level)
{
    u32 old = MFPR(IPL);
    if (old < level)
        MTPR(level, IPL);
    return old;
}

void lower_level(u32 old)
{
    MTPR(old, IPL);
}

/* Waiting. */

static void wait_until(const volatile u32 *event, int can_end)
{
    u32 old = raise_level(LEVEL_COMPLETE);
    while (*event == 0 && !(can_end && current->is_killed)) {
        current->event = event;
        current->state = WAITING;
        pause();
    }
    lower_level(old);
}

void wait_for(const volatile u32 *event)
{
    wait_until(event, 0);
}

int wait_or_end(const volatile u32 *event)
{
    wait_until(event, 1);
    return !current->is_killed;
}

void wake(const volatile void *event)
{
    for (struct process *process = processes; process < processes + PROCESSES; process++)
        if (process->state == WAITING && process->event == event)
            process->state = READY;
}

/* Ending. */

static struct process *numbered(u32 number)
{
    for (struct process *process = processes; process < processes + PROCESSES; process++)
        if (process->state != FREE && process->number == number)
            return process;
    return NULL;
}

static void finish(struct process *process, int code)
{
    release_pages(process);
    for (struct process *child = processes; child < processes + PROCESSES; child++)
        if (child->state != FREE && child->parent == process->number) {
            child->parent = 0;
            if (child->state == ENDED)
                child->state = FREE;
        }
    struct process *parent = numbered(process->parent);
    process->code = code;
    process->state = parent ? ENDED : FREE;
    if (parent)
        wake(parent);
}

void end_process(int code)
{
    unlock();
    raise_level(LEVEL_COMPLETE);
    finish(current, code);
    pause();
    panic("an ended process goes on", current->number);
}

int kill_process(u32 number)
{
    struct process *process = numbered(number);
    if (!process || process->state == ENDED)
        return NO_PROCESS;
    process->is_killed = 1;
    if (process->state == WAITING)
        process->state = READY;
    return 0;
}

/* The number of a child that has ended, and its code in the upper bits. */
int wait_child(void)
{
    for (;;) {
        int has_child = 0;
        u32 old = raise_level(LEVEL_COMPLETE);
        for (struct process *child = processes; child < processes + PROCESSES; child++) {
            if (child->state == FREE || child->parent != current->number)
                continue;
            has_child = 1;
            if (child->state == ENDED) {
                child->state = FREE;
                lower_level(old);
                return (child->number & 0xff) | (child->code & 0xff) << 8;
            }
        }
        if (!has_child || current->is_killed) {
            lower_level(old);
            return NO_PROCESS;
        }
        current->event = current;
        current->state = WAITING;
        pause();
        lower_level(old);
    }
}

/* Beginning. */

static struct process *new_process(const char *name, u32 parent)
{
    struct process *process = processes;
    while (process < processes + PROCESSES && process->state != FREE)
        process++;
    if (process == processes + PROCESSES)
        return NULL;
    process->state = WAITING;
    process->event = NULL;
    process->number = ++last_number;
    process->parent = parent;
    process->is_killed = process->ticks = 0;
    strcpy(process->name, name);
    u32 *context = process->context, table = (u32) process->table;
    context[KSP] = (u32) (process->kernel_stack + 512);
    context[ESP] = STACK_TOP;
    context[SSP] = SUPERVISOR_TOP;
    context[USP] = USER_TOP;
    context[P0BR] = table;
    context[P0LR] = P0_PAGES | NO_AST;
    context[P1BR] = table + 4 * P0_PAGES - 4 * P1_FIRST;
    context[P1LR] = P1_FIRST;
    return process;
}

/* A process of the system's own: it begins in executive mode, where `run_first` runs the program of this name. */
void begin_process(const char *name)
{
    struct process *process = new_process(name, 0);
    map_stacks(process);
    process->context[R1] = (u32) name;
    process->context[PC] = (u32) first;
    process->context[PSL] = EXECUTIVE_PSL;
    process->state = READY;
}

/* The child goes on where the parent does, with the same registers and pages; but the call answers 0 to it. */
int fork_process(struct frame *frame)
{
    struct process *child = new_process(current->name, current->number);
    if (!child)
        return NO_ROOM;
    share_pages(current, child);
    memcpy(&child->context[R0], frame->r, sizeof frame->r);
    child->context[R0] = 0;
    child->context[USP] = MFPR(MODE_USP);
    child->context[PC] = frame->pc;
    child->context[PSL] = frame->psl;
    child->state = READY;
    return child->number;
}

/* The process gets another program. Its argument is a text at the top of the stack. */
int execute(struct frame *frame, const struct program *program)
{
    struct program kept = *program;
    char *argument = (char *) (USER_TOP - sizeof kept.argument);
    if (kept.count > PROGRAM_PAGES || kept.count + kept.zero_pages >= P0_PAGES)
        return BAD_PROGRAM;
    release_pages(current);
    map_stacks(current);
    map_program(current, &kept);
    strcpy(current->name, kept.name);
    strcpy(argument, kept.argument);
    MTPR(STACK_TOP, MODE_ESP);
    MTPR(SUPERVISOR_TOP, MODE_SSP);
    MTPR(argument, MODE_USP);
    frame->pc = 0x210;
    frame->psl = USER_PSL;
    return 0;
}

/* Turns. It runs on the interrupt stack, and idles there while nobody is ready. A process that was killed ends where it is in user mode:
   there it holds nothing. */
static int must_end(const struct process *process)
{
    return process->is_killed && (process->context[PSL] & MODE) == MODE;
}

u32 next_process(void)
{
    static struct process *turn = processes;
    raise_level(LEVEL_ALL);
    for (;;) {
        for (int i = 0; i < PROCESSES; i++) {
            turn = turn + 1 == processes + PROCESSES ? processes : turn + 1;
            if (turn->state == READY && must_end(turn))
                finish(turn, KILLED);
            if (turn->state == READY) {
                current = turn;
                return (u32) current->context - SYSTEM;
            }
        }
        current = NULL;
        MTPR(LEVEL_RESCHEDULE, IPL);
        __asm__ volatile (".byte 0xfd,0x01" : : : "memory");        /* WAIT */
        MTPR(LEVEL_ALL, IPL);
    }
}

int process_info(u32 index, struct info *info)
{
    struct process *process = &processes[index];
    if (index >= PROCESSES)
        return NO_PROCESS;
    strcpy(info->name, process->name);
    info->number = process->number;
    info->parent = process->parent;
    info->state = process->state;
    info->ticks = process->ticks;
    return 0;
}
