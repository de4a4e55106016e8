/* Pebble, a small operating system: what its parts share. README.md tells how they fit together. */
#ifndef SYSTEM_H
#define SYSTEM_H
#include "guest.h"
#include "calls.h"

enum { SLR = 13 };             /* the processor register: how many pages of S there are */

enum {
    PAGE = 512,
    FRAMES = 512,               /* pages of memory, at most */
    PROCESSES = 6,
    P0_PAGES = 96,
    P1_PAGES = 32,              /* the last ones of P1: stacks */
    P1_FIRST = 0x200000 - P1_PAGES,
    SYSTEM_UNIT = 0,            /* the volume of programs, files and paged-out pages */
    SWAP_FIRST = 128,           /* its first block for paged-out pages */
    SWAP_BLOCKS = 64,
};

#define SYSTEM 0x80000000u      /* the address of memory's first byte in the region S */
#define MODE 0x03000000u         /* the current mode of a PSL; all of it is user mode */
#define USER_PSL 0x03c00000u
#define EXECUTIVE_PSL 0x01400000u
#define STACK_TOP 0x80000000u   /* P1 goes down from here: two pages for executive mode, two for supervisor mode, the rest for users */
#define SUPERVISOR_TOP (STACK_TOP - 2 * PAGE)
#define USER_TOP (SUPERVISOR_TOP - 2 * PAGE)

/* Priority levels: who raises IPL to one of them isn't interrupted by it. */
enum { LEVEL_NONE = 0, LEVEL_RESCHEDULE = 3, LEVEL_COMPLETE = 6, LEVEL_ALL = 31 };

/* What a table's entry has. One that isn't valid has a kind, and the block where the page is. */
#define VALID 0x80000000u
#define MODIFY 0x04000000u
#define PROTECTION 0x78000000u
#define USER_WRITE 0x20000000u
#define EXECUTIVE_WRITE 0x28000000u
#define SUPERVISOR_WRITE 0x40000000u
#define USER_READ 0x78000000u
#define COPY 0x00800000u        /* a page that processes share until one of them writes; it is valid, with USER_READ */
#define KIND 0x00600000u
#define ZERO 0x00200000u        /* zeros */
#define FROM_FILE 0x00400000u   /* a block of a program's file */
#define FROM_SWAP 0x00600000u   /* a block of its own */
#define NUMBER 0x001fffffu      /* the frame, or the block */

enum state { FREE, READY, WAITING, ENDED };

struct process {
    u32 context[24];            /* the processor's control block */
    u32 table[P0_PAGES + P1_PAGES];
    u32 kernel_stack[512];
    enum state state;
    u32 number, parent;
    const volatile void *event; /* what it waits for */
    int code;
    int is_killed;
    u32 ticks;
    char name[NAME];
};

/* boot.s */
extern u32 system_table[FRAMES];
extern char trap_table[], call_kernel[], call_executive[], call_supervisor[], reserved[], reschedule[], first[], memory_begin[];
void pause(void);               /* saves the process, and goes on with another one until it is ready again */

/* processes.c */
extern struct process processes[PROCESSES], *current;
u32 raise_level(u32 level);     /* to this level at least; answers the old one, for lower_level */
void lower_level(u32 old);
void wait_for(const volatile u32 *event);           /* until it isn't 0 */
int wait_or_end(const volatile u32 *event);         /* or until the process is killed: then it answers 0 */
void wake(const volatile void *event);
void begin_process(const char *name);
int fork_process(struct frame *frame);
int execute(struct frame *frame, const struct program *program);
void end_process(int code) __attribute__((noreturn));
int wait_child(void);
int kill_process(u32 number);
int process_info(u32 index, struct info *info);

/* memory.c */
void set_up_memory(void);
int page_fault(u32 address);                        /* each answers whether the process can go on */
int protection_fault(u32 address, int is_write);
void map_stacks(struct process *process);
void map_program(struct process *process, const struct program *program);
void share_pages(struct process *parent, struct process *child);
void release_pages(struct process *process);
int is_users(u32 address, u32 size, int is_write);
int memory_info(struct memory_info *info);

/* devices.c */
extern volatile u32 ticks;
void set_up_devices(void);
void typed_interrupt(void);
void clock_interrupt(void);
void packets_interrupt(void);
void complete(void);
int console_get(void);
int sleep_ticks(u32 count);
int transfer(u32 function, u32 unit, u32 block, const void *buffer, u32 size);      /* of a packet; its status */

/* services.c */
int unlock(void);
void panic(const char *what, u32 number) __attribute__((noreturn));
#endif
