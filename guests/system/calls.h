/* What users and the system share: the numbers of the calls, and the records that go with them. */
#ifndef CALLS_H
#define CALLS_H
#include "guest.h"

enum { NAME = 16, BLOCK = 512, PROGRAM_PAGES = 64 };

/* CHMK: the kernel. */
enum {
    K_EXIT, K_FORK, K_EXECUTE, K_WAIT, K_SLEEP, K_PUT, K_GET, K_READ, K_WRITE, K_PRINT, K_TIME, K_PROCESS, K_KILL, K_MEMORY, K_SEND,
    K_RECEIVE, K_LOCK, K_UNLOCK, K_CALLS
};

/* CHME: files. A name is NAME, or B:NAME for the volume at unit 1. A file is read and written block by block. */
enum { E_RUN, E_OPEN, E_CREATE, E_READ, E_APPEND, E_CLOSE, E_DELETE, E_RENAME, E_LIST, E_CALLS };

/* CHMS: a typed line. */
enum { S_LINE, S_CALLS };

/* What a call answers in place of a number that isn't negative. */
enum { NO_CALL = -1, BAD_ADDRESS = -2, NO_FILE = -3, FILE_EXISTS = -4, NO_ROOM = -5, BAD_VOLUME = -6, NO_PROCESS = -7, BAD_PROGRAM = -8 };

struct frame {                  /* registers, and what was pushed, where a process called the system */
    u32 r[14];
    u32 number, pc, psl;
};

struct program {                /* what K_EXECUTE needs */
    char name[NAME];
    char argument[64];
    u32 text_pages, zero_pages, count;
    u16 blocks[PROGRAM_PAGES];
};

struct file {                   /* an entry of a directory, and what E_LIST gives */
    char name[NAME];
    u16 first, blocks;
    u32 size, time, is_used;
};

struct info { char name[NAME]; u32 number, parent, state, ticks; };
struct memory_info { u32 frames, free, page_ins, page_outs, dropped, copies; };

/* A call by its mode's instruction. The arguments are in R1 to R3, the answer is in R0. */
#define CALL(name, instruction) \
    static inline int name(int number, u32 a, u32 b, u32 c) \
    { \
        register int r0 __asm__ ("r0") = number; \
        register u32 r1 __asm__ ("r1") = a, r2 __asm__ ("r2") = b, r3 __asm__ ("r3") = c; \
        __asm__ volatile (instruction " %0" : "+r" (r0) : "r" (r1), "r" (r2), "r" (r3) : "memory"); \
        return r0; \
    }
CALL(kernel, "chmk")
CALL(files, "chme")
CALL(lines, "chms")
#endif
