/* The library of guests in C. With NATIVE the same programs are compiled for the machine at hand, to get their expected bytes. */
#ifndef GUEST_H
#define GUEST_H
#include <stdarg.h>

typedef unsigned char u8;
typedef unsigned short u16;
typedef unsigned int u32;
typedef unsigned long long u64;
typedef signed char i8;
typedef short i16;
typedef int i32;
typedef long long i64;

/* The console. */
void put(int byte);                         /* shows a byte */
int get(void);                              /* the next typed byte; waits until there is one */
void print(const char *form, ...);          /* %d %u %x %c %s and %%, with a width, as %08x; a line feed is CR and LF */
int get_line(char *line, int size);         /* typed bytes up to CR, which becomes the zero; how many */
int get_typed(void);                        /* as `get`, but it waits for an interrupt: see use_interrupts */

#ifdef NATIVE
#include <stdlib.h>
#include <string.h>
#else
typedef __SIZE_TYPE__ size_t;
#define NULL ((void *) 0)
void exit(int code) __attribute__((noreturn));      /* shows a code that isn't 0, and stops */
void abort(void) __attribute__((noreturn));
void stop(void) __attribute__((noreturn));          /* stops */
void unknown_instruction(const u32 *pushed) __attribute__((noreturn));     /* one that isn't emulated either; PC and PSL */
void *memcpy(void *to, const void *from, size_t size);
void *memmove(void *to, const void *from, size_t size);
void *memset(void *to, int byte, size_t size);
int memcmp(const void *left, const void *right, size_t size);
size_t strlen(const char *text);
int strcmp(const char *left, const char *right);
int strncmp(const char *left, const char *right, size_t size);
char *strcpy(char *to, const char *from);

/* Processor registers, by their numbers. */
#define MTPR(value, number) __asm__ volatile ("mtpr %0,%1" : : "g" (value), "n" (number) : "memory")
#define MFPR(number) ({ u32 value_; __asm__ volatile ("mfpr %1,%0" : "=g" (value_) : "n" (number) : "memory"); value_; })
enum { IPL = 18, SIRR = 20, ICCS = 24, NICR = 25, RXCS = 32, RXDB = 33, TXCS = 34, TXDB = 35, KCALL = 200, MEMSIZE = 201, UPTIME = 202 };

/* A handler gets what was pushed: parameters, PC and PSL. It answers how many parameters there are, which aren't needed any longer. */
typedef int handler(u32 *pushed);
void connect(u32 vector, handler *function);
void wait(void);                            /* until an interrupt was taken */

/* From now on typed bytes are kept by a handler, for get_typed. For kernel mode; IPL becomes 1. */
void use_interrupts(void);

/* Shifts to the right without sign. For such a shift GCC takes the instruction EXTZV, which must be emulated. */
static inline u32 shift_right(u32 value, int count)
{
    u32 moved;
    if (count == 0)
        return value;
    __asm__ ("ashl %1,%2,%0" : "=r" (moved) : "ri" (-count), "ri" (value));
    return moved & ~(~0u << (32 - count));
}
#endif
#endif
