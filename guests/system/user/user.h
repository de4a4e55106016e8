/* What a program of Pebble has: the library's console, texts and arithmetic, and the calls of the system. */
#ifndef USER_H
#define USER_H
#include "guest.h"
#include "calls.h"

static inline int fork(void) { return kernel(K_FORK, 0, 0, 0); }                /* the child's number; 0 in the child */
static inline int run(const char *name, const char *argument) { return files(E_RUN, (u32) name, (u32) argument, 0); }
static inline int wait_child(void) { return kernel(K_WAIT, 0, 0, 0); }          /* its number, and its code times 256 */
static inline int sleep(u32 ticks) { return kernel(K_SLEEP, ticks, 0, 0); }
static inline u32 time(void) { return kernel(K_TIME, 0, 0, 0); }
static inline int process_info(u32 index, struct info *info) { return kernel(K_PROCESS, index, (u32) info, 0); }
static inline int memory_info(struct memory_info *info) { return kernel(K_MEMORY, (u32) info, 0, 0); }
static inline int kill(u32 number) { return kernel(K_KILL, number, 0, 0); }
static inline int print_line(const char *text, u32 size) { return kernel(K_PRINT, (u32) text, size, 0); }
static inline int send_job(const char *name) { return kernel(K_SEND, (u32) name, 0, 0); }
static inline int receive_job(char *name) { return kernel(K_RECEIVE, (u32) name, 0, 0); }

static inline int open_file(const char *name) { return files(E_OPEN, (u32) name, 0, 0); }
static inline int create_file(const char *name) { return files(E_CREATE, (u32) name, 0, 0); }
static inline int read_file(int file, void *block) { return files(E_READ, file, (u32) block, 0); }
static inline int append_file(int file, const void *block, u32 size) { return files(E_APPEND, file, (u32) block, size); }
static inline int close_file(int file) { return files(E_CLOSE, file, 0, 0); }
static inline int delete_file(const char *name) { return files(E_DELETE, (u32) name, 0, 0); }
static inline int rename_file(const char *from, const char *to) { return files(E_RENAME, (u32) from, (u32) to, 0); }
static inline int list_file(u32 unit, u32 index, struct file *file) { return files(E_LIST, unit, index, (u32) file); }

static inline int read_line(const char *prompt, char *line, u32 size) { return lines(S_LINE, (u32) prompt, (u32) line, size); }

const char *trouble(int answer);        /* what an answer below 0 means */
#endif
