/* Typed lines, in supervisor mode: users call by CHMS. As on a terminal with paper, # takes the last character back and @ the whole
   line; so do DEL and CTRL-U. A line ! is the last one once more, and !TEXT the last one that begins with TEXT. */
#include "guest.h"
#include "calls.h"

enum { KEPT = 4, LENGTH = 64, DELETE = 0x7f, KILL = 0x15, LIMIT = 0x7ffff7ff };

/* Memory that supervisor mode may write, and users may not. */
#define SUPERVISOR __attribute__((section(".supervisor")))

static char history[KEPT][LENGTH] SUPERVISOR = { "" };
static u32 last SUPERVISOR = 0;

static void show(const char *text)
{
    for (; *text; text++)
        kernel(K_PUT, *text, 0, 0);
}

/* The line as it was edited; -1 where the process was killed. */
static int edit(char *line)
{
    int count = 0, byte;
    while ((byte = kernel(K_GET, 0, 0, 0)) != '\r') {
        if (byte < 0)
            return -1;
        if (byte == '#' || byte == DELETE)
            count -= count > 0;
        else if (byte == '@' || byte == KILL)
            count = 0;
        else if (count < LENGTH - 1)
            line[count++] = byte;
        kernel(K_PUT, byte, 0, 0);
    }
    line[count] = 0;
    show("\r\n");
    return count;
}

static void recall(char *line)
{
    for (u32 back = 0; back < KEPT; back++) {
        const char *old = history[(last - back) % KEPT];
        if (*old && strncmp(old, line + 1, strlen(line + 1)) == 0) {
            strcpy(line, old);
            show(line);
            show("\r\n");
            return;
        }
    }
}

static int read_line(const char *prompt, char *to, u32 size)
{
    char line[LENGTH];
    if ((u32) to + size > LIMIT || size < LENGTH)
        return BAD_ADDRESS;
    show(prompt);
    if (edit(line) < 0)
        return NO_PROCESS;
    if (*line == '!')
        recall(line);
    if (*line)
        strcpy(history[++last % KEPT], line);
    strcpy(to, line);
    return strlen(line);
}

void supervisor_call(struct frame *frame)
{
    frame->r[0] = frame->number == S_LINE ? read_line((const char *) frame->r[1], (char *) frame->r[2], frame->r[3]) : NO_CALL;
}
