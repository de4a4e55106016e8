/* The shell: reads a line, and does what its first word says: one of the commands below, or a program of that name. */
#include "user.h"

enum { LINE = 64, WORDS = 4 };

static char *words[WORDS];      /* of the line; those that it hasn't are empty texts */
static char block[BLOCK];

static int tell(int answer)
{
    if (answer < 0)
        print("%s\n", trouble(answer));
    return answer;
}

static u32 number(const char *text)
{
    u32 value = 0;
    for (; *text >= '0' && *text <= '9'; text++)
        value = 10 * value + *text - '0';
    return value;
}

/* Files. */

static void directory(void)
{
    static struct file file;
    u32 unit = strcmp(words[1], "B:") == 0, count = 0, blocks = 0;
    for (u32 i = 0; i < 32; i++) {
        if (tell(list_file(unit, i, &file)) < 0)
            return;
        if (!file.is_used)
            continue;
        print("%12s%6u bytes %3u blocks\n", file.name, file.size, file.blocks);
        count++;
        blocks += file.blocks;
    }
    print("%u files, %u blocks\n", count, blocks);
}

static void type(void)
{
    int file = tell(open_file(words[1])), size;
    if (file < 0)
        return;
    while ((size = tell(read_file(file, block))) > 0)
        for (int i = 0; i < size; i++) {
            if (block[i] == '\n')
                put('\r');
            put(block[i]);
        }
    close_file(file);
}

static void copy(void)
{
    int from = tell(open_file(words[1])), to, size;
    if (from < 0)
        return;
    if ((to = tell(create_file(words[2]))) >= 0) {
        while ((size = tell(read_file(from, block))) > 0)
            if (tell(append_file(to, block, size)) < 0)
                break;
        close_file(to);
    }
    close_file(from);
}

static void write(void)
{
    static char line[LINE];
    int file = tell(create_file(words[1])), count = 0, length;
    if (file < 0)
        return;
    while ((length = read_line("> ", line, LINE)) >= 0 && strcmp(line, ".") != 0 && count + length + 1 <= BLOCK) {
        memcpy(block + count, line, length);
        count += length;
        block[count++] = '\n';
    }
    if (count > 0)
        tell(append_file(file, block, count));
    close_file(file);
}

static void delete(void)
{
    tell(delete_file(words[1]));
}

static void rename(void)
{
    tell(rename_file(words[1], words[2]));
}

static void sum(void)
{
    int file = tell(open_file(words[1])), size;
    u32 sum = 0, count = 0;
    if (file < 0)
        return;
    for (; (size = tell(read_file(file, block))) > 0; count += size)
        for (int i = 0; i < size; i++)
            sum = sum * 31 + (u8) block[i];
    print("%u bytes, sum %08x\n", count, sum);
    close_file(file);
}

static void print_file(void)
{
    static char name[NAME];
    strcpy(name, words[1]);
    tell(send_job(name));
}

/* Processes and memory. */

static void show(void)
{
    static const char *const states[] = { "", "ready", "waits", "ended" };
    static struct info info;
    for (u32 i = 0; process_info(i, &info) == 0; i++)
        if (info.state != 0)
            print("%3u %8s %s\n", info.number, info.name, states[info.state]);
}

static void memory(void)
{
    static struct memory_info info;
    memory_info(&info);
    print("%u frames, %u free\n", info.frames, info.free);
    print("%u pages in, %u out, %u dropped, %u copied\n", info.page_ins, info.page_outs, info.dropped, info.copies);
}

static void show_time(void)
{
    print("%u ticks\n", time());
}

static void echo(void)
{
    for (int i = 1; i < WORDS && *words[i]; i++)
        print("%s ", words[i]);
    print("\n");
}

static void pause(void)
{
    sleep(number(words[1]));
}

static void end(void)
{
    tell(kill(number(words[1])));
}

/* Waits for a child; its number. */
static int child_ended(void)
{
    int child = tell(wait_child()), code = (i8) (child >> 8);
    if (child >= 0 && code != 0)
        print("process %u ends with code %d\n", child & 0xff, code);
    return child < 0 ? child : child & 0xff;
}

static void wait_command(void)
{
    child_ended();
}

static void help(void);

static const struct command {
    const char *name;
    void (*function)(void);
    const char *meaning;
} commands[] = {
    { "HELP", help, "shows this" },
    { "DIR", directory, "[B:]  lists the files" },
    { "TYPE", type, "FILE  shows a file" },
    { "WRITE", write, "FILE  makes a file of typed lines, to a line ." },
    { "COPY", copy, "FILE FILE  copies a file" },
    { "RENAME", rename, "FILE NAME  gives a file another name" },
    { "DELETE", delete, "FILE  removes a file" },
    { "SUM", sum, "FILE  adds a file up" },
    { "PRINT", print_file, "FILE  has a file printed" },
    { "SHOW", show, "lists the processes" },
    { "MEMORY", memory, "tells what the pager did" },
    { "TIME", show_time, "tells the ticks since the start" },
    { "ECHO", echo, "WORDS  shows them" },
    { "SLEEP", pause, "TICKS  waits so long" },
    { "KILL", end, "NUMBER  ends a process" },
    { "WAIT", wait_command, "waits for a program begun with &" },
};

enum { COMMANDS = sizeof commands / sizeof *commands };

static void help(void)
{
    for (int i = 0; i < COMMANDS; i++)
        print("%8s %s\n", commands[i].name, commands[i].meaning);
    print("PROGRAM [ARGUMENT] [&] runs a program, with & beside the shell\n");
}

static void run_program(void)
{
    int is_beside = strcmp(words[1], "&") == 0 || strcmp(words[2], "&") == 0;
    int child = fork();
    if (child == 0)
        exit(tell(run(words[0], strcmp(words[1], "&") == 0 ? "" : words[1])));
    if (tell(child) < 0 || is_beside)
        return;
    for (int ended = 0; ended >= 0 && ended != child;)
        ended = child_ended();
}

static void split(char *line)
{
    for (int i = 0; i < WORDS; i++) {
        while (*line == ' ')
            *line++ = 0;
        words[i] = line;
        while (*line && *line != ' ')
            line++;
    }
    if (*line == ' ')
        *line = 0;
}

int main(void)
{
    static char line[LINE + 1];
    while (read_line("$ ", line, LINE) >= 0) {
        int i = 0;
        split(line);
        while (i < COMMANDS && strcmp(commands[i].name, words[0]) != 0)
            i++;
        if (i < COMMANDS)
            commands[i].function();
        else if (*words[0])
            run_program();
    }
    return 0;
}
