/* The spooler prints the files that PRINT sends, one after another, line by line. */
#include "user.h"

enum { WIDTH = 132 };

static char block[BLOCK], line[WIDTH];

static void print_file(int file)
{
    int count = 0, size;
    while ((size = read_file(file, block)) > 0)
        for (int i = 0; i < size; i++) {
            if (block[i] != '\n')
                line[count++] = block[i];
            if (block[i] == '\n' || count == WIDTH) {
                print_line(line, count);
                count = 0;
            }
        }
    if (count > 0)
        print_line(line, count);
}

int main(void)
{
    static char name[NAME];
    while (receive_job(name) == 0) {
        int file = open_file(name);
        if (file < 0) {
            print("SPOOLER: %s: %s\n", name, trouble(file));
            continue;
        }
        print_file(file);
        close_file(file);
    }
    return 0;
}
