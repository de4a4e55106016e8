/* The calls that the library makes, in a program of Pebble. */
#include "user.h"

void put(int byte)
{
    kernel(K_PUT, byte, 0, 0);
}

int get(void)
{
    return kernel(K_GET, 0, 0, 0);
}

void exit(int code)
{
    for (;;)
        kernel(K_EXIT, code, 0, 0);
}

const char *trouble(int answer)
{
    switch (answer) {
    case BAD_ADDRESS: return "bad address";
    case NO_FILE: return "no such file or program";
    case FILE_EXISTS: return "the file exists";
    case NO_ROOM: return "no room";
    case BAD_VOLUME: return "the volume can't do that";
    case NO_PROCESS: return "no such process";
    case BAD_PROGRAM: return "not a program";
    default: return "no such call";
    }
}
