/* What is shown on the console and typed at it, by `put` and `get`, which a start file has. */
#include "guest.h"

static void print_number(u32 value, u32 base, int is_negative, int width, char fill)
{
    char digits[12];
    int count = 0;
    do {
        digits[count++] = "0123456789abcdef"[value % base];
        value /= base;
    } while (value != 0);
    if (is_negative)
        digits[count++] = '-';
    for (; width > count; width--)
        put(fill);
    while (count > 0)
        put(digits[--count]);
}

static void print_signed(i32 value, int width)
{
    print_number(value < 0 ? -(u32) value : value, 10, value < 0, width, ' ');
}

static void print_text(const char *text, int width)
{
    for (; *text; text++, width--)
        put(*text);
    for (; width > 0; width--)
        put(' ');
}

void print(const char *form, ...)
{
    va_list rest;
    va_start(rest, form);
    for (; *form; form++) {
        char fill = form[1] == '0' ? '0' : ' ';
        int width = 0;
        if (*form == '\n')
            put('\r');
        if (*form != '%') {
            put(*form);
            continue;
        }
        for (form++; *form >= '0' && *form <= '9'; form++)
            width = 10 * width + *form - '0';
        switch (*form) {
        case 'd': print_signed(va_arg(rest, int), width); break;
        case 'u': print_number(va_arg(rest, u32), 10, 0, width, fill); break;
        case 'x': print_number(va_arg(rest, u32), 16, 0, width, fill); break;
        case 'c': put(va_arg(rest, int)); break;
        case 's': print_text(va_arg(rest, const char *), width); break;
        default: put(*form);
        }
    }
    va_end(rest);
}

int get_line(char *line, int size)
{
    int count = 0, byte;
    while ((byte = get()) != '\r')
        if (count < size - 1)
            line[count++] = byte;
    line[count] = 0;
    return count;
}
