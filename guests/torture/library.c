/* What GCC's execution tests call besides guests/library: a little of C's own library, written plainly. */
#include "guest.h"

extern char memory_begin[];

/* Memory is given and never taken back. A block has its size before it. */

static char *memory_end;

void *malloc(size_t size)
{
    if (!memory_end)
        memory_end = memory_begin;
    size = (size + 7) & ~(size_t) 7;
    if (memory_end + size + 0x8000 > (char *) MFPR(MEMSIZE))
        return NULL;
    *(size_t *) memory_end = size;
    memory_end += size + 8;
    return memory_end - size;
}

void free(void *block)
{
}

void *calloc(size_t count, size_t size)
{
    char *block = malloc(count * size);
    return block ? memset(block, 0, count * size) : NULL;
}

void *realloc(void *block, size_t size)
{
    char *new = malloc(size);
    if (new && block) {
        size_t old = ((size_t *) block)[-2];
        memcpy(new, block, old < size ? old : size);
    }
    return new;
}

/* Texts. */

char *strcat(char *to, const char *from)
{
    strcpy(to + strlen(to), from);
    return to;
}

char *strncpy(char *to, const char *from, size_t size)
{
    size_t at = 0;
    for (; at < size && from[at]; at++)
        to[at] = from[at];
    for (; at < size; at++)
        to[at] = 0;
    return to;
}

char *strncat(char *to, const char *from, size_t size)
{
    char *end = to + strlen(to);
    while (size-- > 0 && *from)
        *end++ = *from++;
    *end = 0;
    return to;
}

char *stpcpy(char *to, const char *from)
{
    strcpy(to, from);
    return to + strlen(to);
}

void *mempcpy(void *to, const void *from, size_t size)
{
    return (char *) memcpy(to, from, size) + size;
}

void *memchr(const void *from, int byte, size_t size)
{
    const u8 *at = from;
    for (; size-- > 0; at++)
        if (*at == (u8) byte)
            return (void *) at;
    return NULL;
}

char *strchr(const char *text, int byte)
{
    for (; *text != (char) byte; text++)
        if (!*text)
            return NULL;
    return (char *) text;
}

char *strrchr(const char *text, int byte)
{
    const char *found = NULL;
    do
        if (*text == (char) byte)
            found = text;
    while (*text++);
    return (char *) found;
}

char *index(const char *text, int byte) { return strchr(text, byte); }
char *rindex(const char *text, int byte) { return strrchr(text, byte); }

char *strstr(const char *text, const char *part)
{
    size_t size = strlen(part);
    for (; *text || !size; text++)
        if (strncmp(text, part, size) == 0)
            return (char *) text;
    return NULL;
}

size_t strnlen(const char *text, size_t size)
{
    size_t at = 0;
    while (at < size && text[at])
        at++;
    return at;
}

size_t strspn(const char *text, const char *set)
{
    size_t at = 0;
    while (text[at] && strchr(set, text[at]))
        at++;
    return at;
}

size_t strcspn(const char *text, const char *set)
{
    size_t at = 0;
    while (text[at] && !strchr(set, text[at]))
        at++;
    return at;
}

char *strpbrk(const char *text, const char *set)
{
    text += strcspn(text, set);
    return *text ? (char *) text : NULL;
}

int bcmp(const void *left, const void *right, size_t size) { return memcmp(left, right, size); }
void bzero(void *to, size_t size) { memset(to, 0, size); }
void bcopy(const void *from, void *to, size_t size) { memmove(to, from, size); }

/* Numbers. */

int abs(int value) { return value < 0 ? -value : value; }
long labs(long value) { return value < 0 ? -value : value; }
long long llabs(long long value) { return value < 0 ? -value : value; }
int isprint(int byte) { return byte >= 0x20 && byte < 0x7f; }
int isdigit(int byte) { return byte >= '0' && byte <= '9'; }

/* Texts of numbers: to the console, or into a buffer. */

static char *target;
static size_t left, total;

static void emit(int byte)
{
    total++;
    if (!target)
        put(byte);
    else if (left > 1) {
        *target++ = byte;
        left--;
    }
}

static void emit_number(unsigned long long value, unsigned base, int is_negative, int width, int fill, const char *digits)
{
    char text[30];
    int count = 0;
    do {
        text[count++] = digits[value % base];
        value /= base;
    } while (value);
    if (is_negative)
        text[count++] = '-';
    for (; width > count; width--)
        emit(fill);
    while (count > 0)
        emit(text[--count]);
}

static void format(const char *form, va_list rest)
{
    total = 0;
    for (; *form; form++) {
        int width = 0, wide = 0, fill = ' ', precision = -1;
        if (*form != '%') {
            emit(*form);
            continue;
        }
        for (form++; *form == '0' || *form == '-' || *form == '#' || *form == '+' || *form == ' '; form++)
            fill = *form == '0' ? '0' : fill;
        for (; *form == '*' || isdigit(*form); form++)
            width = *form == '*' ? va_arg(rest, int) : 10 * width + *form - '0';
        if (*form == '.')
            for (form++, precision = 0; *form == '*' || isdigit(*form); form++)
                precision = *form == '*' ? va_arg(rest, int) : 10 * precision + *form - '0';
        for (; *form == 'l' || *form == 'h' || *form == 'z'; form++)
            wide += *form == 'l';
        switch (*form) {
        case 'd': case 'i': {
            long long value = wide > 1 ? va_arg(rest, long long) : va_arg(rest, int);
            emit_number(value < 0 ? -(unsigned long long) value : (unsigned long long) value, 10, value < 0, width, fill, "0123456789");
            break;
        }
        case 'u': emit_number(wide > 1 ? va_arg(rest, unsigned long long) : va_arg(rest, u32), 10, 0, width, fill, "0123456789"); break;
        case 'o': emit_number(wide > 1 ? va_arg(rest, unsigned long long) : va_arg(rest, u32), 8, 0, width, fill, "01234567"); break;
        case 'p': case 'x':
            emit_number(wide > 1 ? va_arg(rest, unsigned long long) : va_arg(rest, u32), 16, 0, width, fill, "0123456789abcdef");
            break;
        case 'X':
            emit_number(wide > 1 ? va_arg(rest, unsigned long long) : va_arg(rest, u32), 16, 0, width, fill, "0123456789ABCDEF");
            break;
        case 'c': emit(va_arg(rest, int)); break;
        case 's':
            for (const char *text = va_arg(rest, const char *); *text && precision != 0; text++, precision--)
                emit(*text);
            break;
        default: emit(*form);
        }
    }
}

int vprintf(const char *form, va_list rest)
{
    target = NULL;
    format(form, rest);
    return total;
}

int vsnprintf(char *to, size_t size, const char *form, va_list rest)
{
    target = to;
    left = size;
    format(form, rest);
    if (size > 0)
        *target = 0;
    return total;
}

int vsprintf(char *to, const char *form, va_list rest) { return vsnprintf(to, 0x7fffffff, form, rest); }

int printf(const char *form, ...)
{
    va_list rest;
    va_start(rest, form);
    return vprintf(form, rest);
}

int sprintf(char *to, const char *form, ...)
{
    va_list rest;
    va_start(rest, form);
    return vsprintf(to, form, rest);
}

int snprintf(char *to, size_t size, const char *form, ...)
{
    va_list rest;
    va_start(rest, form);
    return vsnprintf(to, size, form, rest);
}

int putchar(int byte)
{
    put(byte);
    return byte;
}

int puts(const char *text)
{
    return printf("%s\n", text);
}

/* Streams: all lead to the console. */
void *stdout, *stderr;

int fprintf(void *stream, const char *form, ...)
{
    va_list rest;
    va_start(rest, form);
    return vprintf(form, rest);
}

int fflush(void *stream) { return 0; }
