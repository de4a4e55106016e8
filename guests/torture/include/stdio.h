/* For GCC's execution tests: what they include. */
#include <stdarg.h>
#include <stddef.h>
typedef void FILE;
extern FILE *stdout, *stderr;
int printf(const char *, ...);
int fprintf(FILE *, const char *, ...);
int sprintf(char *, const char *, ...);
int snprintf(char *, size_t, const char *, ...);
int vprintf(const char *, va_list);
int vsprintf(char *, const char *, va_list);
int vsnprintf(char *, size_t, const char *, va_list);
int putchar(int);
int puts(const char *);
int fflush(FILE *);
