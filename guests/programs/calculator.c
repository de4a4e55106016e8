/* A calculator that is typed to: each line is an expression of numbers, + - * / and brackets; an empty line ends it. */
#include "guest.h"

static const char *at;
static const char *trouble;

static int expression(void);

static int atom(void)
{
    int value = 0;
    if (*at == '-') {
        at++;
        return -atom();
    }
    if (*at == '(') {
        at++;
        value = expression();
        if (*at == ')')
            at++;
        else
            trouble = "a bracket isn't closed";
        return value;
    }
    if (*at < '0' || *at > '9')
        trouble = "a number is missing";
    while (*at >= '0' && *at <= '9')
        value = 10 * value + *at++ - '0';
    return value;
}

static int product(void)
{
    int value = atom();
    while (*at == '*' || *at == '/') {
        char sign = *at++;
        int other = atom();
        if (sign == '*')
            value *= other;
        else if (other != 0)
            value /= other;
        else
            trouble = "divided by zero";
    }
    return value;
}

static int expression(void)
{
    int value = product();
    while (*at == '+' || *at == '-')
        value = *at++ == '+' ? value + product() : value - product();
    return value;
}

int main(void)
{
    char line[80];
    while (get_line(line, sizeof line) > 0) {
        at = line;
        trouble = NULL;
        int value = expression();
        if (trouble == NULL && *at)
            trouble = "something is left";
        if (trouble)
            print("%s: %s\n", line, trouble);
        else
            print("%s = %d\n", line, value);
    }
    print("bye\n");
    return 0;
}
