/* A small Forth. Words are compiled to numbers that a loop with a `switch` runs: GCC makes a CASEL of it. */
#include "guest.h"

enum {
    NUMBER, CALL, EXIT, JUMP, JUMP_ZERO, ADD, SUBTRACT, MULTIPLY, DIVIDE, REMAINDER, DUP, DROP, SWAP, OVER, LESS, EQUAL, SHOW, NEW_LINE,
    PRIMITIVES, COLON, END, IF, ELSE, THEN, BEGIN, UNTIL
};

static struct word {
    const char *name;
    int length, meaning, place;
} words[40] = {
    { "exit", 4, EXIT, 0 }, { "+", 1, ADD, 0 }, { "-", 1, SUBTRACT, 0 }, { "*", 1, MULTIPLY, 0 }, { "/", 1, DIVIDE, 0 },
    { "mod", 3, REMAINDER, 0 }, { "dup", 3, DUP, 0 }, { "drop", 4, DROP, 0 }, { "swap", 4, SWAP, 0 }, { "over", 4, OVER, 0 },
    { "<", 1, LESS, 0 }, { "=", 1, EQUAL, 0 }, { ".", 1, SHOW, 0 }, { "cr", 2, NEW_LINE, 0 }, { ":", 1, COLON, 0 }, { ";", 1, END, 0 },
    { "if", 2, IF, 0 }, { "else", 4, ELSE, 0 }, { "then", 4, THEN, 0 }, { "begin", 5, BEGIN, 0 }, { "until", 5, UNTIL, 0 },
};
static int word_count = 21, code[400], code_size, data[50], depth, returns[50], calls, marks[10], marked;

static void run(int at)
{
    int base = calls;
    for (;;) {
        int b, *top = &data[depth - 1];
        switch (code[at++]) {
        case NUMBER: data[depth++] = code[at++]; break;
        case CALL: returns[calls++] = at + 1; at = code[at]; break;
        case EXIT:
            if (calls == base)
                return;
            at = returns[--calls];
            break;
        case JUMP: at = code[at]; break;
        case JUMP_ZERO: at = data[--depth] == 0 ? code[at] : at + 1; break;
        case ADD: b = data[--depth]; top[-1] += b; break;
        case SUBTRACT: b = data[--depth]; top[-1] -= b; break;
        case MULTIPLY: b = data[--depth]; top[-1] *= b; break;
        case DIVIDE: b = data[--depth]; top[-1] /= b; break;
        case REMAINDER: b = data[--depth]; top[-1] %= b; break;
        case DUP: data[depth++] = top[0]; break;
        case DROP: depth--; break;
        case SWAP: b = top[0]; top[0] = top[-1]; top[-1] = b; break;
        case OVER: data[depth++] = top[-1]; break;
        case LESS: b = data[--depth]; top[-1] = -(top[-1] < b); break;
        case EQUAL: b = data[--depth]; top[-1] = -(top[-1] == b); break;
        case SHOW: print("%d ", data[--depth]); break;
        case NEW_LINE: print("\n"); break;
        }
    }
}

static const char *next_word(const char *text, int *length)
{
    while (*text == ' ')
        text++;
    for (*length = 0; text[*length] && text[*length] != ' ';)
        ++*length;
    return text;
}

static struct word *find(const char *name, int length)
{
    for (int i = word_count; i-- > 0;)
        if (words[i].length == length && memcmp(words[i].name, name, length) == 0)
            return &words[i];
    return NULL;
}

static int number(const char *text, int length)
{
    int value = 0, sign = *text == '-' ? -1 : 1;
    for (int i = sign < 0; i < length; i++)
        value = 10 * value + text[i] - '0';
    return sign * value;
}

static void compile(int operation, int operand)
{
    code[code_size++] = operation;
    if (operation <= CALL || operation == JUMP || operation == JUMP_ZERO)
        code[code_size++] = operand;
}

static void control(int meaning)
{
    switch (meaning) {
    case IF: compile(JUMP_ZERO, 0); marks[marked++] = code_size - 1; break;
    case ELSE: compile(JUMP, 0); code[marks[marked - 1]] = code_size; marks[marked - 1] = code_size - 1; break;
    case THEN: code[marks[--marked]] = code_size; break;
    case BEGIN: marks[marked++] = code_size; break;
    case UNTIL: compile(JUMP_ZERO, marks[--marked]); break;
    }
}

static void interpret(const char *text)
{
    int length, compiling = 0;
    for (text = next_word(text, &length); length > 0; text = next_word(text + length, &length)) {
        struct word *word = find(text, length);
        int begin = code_size, meaning = !word ? NUMBER : word->meaning;
        if (meaning == COLON) {
            text = next_word(text + length, &length);
            words[word_count++] = (struct word) { text, length, CALL, code_size };
            compiling = 1;
            continue;
        }
        if (meaning > PRIMITIVES && meaning != END)
            control(meaning);
        else
            compile(meaning == END ? EXIT : meaning, word ? word->place : number(text, length));
        if (meaning == END)
            compiling = 0;
        else if (!compiling) {
            compile(EXIT, 0);
            run(begin);
            code_size = begin;
        }
    }
}

int main(void)
{
    interpret(": square dup * ; 12 square . -17 5 / . -17 5 mod . cr");
    interpret(": fib dup 2 < if else dup 1 - fib swap 2 - fib + then ; 15 fib . cr");
    interpret(": gcd begin swap over mod dup 0 = until drop ; 1071 462 gcd . cr");
    interpret(": step dup 2 mod if 3 * 1 + else 2 / then ; : collatz 0 swap begin step swap 1 + swap dup 1 = until drop ; 27 collatz . cr");
    print("%d words, %d left\n", word_count, depth);
    return 0;
}
