/* Records: given and returned by value, bit fields with and without sign, unions, strings, lists by pointers. */
#include "guest.h"

struct flags {
    unsigned level : 4, category : 6, is_open : 1;
    int balance : 11;
    unsigned rest : 10;
};

struct person {
    char name[20];
    struct flags flags;
    i16 years;
    struct person *next;
};

static struct person people[6];

static struct person make(const char *name, int years, int balance)
{
    struct person made = { .flags = { years & 15, years, balance > 0, balance, ~years }, .years = years };
    strcpy(made.name, name);
    return made;
}

static struct person older(struct person person, int years)
{
    person.years += years;
    person.flags.balance -= years;
    person.flags.level += years;
    return person;
}

static struct person *insert(struct person *list, struct person *one)
{
    if (list == NULL || strcmp(one->name, list->name) < 0) {
        one->next = list;
        return one;
    }
    list->next = insert(list->next, one);
    return list;
}

static void show(const struct person *person)
{
    struct flags flags = person->flags;
    print("%8s %3d %2u %2u ", person->name, person->years, flags.level, flags.category);
    print("%u %5d %3u\n", flags.is_open, flags.balance, flags.rest);
}

int main(void)
{
    static const char *const names[6] = { "Noether", "Hopper", "Turing", "Liskov", "Dijkstra", "Knuth" };
    struct person *list = NULL;
    union { u32 whole; u16 halves[2]; u8 bytes[4]; struct { unsigned low : 12, high : 20; } fields; } parts = { 0x12345678 };
    for (int i = 0; i < 6; i++) {
        people[i] = make(names[i], 30 + 7 * i, 100 * i - 250);
        people[i] = older(people[i], i);
        list = insert(list, &people[i]);
    }
    for (; list; list = list->next)
        show(list);
    print("%x %x %x %x\n", parts.halves[1], parts.bytes[0], parts.fields.low, parts.fields.high);
    return 0;
}
