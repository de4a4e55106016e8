/* Does what those instructions do that GCC uses and the machine hasn't: EXTV, EXTZV, CMPV, CMPZV, INSV, FFS, FFC, EMUL, EDIV, ASHQ,
   MOVC3, MOVC5 and CMPC3. start/emulated.s calls it where the instruction was met, in any mode and as often at once as
   interrupts want it. Nothing in this file may need it itself: `make` looks. */
#include "guest.h"

/* What `emulated` has saved. There is room below the PC for what the instruction pushes. */
struct frame {
    u32 registers[14];
    u32 *top;
    u32 room[5];
    u32 pc, psl;
};

/* The registers as the instruction sees them, and its codes. An operand in a register is a place in memory so, as any other. */
struct processor {
    u32 r[16];
    u32 psw;
    u32 literal[2];
};

enum { AP = 12, FP = 13, SP = 14, PC = 15 };
enum { C = 1, V = 2, Z = 4, N = 8 };

static u32 fetch(struct processor *p, int size)
{
    u32 value = 0;
    for (int i = 0; i < size; i++)
        value |= (u32) *(u8 *) p->r[PC]++ << 8 * i;
    return value;
}

static u32 fetch_signed(struct processor *p, int size)
{
    u32 value = fetch(p, size);
    return size == 1 ? (u32) (i8) value : size == 2 ? (u32) (i16) value : value;
}

/* The place of the next operand. What it does to registers is done. */
static void *operand(struct processor *p, int size)
{
    u32 byte = fetch(p, 1), index = 0, place;
    if ((byte & 0xf0) == 0x40) {
        index = p->r[byte & 15] * size;
        byte = fetch(p, 1);
    }
    u32 *r = &p->r[byte & 15];
    switch (byte & 0xf0) {
    case 0x50: return r;
    case 0x60: place = *r; break;
    case 0x70: place = *r -= size; break;
    case 0x80: place = *r; *r += size; break;
    case 0x90: place = *(u32 *) *r; *r += 4; break;
    case 0xa0: place = fetch_signed(p, 1); place += *r; break;
    case 0xb0: place = fetch_signed(p, 1); place = *(u32 *) (place + *r); break;
    case 0xc0: place = fetch_signed(p, 2); place += *r; break;
    case 0xd0: place = fetch_signed(p, 2); place = *(u32 *) (place + *r); break;
    case 0xe0: place = fetch_signed(p, 4); place += *r; break;
    case 0xf0: place = fetch_signed(p, 4); place = *(u32 *) (place + *r); break;
    default:
        p->literal[0] = byte;
        p->literal[1] = 0;
        return p->literal;
    }
    return (void *) (place + index);
}

static u32 read_byte(struct processor *p) { return *(u8 *) operand(p, 1); }
static u32 read_word(struct processor *p) { return *(u16 *) operand(p, 2); }
static u32 read_long(struct processor *p) { return *(u32 *) operand(p, 4); }

/* N and Z of a result; V and C as they are given. */
static void set_codes(struct processor *p, i32 sign, u32 result, u32 others)
{
    p->psw = (p->psw & ~(u32) (N | Z | V | C)) + (sign < 0 ? N : 0) + (result == 0 ? Z : 0) + others;
}

static u32 ones(u32 size)
{
    return size >= 32 ? ~0u : ~(~0u << size);
}

/* Bit fields. The bytes are read and written that have bits of the field, and no other. */

struct field {
    u8 *base;
    i32 skipped;            /* bits of the first byte before the field */
    u32 size;
};

static struct field field_operand(struct processor *p)
{
    i32 position = read_long(p);
    u32 size = read_byte(p);
    u8 *base = operand(p, 1);
    return (struct field) { base + (position >> 3), position & 7, size };
}

static u32 field_value(struct field f)
{
    u32 value = 0;
    u8 *at = f.base;
    for (i32 shift = -f.skipped; shift < (i32) f.size; shift += 8, at++) {
        i32 byte = *at;
        value |= shift < 0 ? byte >> -shift : byte << shift;
    }
    return value & ones(f.size);
}

static void insert(struct field f, u32 value)
{
    u8 *at = f.base;
    u32 mask = ones(f.size);
    for (i32 shift = -f.skipped; shift < (i32) f.size; shift += 8, at++) {
        u32 bits = shift < 0 ? value << -shift : shift_right(value, shift);
        u32 changed = shift < 0 ? mask << -shift : shift_right(mask, shift);
        *at = (*at & ~changed) | (bits & changed);
    }
}

static u32 extended(struct field f, u32 value)
{
    return f.size > 0 && f.size < 32 && value & 1u << (f.size - 1) ? value | ~ones(f.size) : value;
}

static void extract(struct processor *p, int is_signed)
{
    struct field f = field_operand(p);
    u32 value = field_value(f);
    if (is_signed)
        value = extended(f, value);
    *(u32 *) operand(p, 4) = value;
    set_codes(p, value, value, p->psw & C);
}

static void compare_field(struct processor *p, int is_signed)
{
    struct field f = field_operand(p);
    u32 value = field_value(f), other;
    if (is_signed)
        value = extended(f, value);
    other = read_long(p);
    set_codes(p, (i32) value < (i32) other ? -1 : 0, value - other, value < other ? C : 0);
}

static void insert_field(struct processor *p)
{
    u32 value = read_long(p);
    insert(field_operand(p), value);
}

/* FFS and FFC: the place of the first bit that is 1, or 0. */
static void find(struct processor *p, u32 wanted)
{
    i32 place = read_long(p);
    u32 size = read_byte(p), passed = 0;
    u8 *base = operand(p, 1);
    while (passed < size && field_value((struct field) { base + (place >> 3), place & 7, 1 }) != wanted)
        passed++, place++;
    *(u32 *) operand(p, 4) = place;
    set_codes(p, 0, passed < size, 0);
}

/* Numbers of 64 bits are two longwords here: low and high. */

static void negate(u32 *low, u32 *high)
{
    *low = -*low;
    *high = ~*high + (*low == 0);
}

static void multiply(u32 a, u32 b, u32 *low, u32 *high)
{
    *low = *high = 0;
    for (int i = 0; i < 32; i++, b <<= 1) {
        *high += *high + ((i32) *low < 0);
        *low += *low;
        if ((i32) b < 0) {
            *low += a;
            *high += *low < a;
        }
    }
}

static void emul(struct processor *p)
{
    i32 a = read_long(p), b = read_long(p), add = read_long(p);
    u32 low, high, *product;
    multiply(a < 0 ? -(u32) a : a, b < 0 ? -(u32) b : b, &low, &high);
    if ((a ^ b) < 0)
        negate(&low, &high);
    low += add;
    high += (add < 0 ? -1 : 0) + (low < (u32) add);
    product = operand(p, 8);
    product[0] = low;
    product[1] = high;
    set_codes(p, high, low | high, 0);
}

static void ediv(struct processor *p)
{
    i32 divisor = read_long(p);
    u32 *dividend = operand(p, 8), low = dividend[0], high = dividend[1];
    u32 by = divisor < 0 ? -(u32) divisor : divisor, quotient = 0, first = low, overflow = V;
    i32 sign = high;
    if (sign < 0)
        negate(&low, &high);
    if (high < by) {
        for (int i = 0; i < 32; i++) {
            int carry = (i32) high < 0;
            high += high + ((i32) low < 0);
            low += low;
            quotient += quotient;
            if (carry || high >= by) {
                high -= by;
                quotient++;
            }
        }
        if ((sign ^ divisor) < 0)
            quotient = -quotient;
        if (quotient == 0 || ((i32) quotient < 0) == ((sign ^ divisor) < 0))
            overflow = 0;
    }
    if (overflow) {
        quotient = first;
        high = 0;
    }
    u32 *quotient_place = operand(p, 4), *remainder_place = operand(p, 4);
    *quotient_place = quotient;
    *remainder_place = sign < 0 ? -high : high;
    set_codes(p, quotient, quotient, overflow);
}

static void ashq(struct processor *p)
{
    i32 count = (i8) read_byte(p);
    u32 *value = operand(p, 8), low = value[0], high = value[1], overflow = 0;
    for (; count > 0 && (low | high); count--) {
        u32 before = high;
        high += high + ((i32) low < 0);
        low += low;
        if ((i32) (before ^ high) < 0)
            overflow = V;
    }
    for (; count < 0 && (low != high || (high != 0 && high != ~0u)); count++) {
        low = shift_right(low, 1) | high << 31;
        high = (i32) high >> 1;
    }
    value = operand(p, 8);
    value[0] = low;
    value[1] = high;
    set_codes(p, high, low | high, overflow);
}

/* Strings. MOVC5 fills what the source hasn't. */

static void move(struct processor *p, int fills)
{
    u32 from_size = read_word(p);
    u8 *from = operand(p, 1);
    u32 fill = fills ? read_byte(p) : 0, to_size = fills ? read_word(p) : from_size;
    u8 *to = operand(p, 1);
    u32 moved = from_size < to_size ? from_size : to_size;
    memmove(to, from, moved);
    memset(to + moved, fill, to_size - moved);
    set_codes(p, (i16) from_size < (i16) to_size ? -1 : 0, from_size != to_size, from_size < to_size ? C : 0);
    p->r[0] = from_size - moved;
    p->r[1] = (u32) (from + moved);
    p->r[3] = (u32) (to + to_size);
    p->r[2] = p->r[4] = p->r[5] = 0;
}

static void compare(struct processor *p)
{
    u32 size = read_word(p);
    u8 *left = operand(p, 1), *right = operand(p, 1);
    for (; size > 0 && *left == *right; size--)
        left++, right++;
    u32 a = size > 0 ? *left : 0, b = size > 0 ? *right : 0;
    set_codes(p, (i8) a < (i8) b ? -1 : 0, a != b, a < b ? C : 0);
    p->r[0] = p->r[2] = size;
    p->r[1] = (u32) left;
    p->r[3] = (u32) right;
}

static int execute(struct processor *p)
{
    switch (fetch(p, 1)) {
    case 0x28: move(p, 0); return 1;
    case 0x29: compare(p); return 1;
    case 0x2c: move(p, 1); return 1;
    case 0x79: ashq(p); return 1;
    case 0x7a: emul(p); return 1;
    case 0x7b: ediv(p); return 1;
    case 0xea: find(p, 1); return 1;
    case 0xeb: find(p, 0); return 1;
    case 0xec: compare_field(p, 1); return 1;
    case 0xed: compare_field(p, 0); return 1;
    case 0xee: extract(p, 1); return 1;
    case 0xef: extract(p, 0); return 1;
    case 0xf0: insert_field(p); return 1;
    default: return 0;
    }
}

void emulate(struct frame *frame)
{
    struct processor p;
    for (int i = 0; i < 14; i++)
        p.r[i] = frame->registers[i];
    p.r[SP] = (u32) (frame + 1);
    p.r[PC] = frame->pc;
    p.psw = frame->psl;
    if (!execute(&p))
        unknown_instruction(&frame->pc);
    for (int i = 0; i < 14; i++)
        frame->registers[i] = p.r[i];
    frame->top = (u32 *) p.r[SP] - 2;
    frame->top[0] = p.r[PC];
    frame->top[1] = p.psw;
}
