/* The arithmetic for which GCC calls functions: division without sign, and numbers of 64 bits. The names are GCC's own; __udiv and
   __urem are those of NetBSD. Shifts and products of 64 bits are done by halves, so that nothing here must be emulated. */
#include "guest.h"

typedef union {
    u64 all;
    i64 number;
    struct { u32 low, high; } half;
} wide;

static u32 divide(u32 dividend, u32 divisor, u32 *remainder)
{
    u32 quotient = 0, rest = dividend;
    if ((i32) divisor < 0) {
        if (rest >= divisor)
            quotient = 1, rest -= divisor;
    } else if ((i32) dividend >= 0) {
        quotient = (i32) dividend / (i32) divisor;
        rest -= quotient * divisor;
    } else {
        quotient = (u32) ((i32) shift_right(dividend, 1) / (i32) divisor) << 1;
        rest -= quotient * divisor;
        if (rest >= divisor)
            quotient++, rest -= divisor;
    }
    *remainder = rest;
    return quotient;
}

u32 __udivsi3(u32 a, u32 b) { u32 rest; return divide(a, b, &rest); }
u32 __umodsi3(u32 a, u32 b) { u32 rest; divide(a, b, &rest); return rest; }
u32 __udiv(u32 a, u32 b) { return __udivsi3(a, b); }
u32 __urem(u32 a, u32 b) { return __umodsi3(a, b); }

static u64 product(u32 a, u32 b)
{
    u32 a_low = a & 0xffff, a_high = shift_right(a, 16), b_low = b & 0xffff, b_high = shift_right(b, 16);
    u32 low = a_low * b_low, cross = a_low * b_high, other = a_high * b_low;
    u32 middle = shift_right(low, 16) + (cross & 0xffff) + (other & 0xffff);
    wide result;
    result.half.low = (low & 0xffff) | middle << 16;
    result.half.high = a_high * b_high + shift_right(cross, 16) + shift_right(other, 16) + shift_right(middle, 16);
    return result.all;
}

u64 __muldi3(u64 left, u64 right)
{
    wide a = { left }, b = { right }, result = { product(a.half.low, b.half.low) };
    result.half.high += a.half.low * b.half.high + a.half.high * b.half.low;
    return result.all;
}

u64 __ashldi3(u64 value, int count)
{
    wide a = { value };
    if (count >= 32) {
        a.half.high = a.half.low << (count - 32);
        a.half.low = 0;
    } else if (count > 0) {
        a.half.high = a.half.high << count | shift_right(a.half.low, 32 - count);
        a.half.low <<= count;
    }
    return a.all;
}

u64 __lshrdi3(u64 value, int count)
{
    wide a = { value };
    if (count >= 32) {
        a.half.low = shift_right(a.half.high, count - 32);
        a.half.high = 0;
    } else if (count > 0) {
        a.half.low = shift_right(a.half.low, count) | a.half.high << (32 - count);
        a.half.high = shift_right(a.half.high, count);
    }
    return a.all;
}

i64 __ashrdi3(i64 value, int count)
{
    wide a = { value };
    if (count >= 32) {
        a.half.low = (i32) a.half.high >> (count - 32);
        a.half.high = (i32) a.half.high >> 31;
    } else if (count > 0) {
        a.half.low = shift_right(a.half.low, count) | a.half.high << (32 - count);
        a.half.high = (i32) a.half.high >> count;
    }
    return a.number;
}

static int is_below(wide a, wide b)
{
    return a.half.high < b.half.high || (a.half.high == b.half.high && a.half.low < b.half.low);
}

static wide difference(wide a, wide b)
{
    wide result;
    result.half.low = a.half.low - b.half.low;
    result.half.high = a.half.high - b.half.high - (a.half.low < b.half.low);
    return result;
}

/* Adds the word to itself; the bit comes in below. */
static void double_up(wide *a, u32 bit)
{
    a->half.high += a->half.high + ((i32) a->half.low < 0);
    a->half.low += a->half.low + bit;
}

static u64 divide_wide(u64 dividend, u64 divisor, u64 *remainder)
{
    wide a = { dividend }, b = { divisor }, quotient = { 0 }, rest = { 0 };
    if (a.half.high == 0 && b.half.high == 0) {
        quotient.half.low = divide(a.half.low, b.half.low, &rest.half.low);
    } else {
        for (int i = 0; i < 64; i++) {
            int carry = (i32) rest.half.high < 0;
            double_up(&rest, (i32) a.half.high < 0);
            double_up(&a, 0);
            double_up(&quotient, 0);
            if (carry || !is_below(rest, b)) {
                rest = difference(rest, b);
                quotient.half.low |= 1;
            }
        }
    }
    *remainder = rest.all;
    return quotient.all;
}

static u64 magnitude(i64 value)
{
    return value < 0 ? -(u64) value : (u64) value;
}

u64 __udivdi3(u64 a, u64 b) { u64 rest; return divide_wide(a, b, &rest); }
u64 __umoddi3(u64 a, u64 b) { u64 rest; divide_wide(a, b, &rest); return rest; }

u64 __udivmoddi4(u64 a, u64 b, u64 *remainder)
{
    u64 rest, quotient = divide_wide(a, b, &rest);
    if (remainder)
        *remainder = rest;
    return quotient;
}

i64 __divdi3(i64 a, i64 b)
{
    u64 rest, quotient = divide_wide(magnitude(a), magnitude(b), &rest);
    return (a < 0) != (b < 0) ? -quotient : quotient;
}

i64 __moddi3(i64 a, i64 b)
{
    u64 rest;
    divide_wide(magnitude(a), magnitude(b), &rest);
    return a < 0 ? -rest : rest;
}

i64 __negdi2(i64 a) { return -(u64) a; }

int __ucmpdi2(u64 left, u64 right)
{
    wide a = { left }, b = { right };
    return is_below(a, b) ? 0 : is_below(b, a) ? 2 : 1;
}

int __cmpdi2(i64 left, i64 right)
{
    return __ucmpdi2((u64) left ^ 1ull << 63, (u64) right ^ 1ull << 63);
}

/* Counts of bits. */
int __ctzsi2(u32 a) { int n = 0; for (; !(a & 1); a = shift_right(a, 1)) n++; return n; }
int __clzsi2(u32 a) { int n = 0; for (; (i32) a >= 0; a <<= 1) n++; return n; }
int __ffssi2(u32 a) { return a ? __ctzsi2(a) + 1 : 0; }
int __popcountsi2(u32 a) { int n = 0; for (; a; a &= a - 1) n++; return n; }
int __paritysi2(u32 a) { return __popcountsi2(a) & 1; }
int __ctzdi2(u64 value) { wide a = { value }; return a.half.low ? __ctzsi2(a.half.low) : 32 + __ctzsi2(a.half.high); }
int __clzdi2(u64 value) { wide a = { value }; return a.half.high ? __clzsi2(a.half.high) : 32 + __clzsi2(a.half.low); }
int __ffsdi2(u64 value) { return value ? __ctzdi2(value) + 1 : 0; }
int __popcountdi2(u64 value) { wide a = { value }; return __popcountsi2(a.half.low) + __popcountsi2(a.half.high); }
int __paritydi2(u64 value) { return __popcountdi2(value) & 1; }
int __clrsbsi2(i32 a) { return a == 0 || a == -1 ? 31 : __clzsi2(a < 0 ? ~a : a) - 1; }
int __clrsbdi2(i64 a) { return a == 0 || a == -1 ? 63 : __clzdi2(a < 0 ? ~a : a) - 1; }

u32 __bswapsi2(u32 a) { return a << 24 | (a & 0xff00) << 8 | (shift_right(a, 8) & 0xff00) | shift_right(a, 24); }

u64 __bswapdi2(u64 value)
{
    wide a = { value }, result;
    result.half.low = __bswapsi2(a.half.high);
    result.half.high = __bswapsi2(a.half.low);
    return result.all;
}
