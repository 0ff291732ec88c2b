// Division of 64-bit numbers, which compilers call on 32-bit processors: under RISC-V's names, and through `divide_thumb.S`
// under ARM's. A division by zero gives any number; the program makes none.
#include <stdint.h>

enum { DIGIT = 1 << 16 };

// A digit of 16 bits of two digits and a rest, which is less than `by`, whose upper bit is set. Leaves the next rest.
static uint32_t next_digit(uint32_t *rest, uint32_t digit, uint32_t by) {
    uint32_t high = by / DIGIT, low = by % DIGIT;
    uint32_t quotient = *rest / high, left = *rest % high;
    while (quotient >= DIGIT || quotient * low > left * DIGIT + digit) {
        quotient--;
        left += high;
        if (left >= DIGIT) break;
    }
    *rest = *rest * DIGIT + digit - quotient * by;
    return quotient;
}

// Divides `rest` and one more word by a word that is larger than `rest`.
static uint32_t next_word(uint32_t *rest, uint32_t word, uint32_t by) {
    int shift = __builtin_clz(by);
    by <<= shift;
    if (shift) *rest = *rest << shift | word >> (32 - shift);
    word <<= shift;
    uint32_t high = next_digit(rest, word / DIGIT, by);
    uint32_t low = next_digit(rest, word % DIGIT, by);
    *rest >>= shift;
    return high * DIGIT + low;
}

static uint64_t by_word(uint64_t number, uint32_t by, uint64_t *rest) {
    uint32_t high = (uint32_t)(number >> 32), left = high % by;
    uint32_t low = next_word(&left, (uint32_t)number, by);
    *rest = left;
    return (uint64_t)(high / by) << 32 | low;
}

// The quotient has at most as many bits as `number` has more than `by`.
static uint64_t bit_by_bit(uint64_t number, uint64_t by, uint64_t *rest) {
    uint64_t quotient = 0;
    for (int shift = __builtin_clzll(by) - __builtin_clzll(number); shift >= 0; shift--) {
        quotient <<= 1;
        if (number >= by << shift) {
            number -= by << shift;
            quotient |= 1;
        }
    }
    *rest = number;
    return quotient;
}

uint64_t divide_unsigned(uint64_t number, uint64_t by, uint64_t *rest) {
    if (by > number || by == 0) {
        *rest = number;
        return 0;
    }
    if (number >> 32 == 0) {
        *rest = (uint32_t)number % (uint32_t)by;
        return (uint32_t)number / (uint32_t)by;
    }
    return by >> 32 == 0 ? by_word(number, (uint32_t)by, rest) : bit_by_bit(number, by, rest);
}

static uint64_t size_of(int64_t number) { return number < 0 ? -(uint64_t)number : (uint64_t)number; }

// The remainder has the sign of the number.
int64_t divide_signed(int64_t number, int64_t by, int64_t *rest) {
    uint64_t left, quotient = divide_unsigned(size_of(number), size_of(by), &left);
    *rest = (int64_t)(number < 0 ? -left : left);
    return (int64_t)((number < 0) != (by < 0) ? -quotient : quotient);
}

uint64_t __udivdi3(uint64_t number, uint64_t by) {
    uint64_t rest;
    return divide_unsigned(number, by, &rest);
}

uint64_t __umoddi3(uint64_t number, uint64_t by) {
    uint64_t rest;
    divide_unsigned(number, by, &rest);
    return rest;
}

int64_t __divdi3(int64_t number, int64_t by) {
    int64_t rest;
    return divide_signed(number, by, &rest);
}

int64_t __moddi3(int64_t number, int64_t by) {
    int64_t rest;
    divide_signed(number, by, &rest);
    return rest;
}
