/* Functions of many shapes whose stack gcc tells by -fstack-usage: ../stack_test.py compares. */
#include <stddef.h>
#include <stdint.h>

void *memcpy(void *to, const void *from, size_t length);

#define OWN __attribute__((noinline, noclone))

volatile uint64_t sink;

OWN uint64_t leaf(uint64_t a)
{
    return a * 3;
}

OWN void array(uint64_t a)
{
    volatile uint8_t bytes[200];

    bytes[a % 200] = 1;
    sink = bytes[0];
}

/* More than the one byte of an immediate operand, and a host's function. */
OWN void copy(const uint8_t *from)
{
    uint8_t bytes[600];

    memcpy(bytes, from, (size_t)sink % sizeof bytes);
    sink = bytes[sink % sizeof bytes];
}

/* Registers that are saved over a call. */
OWN uint64_t saves(uint64_t a, uint64_t b, uint64_t c, uint64_t d)
{
    uint64_t sum = 0;

    for (uint64_t at = 0; at < a; at++) {
        array(at);
        sum += b * c + d + at;
    }
    return sum;
}

/* Arguments that do not fit the registers: the last three are the caller's to store. */
OWN uint64_t many(uint64_t a, uint64_t b, uint64_t c, uint64_t d, uint64_t e, uint64_t f, uint64_t g, uint64_t h, uint64_t i)
{
    volatile uint8_t bytes[50];

    bytes[a % 50] = (uint8_t)(g + h + i);
    return bytes[0] + b + c + d + e + f;
}

OWN uint64_t gives_many(uint64_t a)
{
    volatile uint8_t bytes[40];

    bytes[a % 40] = 1;
    return many(a, bytes[1], 3, 4, 5, 6, 7, 8, 9) + bytes[0];
}

/* A jump to another function in the place of a call. */
OWN uint64_t jumps(uint64_t a, uint64_t b)
{
    array(b);
    return saves(a + 1, b, 1, 2);
}

/* A jump that is made or not: a conditional one to another function. */
OWN void may_jump(uint64_t a)
{
    if (a > 5)
        array(a);
}

/* A frame that is aligned beyond what the caller keeps. */
OWN void aligned(uint64_t a)
{
    _Alignas(64) volatile uint8_t bytes[100];

    bytes[a % 100] = 2;
    array(bytes[3]);
}

/* Enough cases for a jump table. */
OWN uint64_t table(uint64_t a, uint64_t b)
{
    volatile uint64_t words[4];

    words[b % 4] = a;
    switch (a) {
    case 0: array(1); return b;
    case 1: saves(b, 1, 2, 3); return b + 9;
    case 2: sink = words[0]; return 3;
    case 3: array(b); sink = 4; return 2;
    case 4: copy((const uint8_t *)b); return b * b;
    case 5: sink = b; array(words[2]); return 1;
    case 6: return leaf(b) * 7;
    case 7: sink = words[1] + b; return words[3];
    default: return words[1];
    }
}

uint64_t all(uint64_t a)
{
    volatile uint8_t bytes[24];

    bytes[a % 24] = 1;
    jumps(a, 1);
    may_jump(a);
    aligned(a);
    table(a, a + 1);
    return gives_many(bytes[2]) + 1;
}
