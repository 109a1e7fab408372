/* One function for each thing that ../stack.py must refuse to put a figure on; -D chooses. */
#include <stdint.h>

volatile uint64_t sink;

#if defined RECURSION
uint64_t exported(uint64_t a)
{
    volatile uint64_t kept = a;

    return a == 0 ? 1 : kept * exported(a - 1) + kept;
}
#elif defined MUTUAL
__attribute__((noinline)) uint64_t other(uint64_t a);
__attribute__((noinline)) uint64_t exported(uint64_t a)
{
    return a < 2 ? a : other(a - 1) + sink;
}
uint64_t other(uint64_t a)
{
    return exported(a / 2) * sink;
}
#elif defined INDIRECT_CALL
uint64_t exported(uint64_t (*function)(uint64_t))
{
    return function(1) + 1;
}
#elif defined INDIRECT_JUMP
uint64_t exported(uint64_t (*function)(uint64_t))
{
    return function(1);
}
#elif defined VARIABLE
uint64_t exported(uint64_t a)
{
    volatile uint8_t bytes[a + 1];

    bytes[a] = 1;
    return bytes[0];
}
#elif defined UNKNOWN
uint64_t unknown(uint64_t a);
uint64_t exported(uint64_t a)
{
    return unknown(a) + 1;
}
#elif defined UNBALANCED
uint64_t exported(uint64_t a)
{
    __asm__ volatile("push %rax");
    return a + sink;
}
#elif defined TWO_DEPTHS
uint64_t exported(uint64_t a)
{
    __asm__ volatile("test %0, %0\n\tje 1f\n\tsub $64, %%rsp\n1:\tadd $0, %0" : "+r"(a));
    return a;
}
#elif defined MOVED
uint64_t exported(uint64_t a)
{
    __asm__ volatile("mov %0, %%rsp" : : "r"(a));
    return a;
}
#elif defined NOTHING
static const uint64_t unused = 1;
#endif
