/*
 * The archive with no C library and no start files: what a loader's early stage has. This program brings its own start and the four
 * functions that the archive may ask of its host, and makes every call on a small stack of its own, which is painted before, so that
 * what each call took of it can be seen.
 * x86-64 Linux, for the test's output and end alone.
 */
#include "ultra.h"

/* ---- The host's side ---- */

void *memcpy(void *to, const void *from, size_t length)
{
    uint8_t *left = to;
    const uint8_t *right = from;

    while (length-- > 0)
        *left++ = *right++;
    return to;
}

void *memmove(void *to, const void *from, size_t length)
{
    uint8_t *left = to;
    const uint8_t *right = from;

    if (left < right)
        return memcpy(to, from, length);
    while (length-- > 0)
        left[length] = right[length];
    return to;
}

void *memset(void *to, int value, size_t length)
{
    uint8_t *left = to;

    while (length-- > 0)
        *left++ = (uint8_t)value;
    return to;
}

int memcmp(const void *first, const void *second, size_t length)
{
    const uint8_t *left = first;
    const uint8_t *right = second;

    for (; length > 0; length--, left++, right++)
        if (*left != *right)
            return *left < *right ? -1 : 1;
    return 0;
}

static long system_call(long number, long first, long second, long third)
{
    long result;

    __asm__ volatile("syscall" : "=a"(result) : "a"(number), "D"(first), "S"(second), "d"(third) : "rcx", "r11", "memory");
    return result;
}

static void print(const char *text)
{
    size_t length = 0;

    while (text[length] != 0)
        length++;
    system_call(1, 1, (long)text, (long)length);
}

static void print_number(size_t number)
{
    char digits[24];
    size_t at = sizeof digits - 1;

    digits[at] = 0;
    do {
        digits[--at] = (char)('0' + number % 10);
        number /= 10;
    } while (number != 0);
    print(digits + at);
}

static _Noreturn void end(int status)
{
    for (;;)
        system_call(231, status, 0, 0);
}

/* ---- Calls on the small stack ---- */

enum { STACK_SIZE = 16384, STACK_LIMIT = 4096, PAINT = 0xC5 };

static _Alignas(16) uint8_t stack[STACK_SIZE];

/* Calls a function on another stack. */
void on_stack(void (*function)(void), void *top);
__asm__(".globl on_stack\n"
        "on_stack:\n"
        "    push %rbp\n"
        "    mov %rsp, %rbp\n"
        "    mov %rsi, %rsp\n"
        "    call *%rdi\n"
        "    mov %rbp, %rsp\n"
        "    pop %rbp\n"
        "    ret\n");

static size_t painted(void)
{
    size_t at = 0;

    while (at < STACK_SIZE && stack[at] == PAINT)
        at++;
    return at;
}

/* What was asked and how it was answered: static, so that the functions below take no stack for it. */
static uint8_t context[608];
static uint8_t out[24];
static uint64_t answer;

static const uint8_t guid[16];
static const uint8_t entry[24] = {0, 0, 16, 0, 0, 0, 0, 0, 0, 0, 16, 0, 0, 0, 0, 0, 1};

static void begin(void)
{
    answer = ultra_begin(context, sizeof context);
}

static void add_platform(void)
{
    answer = ultra_add_platform(context, sizeof context, ULTRA_PLATFORM_UEFI, 1, 4, (const uint8_t *)"frost", 5, 917504,
                                UINT64_C(18446603336221196288), 4, 0, 0);
}

static void add_kernel(void)
{
    answer = ultra_add_kernel(context, sizeof context, 2097152, UINT64_C(18446744071564165120), 65536, ULTRA_PARTITION_TYPE_MBR,
                              guid, 16, guid, 16, 0, 1, (const uint8_t *)"/boot/k", 7);
}

static void add_map(void)
{
    answer = ultra_add_map(context, sizeof context, entry, sizeof entry);
}

static void add_command_line(void)
{
    answer = ultra_add_command_line(context, sizeof context, (const uint8_t *)"quiet", 5);
}

static void add_module(void)
{
    answer = ultra_add_module(context, sizeof context, ULTRA_MODULE_TYPE_FILE, (const uint8_t *)"m", 1, 4096, 4096);
}

static void add_framebuffer(void)
{
    answer = ultra_add_framebuffer(context, sizeof context, 640, 480, 2560, 32, ULTRA_FB_FORMAT_XRGB8888, 0xFD000000);
}

static void read(void)
{
    answer = ultra_read(context, sizeof context);
}

static void step(void)
{
    answer = ultra_step(context, sizeof context, 2, 432);
}

static void attribute(void)
{
    answer = ultra_attribute(context, sizeof context, 3);
}

static void copy_map(void)
{
    answer = ultra_copy_map(context, sizeof context, out, sizeof out);
}

static void command_line(void)
{
    answer = ultra_command_line(context, sizeof context);
}

static void module_holding(void)
{
    answer = ultra_module_holding(context, sizeof context, 8191);
}

/* In this order they build a context that fills its 608 bytes, and ask about it. */
static const struct {
    const char *name;
    void (*function)(void);
    uint64_t answer;
} calls[] = {
    {"ultra_begin", begin, 8},
    {"ultra_add_platform", add_platform, 96},
    {"ultra_add_kernel", add_kernel, 432},
    {"ultra_add_map", add_map, 464},
    {"ultra_add_command_line", add_command_line, 480},
    {"ultra_add_module", add_module, 576},
    {"ultra_add_framebuffer", add_framebuffer, 608},
    {"ultra_read", read, 608},
    {"ultra_step", step, 464},
    {"ultra_attribute", attribute, 464},
    {"ultra_copy_map", copy_map, 1},
    {"ultra_command_line", command_line, ((uint64_t)472 << 32) + 5},
    {"ultra_module_holding", module_holding, 480},
};

static int try_call(size_t which)
{
    size_t taken;

    memset(stack, PAINT, sizeof stack);
    answer = ~(uint64_t)0;
    on_stack(calls[which].function, stack + sizeof stack);
    taken = STACK_SIZE - painted();
    print("  ");
    print(calls[which].name);
    print(": ");
    print_number(taken);
    print(" bytes of stack\n");
    if (answer == calls[which].answer && taken > 0 && taken <= STACK_LIMIT)
        return 0;
    print("freestanding: WRONG: number ");
    print_number((size_t)ultra_number(answer));
    print(", value ");
    print_number((size_t)ultra_value(answer));
    print("\n");
    return 1;
}

__attribute__((used)) static void run(void)
{
    size_t count = sizeof calls / sizeof calls[0];
    int status = 0;

    for (size_t which = 0; which < count; which++)
        status |= try_call(which);
    if (memcmp(out, entry, sizeof entry) != 0) {
        print("freestanding: WRONG: the map that was copied out\n");
        status = 1;
    }
    print("freestanding: ");
    print_number(count);
    print(status == 0 ? " calls made, each within its stack\n" : " calls made, FAILED\n");
    end(status);
}

__asm__(".globl _start\n"
        "_start:\n"
        "    xor %ebp, %ebp\n"
        "    and $-16, %rsp\n"
        "    call run\n");
