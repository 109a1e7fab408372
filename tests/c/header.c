/*
 * The header by itself, compiled as C99 and as C++17 with every warning an error: nothing is included before it, it is included
 * twice, its constants have document 01's numbers, its calls the widths and the order of their parameters, its helpers work.
 * The offsets of members are held to the protocol's structures, in layout.c.
 */
#include "ultra.h"
#include "ultra.h"

#include <stdio.h>

/* An assertion that C99 has too. */
#define NAMED(line) assertion_##line
#define NAME(line) NAMED(line)
#define IS(constant, value) typedef char NAME(__LINE__)[(constant) == (value) ? 1 : -1]

IS(ULTRA_OK, 0);
IS(ULTRA_SHORT, 1);
IS(ULTRA_VERSION, 2);
IS(ULTRA_COUNT, 3);
IS(ULTRA_MISSING, 4);
IS(ULTRA_HEADER, 5);
IS(ULTRA_SIZE, 6);
IS(ULTRA_OVERRUN, 7);
IS(ULTRA_TYPE, 8);
IS(ULTRA_PLACE, 9);
IS(ULTRA_REPEAT, 10);
IS(ULTRA_SPLIT, 11);
IS(ULTRA_FORM, 12);
IS(ULTRA_VALUE, 13);
IS(ULTRA_TEXT, 14);
IS(ULTRA_RANGE, 15);
IS(ULTRA_ORDER, 16);
IS(ULTRA_FULL, 17);
IS(ULTRA_ROOM, 18);
IS(ULTRA_ABSENT, 19);

IS(ULTRA_ROOM_MAX, 65536);
IS(ULTRA_COUNT_MAX, 1024);
IS(ULTRA_HEAD_SIZE, 8);
IS(ULTRA_FIRST_INDEX, 0);
IS(ULTRA_FIRST_OFFSET, 8);
IS(ULTRA_LOADER_NAME_MAX, 47 - 16 + 1);
IS(ULTRA_MODULE_NAME_MAX, 79 - 16 + 1);
IS(ULTRA_PATH_MAX, 335 - 80 + 1);
IS(ULTRA_GUID_SIZE, 55 - 40 + 1);
IS(ULTRA_MAP_ENTRY_SIZE, 24);
IS(ULTRA_PLATFORM_SIZE, 88);
IS(ULTRA_KERNEL_SIZE, 336);
IS(ULTRA_MODULE_SIZE, 96);
IS(ULTRA_FRAMEBUFFER_SIZE, 32);

/* An address taken with another type would not compile. */
static uint64_t (*const read_call)(const uint8_t *, size_t) = ultra_read;
static uint64_t (*const step_call)(const uint8_t *, size_t, uint32_t, uint32_t) = ultra_step;
static uint64_t (*const begin_call)(uint8_t *, size_t) = ultra_begin;
static uint64_t (*const platform_call)(uint8_t *, size_t, uint32_t, uint16_t, uint16_t, const uint8_t *, size_t, uint64_t, uint64_t,
                                       uint8_t, uint64_t, uint64_t) = ultra_add_platform;
static uint64_t (*const kernel_call)(uint8_t *, size_t, uint64_t, uint64_t, uint64_t, uint64_t, const uint8_t *, size_t,
                                     const uint8_t *, size_t, uint32_t, uint32_t, const uint8_t *, size_t) = ultra_add_kernel;
static uint64_t (*const map_call)(uint8_t *, size_t, const uint8_t *, size_t) = ultra_add_map;
static uint64_t (*const module_call)(uint8_t *, size_t, uint32_t, const uint8_t *, size_t, uint64_t, uint64_t) = ultra_add_module;
static uint64_t (*const line_call)(uint8_t *, size_t, const uint8_t *, size_t) = ultra_add_command_line;
static uint64_t (*const framebuffer_call)(uint8_t *, size_t, uint32_t, uint32_t, uint32_t, uint16_t, uint16_t,
                                          uint64_t) = ultra_add_framebuffer;
static uint64_t (*const attribute_call)(const uint8_t *, size_t, uint64_t) = ultra_attribute;
static uint64_t (*const copy_call)(const uint8_t *, size_t, uint8_t *, size_t) = ultra_copy_map;
static uint64_t (*const text_call)(const uint8_t *, size_t) = ultra_command_line;
static uint64_t (*const holding_call)(const uint8_t *, size_t, uint64_t) = ultra_module_holding;

static int helpers_work(void)
{
    struct ultra_cursor first = ultra_first_cursor();
    struct ultra_cursor next = ultra_next_cursor(first, 96);
    uint64_t refusal = ((uint64_t)ULTRA_FORM << 32) + 0xFFFFFFF8u;

    return ultra_number(refusal) == ULTRA_FORM && ultra_value(refusal) == 0xFFFFFFF8u && ultra_number(480) == ULTRA_OK &&
           ultra_value(480) == 480 && ultra_text_start(((uint64_t)472 << 32) + 5) == 472 &&
           ultra_text_length(((uint64_t)472 << 32) + 5) == 5 && first.index == 0 && first.offset == 8 && next.index == 1 &&
           next.offset == 96;
}

/* At an odd address, with high bits that must not spread and zeros that must stay. */
static int numbers_work(void)
{
    static const uint8_t high[] = {0xFF, 0x81, 0x92, 0xA3, 0xB4, 0xC5, 0xD6, 0xE7, 0xF8, 0xFF};
    static const uint8_t low[] = {0xFF, 0x80, 0, 0, 0, 0, 0, 0, 0, 0xFF};

    return ultra_u16(high + 1) == 0x9281u && ultra_u32(high + 1) == 0xB4A39281u &&
           ultra_u64(high + 1) == UINT64_C(0xF8E7D6C5B4A39281) && ultra_u16(low + 1) == 0x80u &&
           ultra_u32(low + 1) == 0x80u && ultra_u64(low + 1) == 0x80u;
}

/* Each call by its address, on an empty buffer: the symbols are C's, from C++ too. */
static int calls_answer(void)
{
    uint64_t empty = (uint64_t)ULTRA_SHORT << 32;

    return read_call(NULL, 0) == empty && step_call(NULL, 0, 0, 8) == empty && begin_call(NULL, 0) == empty &&
           platform_call(NULL, 0, 1, 0, 0, NULL, 0, 0, 0, 0, 0, 0) == empty &&
           kernel_call(NULL, 0, 0, 0, 0, 1, NULL, 0, NULL, 0, 0, 0, NULL, 0) == empty && map_call(NULL, 0, NULL, 0) == empty &&
           module_call(NULL, 0, 1, NULL, 0, 0, 0) == empty && line_call(NULL, 0, NULL, 0) == empty &&
           framebuffer_call(NULL, 0, 0, 0, 0, 24, 1, 0) == empty && attribute_call(NULL, 0, 0) == empty &&
           copy_call(NULL, 0, NULL, 0) == empty && text_call(NULL, 0) == 0 && holding_call(NULL, 0, 0) == empty;
}

int main(void)
{
    if (!helpers_work() || !numbers_work() || !calls_answer()) {
        fprintf(stderr, "header: a helper or a call answers wrongly\n");
        return 1;
    }
    return 0;
}
