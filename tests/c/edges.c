/*
 * Every call at the edges of the memory lent to it: buffers and slices that end, or begin, at a page that cannot be touched, and
 * that are read-only where the call only reads (regions.h); slices beside the buffer; null with length 0; contexts cut at every
 * length; adds that just fit and that do not; buffers longer than the room. Each answer is compared, and so is every byte that a
 * call may not change.
 */
#include "check.h"
#include "protocol.h"
#include "regions.h"
#include "ultra.h"

#include <signal.h>
#include <unistd.h>

/* ---- Faults and calls that do not return ---- */

/* No call takes a second; this is the time for the whole program, under valgrind too. */
enum { TIME_LIMIT = 240 };

static void say(const char *text)
{
    ssize_t written = write(STDERR_FILENO, text, strlen(text));

    (void)written;
}

static void on_signal(int number)
{
    say(number == SIGALRM ? "edges: no return within the time limit" : "edges: FAULT");
    say(": ");
    say(checks_case);
    say(": ");
    say(checks_call);
    say("\n");
    _exit(1);
}

static void watch(void)
{
    signal(SIGALRM, on_signal);
    alarm(TIME_LIMIT);
#ifndef TESTS_ON_HEAP
    signal(SIGSEGV, on_signal);
    signal(SIGBUS, on_signal);
    signal(SIGILL, on_signal);
    signal(SIGFPE, on_signal);
#endif
}

/* ---- The context that is cut and built again ---- */

enum { PLATFORM, KERNEL, MAP, MODULE, SECOND_MODULE, LINE, FRAMEBUFFER, ATTRIBUTES };

/* Where each attribute starts, and the used length. */
static const uint32_t starts[ATTRIBUTES + 1] = {8, 96, 432, 512, 608, 704, 728, 760};
enum { USED = 760, LONGEST = USED + 40 };

static const uint8_t name[] = "frost";
static const uint8_t path[] = "/boot/k";
static const uint8_t guid[16] = "0123456789abcdef";
static const uint8_t module_name[] = "probe";
static const uint8_t text[] = "quiet calm";
static const struct ultra_memory_map_entry entries[3] = {
    {0, 4096, ULTRA_MEMORY_TYPE_RESERVED}, {4096, 4096, ULTRA_MEMORY_TYPE_FREE}, {65536, 1, ULTRA_MEMORY_TYPE_NVS}};

static uint8_t whole[USED];

/* A region for each slice that a call can take. */
static struct region buffer;
static struct region first_slice;
static struct region second_slice;
static struct region third_slice;

/* Which side is flush for the slices besides the buffer: the other one, so that both are seen with both. */
static enum side other(enum side side)
{
    return side == BACK ? FRONT : BACK;
}

static uint8_t *slice(struct region *region, const void *from, size_t length, enum side side)
{
    return region_copy(region, from, length, other(side), READ_ONLY);
}

/* Adds one attribute of the whole context, its slices lent at the edge. */
static uint64_t add(int which, uint8_t *buf, size_t len, enum side side)
{
    const uint8_t *first;
    const uint8_t *second;
    const uint8_t *third;

    switch (which) {
    case PLATFORM:
        first = slice(&first_slice, name, 5, side);
        return ultra_add_platform(buf, len, ULTRA_PLATFORM_UEFI, 1, 4, first, 5, 0xE0000, 0xFFFF800000000000, 4, 1, 2);
    case KERNEL:
        first = slice(&first_slice, guid, 16, side);
        second = slice(&second_slice, guid, 16, side);
        third = slice(&third_slice, path, 7, side);
        return ultra_add_kernel(buf, len, 0x200000, 0xFFFFFFFF80200000, 0x10000, ULTRA_PARTITION_TYPE_GPT, first, 16, second, 16,
                                3, 4, third, 7);
    case MAP:
        first = slice(&first_slice, entries, sizeof entries, side);
        return ultra_add_map(buf, len, first, sizeof entries);
    case MODULE:
    case SECOND_MODULE:
        first = slice(&first_slice, module_name, 5, side);
        return ultra_add_module(buf, len, ULTRA_MODULE_TYPE_FILE, first, 5, which == MODULE ? 0x10000 : 0x20000, 0x1800);
    case LINE:
        first = slice(&first_slice, text, 10, side);
        return ultra_add_command_line(buf, len, first, 10);
    default:
        return ultra_add_framebuffer(buf, len, 640, 480, 1920, 24, ULTRA_FB_FORMAT_RGB888, 0xFD000000);
    }
}

/* The first attributes of the whole context, as a context of their own. */
static void copy_first(uint8_t *to, uint32_t count)
{
    memcpy(to, whole, starts[count]);
    memcpy(to + 4, &count, 4);
}

static void make_whole(void)
{
    checks_name("the whole context");
    CHECK_ANSWER(ultra_begin(whole, USED), ULTRA_OK, 8);
    for (int which = 0; which < ATTRIBUTES; which++)
        CHECK_ANSWER(add(which, whole, USED, BACK), ULTRA_OK, starts[which + 1]);
    CHECK_ANSWER(ultra_read(whole, USED), ULTRA_OK, USED);
}

/* ---- Contexts cut at every length ---- */

static uint64_t refusal(uint32_t number, uint32_t offset)
{
    return ((uint64_t)number << 32) + offset;
}

/* What 5 and 7 say of the attribute at an index of the whole context cut to a length, or 0. */
static uint64_t cut_at(uint32_t index, size_t length)
{
    if (length < starts[index] + 8)
        return refusal(ULTRA_HEADER, starts[index]);
    if (length < starts[index + 1])
        return refusal(ULTRA_OVERRUN, starts[index]);
    return 0;
}

static uint64_t cut_reading(size_t length)
{
    if (length < 8)
        return refusal(ULTRA_SHORT, 0);
    for (uint32_t index = 0; index < ATTRIBUTES; index++)
        if (cut_at(index, length) != 0)
            return cut_at(index, length);
    return USED;
}

/* The refusal of reading, or, where the length is enough, what else the call answers. */
static void expect(uint64_t got, size_t length, uint64_t otherwise, const char *call)
{
    uint64_t reading = cut_reading(length);
    uint64_t wanted = reading == USED ? otherwise : reading;

    checks_answer(got, ultra_number(wanted), ultra_value(wanted), call, __FILE__, __LINE__);
}

#define EXPECT(call, length, otherwise) (checks_call = #call, expect(call, length, otherwise, #call))

static void steps_of_cut(const uint8_t *buf, size_t length)
{
    for (uint32_t index = 0; index < ATTRIBUTES; index++) {
        uint64_t wanted = length < 8 ? refusal(ULTRA_SHORT, 0) : cut_at(index, length);

        if (wanted == 0)
            wanted = starts[index + 1];
        CHECK_ANSWER(ultra_step(buf, length, index, starts[index]), ultra_number(wanted), ultra_value(wanted));
    }
    CHECK_ANSWER(ultra_step(buf, length, ATTRIBUTES, 3), length < 8 ? ULTRA_SHORT : ULTRA_OK, 0);
}

static void questions_of_cut(const uint8_t *buf, size_t length, enum side side)
{
    uint8_t *out = region_lend(&first_slice, sizeof entries, other(side));
    uint64_t line = length < USED ? 0 : ((uint64_t)(starts[LINE] + 8) << 32) + 10;

    EXPECT(ultra_read(buf, length), length, USED);
    for (uint32_t index = 0; index < ATTRIBUTES; index++)
        EXPECT(ultra_attribute(buf, length, index), length, starts[index]);
    EXPECT(ultra_attribute(buf, length, ATTRIBUTES), length, refusal(ULTRA_COUNT, USED));
    EXPECT(ultra_module_holding(buf, length, 0x10000), length, starts[MODULE]);
    EXPECT(ultra_module_holding(buf, length, 0x21FFF), length, starts[SECOND_MODULE]);
    EXPECT(ultra_module_holding(buf, length, 0x22000), length, 0);
    checks_call = "ultra_command_line";
    CHECK(ultra_command_line(buf, length) == line);

    memset(out, 0xA5, sizeof entries);
    EXPECT(ultra_copy_map(buf, length, out, sizeof entries), length, 3);
    if (length >= USED)
        CHECK_BYTES(out, entries, sizeof entries);
    else
        for (size_t at = 0; at < sizeof entries; at++)
            CHECK(out[at] == 0xA5);
    CHECK(region_intact(&first_slice));
}

static void adds_to_cut(const uint8_t *before, size_t length, enum side side)
{
    static const uint32_t refused[ATTRIBUTES] = {ULTRA_PLACE, ULTRA_PLACE, ULTRA_REPEAT, ULTRA_SPLIT,
                                                 ULTRA_SPLIT, ULTRA_REPEAT, ULTRA_REPEAT};

    for (int which = 0; which < ATTRIBUTES; which++) {
        uint8_t *buf = region_copy(&buffer, before, length, side, WRITABLE);

        EXPECT(add(which, buf, length, side), length, refusal(refused[which], USED));
        CHECK_BYTES(buf, before, length);
        CHECK(region_intact(&buffer));
    }
}

static void begin_in_cut(const uint8_t *before, size_t length, enum side side)
{
    static const uint8_t head[8] = {1};
    uint8_t *buf = region_copy(&buffer, before, length, side, WRITABLE);

    if (length < 8) {
        CHECK_ANSWER(ultra_begin(buf, length), ULTRA_SHORT, 0);
        CHECK_BYTES(buf, before, length);
    } else {
        CHECK_ANSWER(ultra_begin(buf, length), ULTRA_OK, 8);
        CHECK_BYTES(buf, head, 8);
        CHECK_BYTES(buf + 8, before + 8, length - 8);
    }
    CHECK(region_intact(&buffer));
}

static void cut(enum side side)
{
    uint8_t longer[LONGEST];

    memset(longer, 0xEE, sizeof longer);
    memcpy(longer, whole, USED);
    for (size_t length = 0; length <= LONGEST; length++) {
        const uint8_t *buf = region_copy(&buffer, longer, length, side, READ_ONLY);

        checks_name("a context of %d bytes cut to %zu, flush with the %s", USED, length, side == BACK ? "back" : "front");
        steps_of_cut(buf, length);
        questions_of_cut(buf, length, side);
        CHECK_BYTES(buf, longer, length);
        adds_to_cut(longer, length, side);
        begin_in_cut(longer, length, side);
    }
}

/* ---- Adds that just fit, and do not ---- */

static void fit(int which, size_t length, enum side side)
{
    uint32_t used = starts[which];
    uint32_t end = starts[which + 1];
    uint8_t before[LONGEST];
    uint8_t after[LONGEST];
    uint8_t *buf;

    checks_name("attribute %d added at %" PRIu32 " in %zu bytes, flush with the %s", which, used, length,
                side == BACK ? "back" : "front");
    memset(before, 0xEE, sizeof before);
    copy_first(before, (uint32_t)which);
    memcpy(after, before, sizeof after);
    buf = region_copy(&buffer, before, length, side, WRITABLE);
    if (length < end) {
        CHECK_ANSWER(add(which, buf, length, side), ULTRA_ROOM, used);
    } else {
        CHECK_ANSWER(add(which, buf, length, side), ULTRA_OK, end);
        copy_first(after, (uint32_t)which + 1);
    }
    CHECK_BYTES(buf, after, length);
    CHECK(region_intact(&buffer));
}

static void fits(enum side side)
{
    for (int which = 0; which < ATTRIBUTES; which++)
        for (size_t length = starts[which]; length <= starts[which + 1] + 9; length++)
            fit(which, length, side);
}

/* ---- Slices of every length ---- */

enum { WIDE = 2 * LONGEST };

/* A buffer of WIDE bytes with the first attributes of the whole context, and room after them. */
static uint8_t *buffer_of(uint32_t count, enum side side)
{
    uint8_t *buf = region_lend(&buffer, WIDE, side);

    memset(buf, 0xEE, WIDE);
    copy_first(buf, count);
    return buf;
}

/* Bytes that any text may have, with one of its own at the end, where the untouchable page follows. */
static const uint8_t *letters(struct region *region, size_t length, uint8_t last, enum side side)
{
    uint8_t *lent = region_lend(region, length, side);

    for (size_t at = 0; at < length; at++)
        lent[at] = at == 0 ? '/' : at + 1 == length ? last : (uint8_t)('a' + at % 26);
    region_protect(region, READ_ONLY);
    return lent;
}

/* A last byte of zero or above 127 is refused; the first is always a slash. */
static uint32_t text_number(size_t length, uint8_t last, size_t longest, int is_path)
{
    if (length > longest || (is_path && length == 0))
        return ULTRA_TEXT;
    return length > 1 && (last == 0 || (last > 127 && !is_path)) ? ULTRA_TEXT : ULTRA_OK;
}

static void fixed_texts(uint8_t last, enum side side)
{
    for (size_t length = 0; length <= 300; length++) {
        const uint8_t *given = letters(&first_slice, length, last, side);
        uint32_t number;

        checks_name("a text of %zu bytes that ends in %d", length, last);
        number = text_number(length, last, 31, 0);
        CHECK_ANSWER(ultra_add_platform(buffer_of(0, side), WIDE, 1, 0, 0, given, length, 0, 0, 0, 0, 0), number,
                     number == 0 ? starts[1] : starts[0]);
        number = text_number(length, last, 255, 1);
        CHECK_ANSWER(ultra_add_kernel(buffer_of(1, side), WIDE, 0, 0, 0, 1, guid, 16, guid, 16, 0, 0, given, length), number,
                     number == 0 ? starts[2] : starts[1]);
        number = text_number(length, last, 63, 0);
        CHECK_ANSWER(ultra_add_module(buffer_of(3, side), WIDE, 1, given, length, 0, 0), number,
                     number == 0 ? starts[4] : starts[3]);
        number = text_number(length, last, 300, 0);
        CHECK_ANSWER(ultra_add_command_line(buffer_of(5, side), WIDE, given, length), number,
                     number == 0 ? starts[5] + 8 + (length + 8) / 8 * 8 : starts[5]);
    }
}

static void guids(enum side side)
{
    uint8_t bytes[40];

    memset(bytes, 0x11, sizeof bytes);
    for (size_t length = 0; length <= sizeof bytes; length++) {
        const uint8_t *given = region_copy(&first_slice, bytes, length, side, READ_ONLY);
        uint32_t number = length == 16 ? ULTRA_OK : ULTRA_FORM;
        uint32_t value = length == 16 ? starts[2] : starts[1];

        checks_name("a GUID of %zu bytes", length);
        CHECK_ANSWER(ultra_add_kernel(buffer_of(1, side), WIDE, 0, 0, 0, 1, given, length, guid, 16, 0, 0, path, 7), number, value);
        CHECK_ANSWER(ultra_add_kernel(buffer_of(1, side), WIDE, 0, 0, 0, 1, guid, 16, given, length, 0, 0, path, 7), number, value);
    }
}

static void maps(enum side side)
{
    for (size_t length = 0; length <= sizeof entries; length++) {
        const uint8_t *given = region_copy(&first_slice, entries, length, side, READ_ONLY);
        uint8_t *buf = buffer_of(2, side);
        uint32_t number = length % 24 == 0 ? ULTRA_OK : ULTRA_FORM;

        checks_name("a map of %zu bytes", length);
        CHECK_ANSWER(ultra_add_map(buf, WIDE, given, length), number, number == 0 ? starts[2] + 8 + length : starts[2]);
        if (number == ULTRA_OK)
            CHECK_BYTES(buf + starts[2] + 8, given, length);
    }
}

static void output(uint32_t count, size_t length, enum side side)
{
    uint8_t *buf = buffer_of(2, side);
    uint8_t *out;
    uint32_t used = starts[2] + 8 + 24 * count;
    size_t written = length / 8 >= 3 * count ? 24 * count : 0;

    checks_name("a map of %" PRIu32 " entries into %zu bytes", count, length);
    CHECK_ANSWER(ultra_add_map(buf, WIDE, (const uint8_t *)entries, 24 * count), ULTRA_OK, used);
    region_protect(&buffer, READ_ONLY);
    out = region_lend(&first_slice, length, side);
    memset(out, 0xA5, length);
    if (length / 8 >= 3 * count)
        CHECK_ANSWER(ultra_copy_map(buf, WIDE, out, length), ULTRA_OK, count);
    else
        CHECK_ANSWER(ultra_copy_map(buf, WIDE, out, length), ULTRA_ROOM, used);
    CHECK_BYTES(out, entries, written);
    for (size_t at = written; at < length; at++)
        CHECK(out[at] == 0xA5);
    CHECK(region_intact(&first_slice));
}

static void outputs(enum side side)
{
    for (uint32_t count = 0; count <= 3; count++)
        for (size_t length = 0; length <= 24 * count + 17; length++)
            output(count, length, side);
}

/* ---- A buffer and a slice side by side ---- */

struct pair {
    uint8_t *buf;
    uint8_t *slice;
};

/* They do not overlap, but no byte is between them: code that copies in large pieces has to see the difference. */
static struct pair side_by_side(uint32_t count, size_t len, size_t slice_len, int in_front)
{
    uint8_t *block = region_lend(&buffer, len + slice_len, BACK);
    struct pair pair = {block + (in_front ? slice_len : 0), block + (in_front ? 0 : len)};

    memset(block, 0xEE, len + slice_len);
    copy_first(pair.buf, count);
    return pair;
}

static void line_beside(size_t length, int in_front)
{
    uint32_t end = starts[LINE] + 8 + (uint32_t)(length + 8) / 8 * 8;
    struct pair pair = side_by_side(LINE, end, length, in_front);
    const uint8_t *given = letters(&first_slice, length, 'z', BACK);

    checks_name("a text of %zu bytes %s the buffer", length, in_front ? "in front of" : "after");
    memcpy(pair.slice, given, length);
    CHECK_ANSWER(ultra_add_command_line(pair.buf, end, pair.slice, length), ULTRA_OK, end);
    CHECK_BYTES(pair.buf + starts[LINE] + 8, given, length);
    CHECK_BYTES(pair.slice, given, length);
}

static void map_beside(uint32_t count, int in_front)
{
    uint32_t end = starts[MAP] + 8 + 24 * count;
    struct pair pair = side_by_side(MAP, end, 24 * count, in_front);

    checks_name("a map of %" PRIu32 " entries %s the buffer", count, in_front ? "in front of" : "after");
    memcpy(pair.slice, entries, 24 * count);
    CHECK_ANSWER(ultra_add_map(pair.buf, end, pair.slice, 24 * count), ULTRA_OK, end);
    CHECK_BYTES(pair.buf + starts[MAP] + 8, entries, 24 * count);
    CHECK_BYTES(pair.slice, entries, 24 * count);
    memset(pair.slice, 0xA5, 24 * count);
    CHECK_ANSWER(ultra_copy_map(pair.buf, end, pair.slice, 24 * count), ULTRA_OK, count);
    CHECK_BYTES(pair.slice, entries, 24 * count);
    CHECK_BYTES(pair.buf + starts[MAP] + 8, entries, 24 * count);
}

static void neighbours(void)
{
    for (int in_front = 0; in_front <= 1; in_front++) {
        for (size_t length = 0; length <= 100; length++)
            line_beside(length, in_front);
        for (uint32_t count = 0; count <= 3; count++)
            map_beside(count, in_front);
    }
}

/* ---- Null with length 0 ---- */

static void nulls(void)
{
    uint8_t out[24];

    checks_name("null with length 0");
    CHECK_ANSWER(ultra_read(NULL, 0), ULTRA_SHORT, 0);
    CHECK_ANSWER(ultra_step(NULL, 0, 0, 8), ULTRA_SHORT, 0);
    CHECK_ANSWER(ultra_begin(NULL, 0), ULTRA_SHORT, 0);
    CHECK_ANSWER(ultra_attribute(NULL, 0, 0), ULTRA_SHORT, 0);
    CHECK_ANSWER(ultra_copy_map(NULL, 0, out, sizeof out), ULTRA_SHORT, 0);
    CHECK_ANSWER(ultra_copy_map(NULL, 0, NULL, 0), ULTRA_SHORT, 0);
    CHECK(ultra_command_line(NULL, 0) == 0);
    CHECK_ANSWER(ultra_module_holding(NULL, 0, 0), ULTRA_SHORT, 0);
    CHECK_ANSWER(ultra_add_platform(NULL, 0, 1, 0, 0, name, 5, 0, 0, 0, 0, 0), ULTRA_SHORT, 0);
    CHECK_ANSWER(ultra_add_platform(NULL, 0, 1, 0, 0, NULL, 0, 0, 0, 0, 0, 0), ULTRA_SHORT, 0);
    CHECK_ANSWER(ultra_add_kernel(NULL, 0, 0, 0, 0, 1, NULL, 0, NULL, 0, 0, 0, NULL, 0), ULTRA_SHORT, 0);
    CHECK_ANSWER(ultra_add_map(NULL, 0, NULL, 0), ULTRA_SHORT, 0);
    CHECK_ANSWER(ultra_add_module(NULL, 0, 1, NULL, 0, 0, 0), ULTRA_SHORT, 0);
    CHECK_ANSWER(ultra_add_command_line(NULL, 0, NULL, 0), ULTRA_SHORT, 0);
    CHECK_ANSWER(ultra_add_framebuffer(NULL, 0, 0, 0, 0, 24, 1, 0), ULTRA_SHORT, 0);

    CHECK_ANSWER(ultra_add_platform(buffer_of(0, BACK), WIDE, 1, 0, 0, NULL, 0, 0, 0, 0, 0, 0), ULTRA_OK, starts[1]);
    CHECK_ANSWER(ultra_add_kernel(buffer_of(1, BACK), WIDE, 0, 0, 0, 1, NULL, 0, guid, 16, 0, 0, path, 7), ULTRA_FORM, starts[1]);
    CHECK_ANSWER(ultra_add_kernel(buffer_of(1, BACK), WIDE, 0, 0, 0, 1, guid, 16, NULL, 0, 0, 0, path, 7), ULTRA_FORM, starts[1]);
    CHECK_ANSWER(ultra_add_kernel(buffer_of(1, BACK), WIDE, 0, 0, 0, 1, guid, 16, guid, 16, 0, 0, NULL, 0), ULTRA_TEXT, starts[1]);
    CHECK_ANSWER(ultra_add_module(buffer_of(3, BACK), WIDE, 1, NULL, 0, 0, 0), ULTRA_OK, starts[4]);
    CHECK_ANSWER(ultra_add_command_line(buffer_of(5, BACK), WIDE, NULL, 0), ULTRA_OK, starts[5] + 16);
    CHECK(ultra_command_line(buffer.lent, WIDE) == (uint64_t)(starts[5] + 8) << 32);
    CHECK_ANSWER(ultra_add_map(buffer_of(2, BACK), WIDE, NULL, 0), ULTRA_OK, starts[2] + 8);
    CHECK_ANSWER(ultra_copy_map(buffer.lent, WIDE, NULL, 0), ULTRA_OK, 0);
    CHECK_ANSWER(ultra_copy_map(buffer_of(3, BACK), WIDE, NULL, 0), ULTRA_ROOM, starts[3]);
}

/* ---- Numbers at the ends of their widths ---- */

static void extremes(void)
{
    const uint8_t *buf = region_copy(&buffer, whole, USED, BACK, READ_ONLY);
    static const uint32_t uneven[] = {0, 1, 4, 7, 9, 12, 15, USED - 1, USED - 7, UINT32_MAX, UINT32_MAX - 1};
    static const uint32_t outside[] = {USED, USED + 8, 65528, 65536, 0x7FFFFFF8, 0x80000000, UINT32_MAX - 15, UINT32_MAX - 7};

    checks_name("cursors and indices at the ends of their widths");
    for (size_t at = 0; at < sizeof uneven / sizeof uneven[0]; at++)
        CHECK_ANSWER(ultra_step(buf, USED, 0, uneven[at]), ULTRA_HEADER, uneven[at]);
    for (size_t at = 0; at < sizeof outside / sizeof outside[0]; at++)
        CHECK_ANSWER(ultra_step(buf, USED, 6, outside[at]), ULTRA_HEADER, outside[at]);
    CHECK(ultra_step(buf, USED, 7, UINT32_MAX) == 0);
    CHECK(ultra_step(buf, USED, UINT32_MAX, 8) == 0);
    CHECK_ANSWER(ultra_step(buf, USED, 6, 8), ULTRA_OK, starts[1]);
    CHECK_ANSWER(ultra_attribute(buf, USED, 7), ULTRA_COUNT, USED);
    CHECK_ANSWER(ultra_attribute(buf, USED, UINT64_C(1) << 32), ULTRA_COUNT, USED);
    CHECK_ANSWER(ultra_attribute(buf, USED, UINT64_MAX), ULTRA_COUNT, USED);
    CHECK_ANSWER(ultra_module_holding(buf, USED, UINT64_MAX), ULTRA_OK, 0);
    CHECK_ANSWER(ultra_module_holding(buf, USED, 0), ULTRA_OK, 0);
}

/* ---- The limits of 65,536 bytes and of 1,024 attributes ---- */

enum { OVER = 1000 };

/* A command line that fills the room to its last byte; what a longer buffer has after the room stays and decides nothing. */
static void fill_room(size_t length, enum side side)
{
    uint8_t *buf = region_lend(&buffer, length, side);
    size_t longest = ULTRA_ROOM_MAX - starts[LINE] - 8 - 1;
    const uint8_t *given;

    checks_name("a buffer of %zu bytes filled, flush with the %s", length, side == BACK ? "back" : "front");
    memset(buf, 0xEE, length);
    copy_first(buf, LINE);
    given = letters(&first_slice, longest + 1, 'z', side);
    CHECK_ANSWER(ultra_add_command_line(buf, length, given, longest + 1), ULTRA_ROOM, starts[LINE]);
    given = letters(&first_slice, longest + 1, 0x80, side);
    CHECK_ANSWER(ultra_add_command_line(buf, length, given, longest + 1), ULTRA_TEXT, starts[LINE]);
    CHECK_ANSWER(ultra_read(buf, length), ULTRA_OK, starts[LINE]);
    given = letters(&first_slice, longest, 'z', side);
    CHECK_ANSWER(ultra_add_command_line(buf, length, given, longest), ULTRA_OK, ULTRA_ROOM_MAX);
    CHECK_BYTES(buf + starts[LINE] + 8, given, longest);
    CHECK(buf[ULTRA_ROOM_MAX - 1] == 0);
    for (size_t at = ULTRA_ROOM_MAX; at < length; at++)
        CHECK(buf[at] == 0xEE);

    CHECK_ANSWER(add(FRAMEBUFFER, buf, length, side), ULTRA_ROOM, ULTRA_ROOM_MAX);
    region_protect(&buffer, READ_ONLY);
    CHECK_ANSWER(ultra_read(buf, length), ULTRA_OK, ULTRA_ROOM_MAX);
    CHECK_ANSWER(ultra_attribute(buf, length, LINE), ULTRA_OK, starts[LINE]);
    CHECK(ultra_command_line(buf, length) == ((uint64_t)(starts[LINE] + 8) << 32) + longest);
    CHECK_ANSWER(ultra_step(buf, length, LINE, starts[LINE]), ULTRA_OK, ULTRA_ROOM_MAX);
    CHECK_ANSWER(ultra_step(buf, length, LINE, ULTRA_ROOM_MAX), ULTRA_HEADER, ULTRA_ROOM_MAX);
    CHECK_ANSWER(ultra_read(buf, ULTRA_ROOM_MAX - 1), ULTRA_OVERRUN, starts[LINE]);
}

/* After a full room stands the header of one more attribute, which is not seen. */
static void attribute_after_room(void)
{
    const struct ultra_attribute_header header = {9, 8};
    uint32_t count = LINE + 2;
    uint8_t *buf;

    fill_room(ULTRA_ROOM_MAX + OVER, BACK);
    checks_name("an attribute after the room");
    region_protect(&buffer, WRITABLE);
    buf = buffer.lent;
    memcpy(buf + 4, &count, 4);
    memcpy(buf + ULTRA_ROOM_MAX, &header, sizeof header);
    CHECK_ANSWER(ultra_read(buf, ULTRA_ROOM_MAX + OVER), ULTRA_HEADER, ULTRA_ROOM_MAX);
    CHECK_ANSWER(add(FRAMEBUFFER, buf, ULTRA_ROOM_MAX + OVER, BACK), ULTRA_HEADER, ULTRA_ROOM_MAX);
}

static void most_attributes(enum side side)
{
    const struct ultra_attribute_header header = {0xFFFF, 8};
    const uint32_t used = starts[2] + 1022 * 8;
    uint8_t *buf = region_lend(&buffer, used + 8, side);
    uint32_t count = 1024;

    checks_name("1,024 attributes, flush with the %s", side == BACK ? "back" : "front");
    copy_first(buf, 2);
    for (uint32_t at = starts[2]; at < used + 8; at += 8)
        memcpy(buf + at, &header, 8);
    memcpy(buf + 4, &count, 4);
    CHECK_ANSWER(ultra_read(buf, used), ULTRA_OK, used);
    CHECK_ANSWER(ultra_attribute(buf, used, 1023), ULTRA_OK, used - 8);
    CHECK_ANSWER(ultra_attribute(buf, used, 1024), ULTRA_COUNT, used);
    for (int which = 0; which < ATTRIBUTES; which++)
        CHECK_ANSWER(add(which, buf, used + 8, side), ULTRA_FULL, used);
    count = 1025;
    memcpy(buf + 4, &count, 4);
    CHECK_ANSWER(ultra_read(buf, used + 8), ULTRA_COUNT, 0);
    CHECK_ANSWER(ultra_step(buf, used + 8, 0, 8), ULTRA_COUNT, 0);
    CHECK_ANSWER(add(LINE, buf, used + 8, side), ULTRA_COUNT, 0);
    CHECK(region_intact(&buffer));
}

int main(void)
{
    watch();
    make_whole();
    for (int side = 0; side < SIDES; side++) {
        cut((enum side)side);
        fits((enum side)side);
        fixed_texts('z', (enum side)side);
        fixed_texts(0, (enum side)side);
        fixed_texts(0x80, (enum side)side);
        guids((enum side)side);
        maps((enum side)side);
        outputs((enum side)side);
        most_attributes((enum side)side);
        fill_room(ULTRA_ROOM_MAX, (enum side)side);
        fill_room(ULTRA_ROOM_MAX + OVER, (enum side)side);
    }
    attribute_after_room();
    neighbours();
    nulls();
    extremes();
    region_release(&buffer);
    region_release(&first_slice);
    region_release(&second_slice);
    region_release(&third_slice);
    return checks_end("edges");
}
