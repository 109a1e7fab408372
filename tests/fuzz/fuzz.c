/*
 * A fuzz target for libFuzzer (make fuzz), and for replay.c, which runs it over the seeds in make test-c.
 *
 * An input is the bytes of a buffer, then a script of calls, then one byte with the script's length. The buffer is read and asked
 * about; then the script's calls are made on it. What is checked needs no second implementation: calls agree with each other, a
 * refusal changes nothing, bytes that decide nothing do not, a context that is accepted can be built again, no byte outside is
 * touched. A violation aborts.
 *
 * The archive comes from another compiler and has no coverage instrumentation, so what guides the fuzzer is the answers:
 * libFuzzer takes the section __libfuzzer_extra_counters for coverage. A counter stands for a call, its number, and how far into
 * which type of attribute it came. In a library that judges its input that is close to the paths through its code.
 */
#include "../c/protocol.h"
#include "../c/regions.h"
#include "ultra.h"

#include <stdio.h>
#include <stdlib.h>
#include <string.h>

int LLVMFuzzerTestOneInput(const uint8_t *data, size_t size);

/* ---- Guidance ---- */

enum { COUNTERS = 1 << 14 };

__attribute__((section("__libfuzzer_extra_counters"), used)) static uint8_t counters[COUNTERS];

enum call { READ, STEP, ATTRIBUTE, COPY_MAP, COMMAND_LINE, MODULE_HOLDING, BEGIN, ADD, SHAPE };

static void saw(enum call call, uint32_t first, uint32_t second, uint32_t third)
{
    uint32_t mixed = (uint32_t)call;

    mixed = mixed * 2654435761u + first;
    mixed = mixed * 2654435761u + second;
    mixed = mixed * 2654435761u + third;
    counters[(mixed ^ mixed >> 15) % COUNTERS] = 1;
}

/* Numbers that differ little count as the same. */
static uint32_t rough(uint32_t number)
{
    uint32_t bits = 0;

    if (number < 8)
        return number;
    for (; number != 0; number >>= 1)
        bits++;
    return 8 + bits;
}

/* ---- Checks ---- */

#define HOLDS(condition) \
    do { \
        if (!(condition)) \
            violated(#condition, __LINE__); \
    } while (0)

static _Noreturn void violated(const char *condition, int line)
{
    fprintf(stderr, "fuzz.c:%d: violated: %s\n", line, condition);
    abort();
}

static uint32_t load32(const uint8_t *at)
{
    uint32_t value;

    memcpy(&value, at, sizeof value);
    return value;
}

static uint64_t load64(const uint8_t *at)
{
    uint64_t value;

    memcpy(&value, at, sizeof value);
    return value;
}

static void store32(uint8_t *at, uint32_t value)
{
    memcpy(at, &value, sizeof value);
}

static size_t room_of(size_t length)
{
    return length < ULTRA_ROOM_MAX ? length : ULTRA_ROOM_MAX;
}

static uint32_t count_of(const uint8_t *buf)
{
    return load32(buf + offsetof(struct ultra_boot_context, attribute_count));
}

static uint32_t type_of(const uint8_t *attribute)
{
    return load32(attribute + offsetof(struct ultra_attribute_header, type));
}

static uint32_t size_of(const uint8_t *attribute)
{
    return load32(attribute + offsetof(struct ultra_attribute_header, size));
}

static uint32_t text_length(const uint8_t *text, uint32_t width)
{
    uint32_t length = 0;

    while (length < width && text[length] != 0)
        length++;
    return length;
}

/* ---- Reading ---- */

struct lent {
    const uint8_t *buf;
    size_t len;
};

/* A number and an offset that reading can answer. */
static void check_reading(struct lent lent, uint64_t answer)
{
    uint32_t number = ultra_number(answer);
    uint32_t value = ultra_value(answer);

    HOLDS(number <= ULTRA_ORDER);
    HOLDS(value <= room_of(lent.len));
    HOLDS(value % 8 == 0);
    if (number == ULTRA_OK)
        HOLDS(value >= 24);
    else if (number <= ULTRA_MISSING)
        HOLDS(value == 0);
    else
        HOLDS(value >= 8);
    HOLDS((number == ULTRA_SHORT) == (lent.len < 8));
    HOLDS(ultra_read(lent.buf, lent.len) == answer);
}

/* The type of the attribute that is refused, where it has a header. */
static uint32_t refused_type(struct lent lent, uint64_t reading)
{
    return ultra_number(reading) <= ULTRA_HEADER ? 0 : type_of(lent.buf + ultra_value(reading));
}

/* Steps go as far as reading went, and end as it did; reading's other refusals are of an attribute that a step hands back. */
static void check_steps(struct lent lent, uint64_t reading)
{
    struct ultra_cursor at = ultra_first_cursor();
    uint64_t answer = ultra_step(lent.buf, lent.len, at.index, at.offset);
    uint32_t number = ultra_number(reading);

    while (answer != 0 && ultra_number(answer) == ULTRA_OK && !(number > ULTRA_TYPE && at.offset == ultra_value(reading))) {
        HOLDS(ultra_value(answer) == at.offset + size_of(lent.buf + at.offset));
        HOLDS(at.index < count_of(lent.buf));
        at = ultra_next_cursor(at, answer);
        answer = ultra_step(lent.buf, lent.len, at.index, at.offset);
    }
    saw(STEP, ultra_number(answer), rough(at.index), 0);
    if (number == ULTRA_OK)
        HOLDS(answer == 0 && at.offset == ultra_value(reading) && at.index == count_of(lent.buf));
    else if (number <= ULTRA_TYPE)
        HOLDS(answer == reading);
    else
        HOLDS(ultra_number(answer) == ULTRA_OK && at.offset == ultra_value(reading));
    saw(READ, number, rough(at.index), rough(refused_type(lent, reading)));
}

static void check_attributes(struct lent lent, uint64_t reading)
{
    uint32_t at = 8;

    if (ultra_number(reading) != ULTRA_OK) {
        HOLDS(ultra_attribute(lent.buf, lent.len, 0) == reading);
        return;
    }
    for (uint32_t index = 0; index < count_of(lent.buf); index++) {
        uint32_t size = size_of(lent.buf + at);

        /* Each question reads first, so of many attributes only some are asked for. */
        if (index < 8 || index % 32 == 31)
            HOLDS(ultra_attribute(lent.buf, lent.len, index) == at);
        saw(SHAPE, rough(type_of(lent.buf + at)), rough(size), rough(index));
        at += size;
    }
    HOLDS(ultra_attribute(lent.buf, lent.len, count_of(lent.buf)) == ((uint64_t)ULTRA_COUNT << 32) + ultra_value(reading));
}

/* Where the first attribute of a type starts in an accepted context, or 0. */
static uint32_t find(const uint8_t *buf, uint32_t type)
{
    uint32_t at = 8;

    for (uint32_t index = 0; index < count_of(buf); index++) {
        if (type_of(buf + at) == type)
            return at;
        at += size_of(buf + at);
    }
    return 0;
}

static struct region output;

static void check_map(struct lent lent, uint64_t reading)
{
    uint32_t start = ultra_number(reading) == ULTRA_OK ? find(lent.buf, ULTRA_ATTRIBUTE_MEMORY_MAP) : 0;
    size_t length = start == 0 ? 24 : size_of(lent.buf + start) - 8;
    uint8_t *out = region_lend(&output, length, BACK);
    uint64_t answer;

    memset(out, 0xA5, length);
    answer = ultra_copy_map(lent.buf, lent.len, out, length);
    HOLDS(region_intact(&output));
    if (start != 0) {
        HOLDS(answer == length / 24);
        HOLDS(memcmp(out, lent.buf + start + 8, length) == 0);
        saw(COPY_MAP, ultra_number(answer), rough(ultra_value(answer)), 0);
        if (length != 0) {
            out = region_lend(&output, length - 1, BACK);
            memset(out, 0xA5, length - 1);
            HOLDS(ultra_copy_map(lent.buf, lent.len, out, length - 1) == ((uint64_t)ULTRA_ROOM << 32) + ultra_value(reading));
        }
    } else {
        HOLDS(answer == (ultra_number(reading) == ULTRA_OK ? ((uint64_t)ULTRA_ABSENT << 32) + ultra_value(reading) : reading));
    }
    for (size_t at = 0; start == 0 && at < length; at++)
        HOLDS(out[at] == 0xA5);
}

static void check_line(struct lent lent, uint64_t reading)
{
    uint64_t line = ultra_command_line(lent.buf, lent.len);
    uint32_t start = ultra_number(reading) == ULTRA_OK ? find(lent.buf, ULTRA_ATTRIBUTE_COMMAND_LINE) : 0;

    if (start == 0) {
        HOLDS(line == 0);
        return;
    }
    HOLDS(ultra_text_start(line) == start + 8);
    HOLDS(ultra_text_length(line) == text_length(lent.buf + start + 8, size_of(lent.buf + start) - 8));
    HOLDS(ultra_text_length(line) < size_of(lent.buf + start) - 8);
    saw(COMMAND_LINE, rough(ultra_text_length(line)), rough(size_of(lent.buf + start)), 0);
}

/* Whether a module's attribute says that it holds an address: it starts there or before, and its last byte is on that page or past it. */
static int holds(const uint8_t *module, uint64_t address)
{
    uint64_t first = load64(module + offsetof(struct ultra_module_info_attribute, address));
    uint64_t size = load64(module + offsetof(struct ultra_module_info_attribute, size));

    return size != 0 && first <= address && address / PAGE <= (first + (size - 1)) / PAGE;
}

static uint32_t module_with(const uint8_t *buf, uint64_t address)
{
    uint32_t at = 8;

    for (uint32_t index = 0; index < count_of(buf); index++) {
        if (type_of(buf + at) == ULTRA_ATTRIBUTE_MODULE_INFO && holds(buf + at, address))
            return at;
        at += size_of(buf + at);
    }
    return 0;
}

static void check_module(struct lent lent, uint64_t reading, uint64_t address)
{
    uint64_t answer = ultra_module_holding(lent.buf, lent.len, address);

    if (ultra_number(reading) != ULTRA_OK) {
        HOLDS(answer == reading);
        return;
    }
    HOLDS(answer == module_with(lent.buf, address));
    saw(MODULE_HOLDING, answer != 0, rough((uint32_t)answer), 0);
}

/* Around the borders of the first modules. */
static void check_modules(struct lent lent, uint64_t reading)
{
    uint32_t at = ultra_number(reading) == ULTRA_OK ? find(lent.buf, ULTRA_ATTRIBUTE_MODULE_INFO) : 0;

    check_module(lent, reading, 0);
    check_module(lent, reading, UINT64_MAX);
    for (int tried = 0; at != 0 && tried < 3; tried++) {
        uint64_t address = load64(lent.buf + at + offsetof(struct ultra_module_info_attribute, address));
        uint64_t size = load64(lent.buf + at + offsetof(struct ultra_module_info_attribute, size));

        check_module(lent, reading, address);
        check_module(lent, reading, address - 1);
        check_module(lent, reading, address + size);
        check_module(lent, reading, address + size - 1);
        check_module(lent, reading, (address + size - 1) | (PAGE - 1));
        check_module(lent, reading, ((address + size - 1) | (PAGE - 1)) + 1);
        at += size_of(lent.buf + at);
        if (at >= ultra_value(reading) || type_of(lent.buf + at) != ULTRA_ATTRIBUTE_MODULE_INFO)
            at = 0;
    }
}

/* ---- Bytes that decide nothing ---- */

static void set_bytes(uint8_t *attribute, uint32_t from, uint32_t to, uint8_t value)
{
    if (from < to)
        memset(attribute + from, value, to - from);
}

static void set_tail(uint8_t *attribute, uint32_t from, uint32_t to, uint8_t value)
{
    set_bytes(attribute, from + text_length(attribute + from, to - from) + 1, to, value);
}

static void set_silent_of(uint8_t *attribute, uint8_t value)
{
    uint32_t size = size_of(attribute);

    switch (type_of(attribute)) {
    case ULTRA_ATTRIBUTE_PLATFORM_INFO:
        set_tail(attribute, 16, 48, value);
        set_bytes(attribute, 65, size < 72 ? 0 : 72, value);
        set_bytes(attribute, 88, size, value);
        break;
    case ULTRA_ATTRIBUTE_KERNEL_INFO:
        set_tail(attribute, 80, 336, value);
        set_bytes(attribute, 336, size, value);
        break;
    case ULTRA_ATTRIBUTE_MEMORY_MAP:
        break;
    case ULTRA_ATTRIBUTE_MODULE_INFO:
        set_bytes(attribute, 8, 12, value);
        set_tail(attribute, 16, 80, value);
        set_bytes(attribute, 96, size, value);
        break;
    case ULTRA_ATTRIBUTE_COMMAND_LINE:
        set_tail(attribute, 8, size, value);
        break;
    case ULTRA_ATTRIBUTE_FRAMEBUFFER_INFO:
        set_bytes(attribute, 32, size, value);
        break;
    default:
        set_bytes(attribute, 8, size, value);
        break;
    }
}

/* Sets every silent byte of an accepted context. */
static void set_silent(uint8_t *buf, size_t len, uint32_t used, uint8_t value)
{
    uint32_t at = 8;

    memset(buf + offsetof(struct ultra_boot_context, reserved), value, 2);
    for (uint32_t index = 0; index < count_of(buf); index++) {
        uint32_t size = size_of(buf + at);

        set_silent_of(buf + at, value);
        at += size;
    }
    memset(buf + used, value, len - used);
}

static uint8_t other_bytes[REGION_SIZE];

static void check_silent(struct lent lent, uint64_t reading, uint8_t value)
{
    struct lent other = {other_bytes, lent.len};

    memcpy(other_bytes, lent.buf, lent.len);
    set_silent(other_bytes, lent.len, ultra_value(reading), value);
    HOLDS(ultra_read(other.buf, other.len) == reading);
    HOLDS(ultra_command_line(other.buf, other.len) == ultra_command_line(lent.buf, lent.len));
    check_attributes(other, reading);
    check_map(other, reading);
    check_modules(other, reading);
    HOLDS(ultra_read(other.buf, ultra_value(reading)) == reading);
}

/* ---- Building again what was read ---- */

static uint8_t plain_bytes[2 * ULTRA_ROOM_MAX];
static uint8_t built_bytes[ULTRA_ROOM_MAX];

static uint32_t written_size(const uint8_t *attribute)
{
    switch (type_of(attribute)) {
    case ULTRA_ATTRIBUTE_PLATFORM_INFO:
        return ULTRA_PLATFORM_SIZE;
    case ULTRA_ATTRIBUTE_KERNEL_INFO:
        return ULTRA_KERNEL_SIZE;
    case ULTRA_ATTRIBUTE_MODULE_INFO:
        return ULTRA_MODULE_SIZE;
    case ULTRA_ATTRIBUTE_FRAMEBUFFER_INFO:
        return ULTRA_FRAMEBUFFER_SIZE;
    case ULTRA_ATTRIBUTE_COMMAND_LINE:
        return 8 + (text_length(attribute + 8, size_of(attribute) - 8) + 8) / 8 * 8;
    default:
        return size_of(attribute);
    }
}

/* Appends the plain form of an attribute whose silent bytes are zero: of the size that adding writes, absent members zero. */
static uint32_t append_plain(uint32_t used, const uint8_t *attribute)
{
    uint32_t written = written_size(attribute);
    uint32_t kept = size_of(attribute) < written ? size_of(attribute) : written;

    memcpy(plain_bytes + used, attribute, kept);
    memset(plain_bytes + used + kept, 0, written - kept);
    store32(plain_bytes + used + 4, written);
    return used + written;
}

static uint64_t add_again(uint8_t *buf, size_t len, const uint8_t *from)
{
    struct platform_info_attribute platform;
    struct ultra_kernel_info_attribute kernel;
    struct ultra_module_info_attribute module;
    struct ultra_framebuffer_attribute framebuffer;

    switch (type_of(from)) {
    case ULTRA_ATTRIBUTE_PLATFORM_INFO:
        memcpy(&platform, from, sizeof platform);
        return ultra_add_platform(buf, len, platform.platform_type, platform.loader_major, platform.loader_minor, from + 16,
                                  text_length(from + 16, 32), platform.acpi_rsdp_address, platform.higher_half_base,
                                  platform.page_table_depth, platform.dtb_address, platform.smbios_address);
    case ULTRA_ATTRIBUTE_KERNEL_INFO:
        memcpy(&kernel, from, sizeof kernel);
        return ultra_add_kernel(buf, len, kernel.physical_base, kernel.virtual_base, kernel.size, kernel.partition_type,
                                from + 40, 16, from + 56, 16, kernel.disk_index, kernel.partition_index, from + 80,
                                text_length(from + 80, 256));
    case ULTRA_ATTRIBUTE_MEMORY_MAP:
        return ultra_add_map(buf, len, from + 8, size_of(from) - 8);
    case ULTRA_ATTRIBUTE_MODULE_INFO:
        memcpy(&module, from, sizeof module);
        return ultra_add_module(buf, len, module.type, from + 16, text_length(from + 16, 64), module.address, module.size);
    case ULTRA_ATTRIBUTE_COMMAND_LINE:
        return ultra_add_command_line(buf, len, from + 8, text_length(from + 8, size_of(from) - 8));
    default:
        memcpy(&framebuffer, from, sizeof framebuffer);
        return ultra_add_framebuffer(buf, len, framebuffer.fb.width, framebuffer.fb.height, framebuffer.fb.pitch,
                                     framebuffer.fb.bpp, framebuffer.fb.format, framebuffer.fb.physical_address);
    }
}

/* Its attributes of known types, built again, are its plain form; each add answers where it ends. */
static void check_rebuilt(struct lent lent, uint64_t reading)
{
    uint32_t used = 8;
    uint32_t at = 8;

    memcpy(other_bytes, lent.buf, lent.len);
    set_silent(other_bytes, lent.len, ultra_value(reading), 0);
    memset(built_bytes, 0xA5, sizeof built_bytes);
    HOLDS(ultra_begin(built_bytes, sizeof built_bytes) == 8);
    memcpy(plain_bytes, built_bytes, 8);
    for (uint32_t index = 0; index < count_of(lent.buf); index++) {
        const uint8_t *attribute = other_bytes + at;

        at += size_of(attribute);
        if (type_of(attribute) > ULTRA_ATTRIBUTE_FRAMEBUFFER_INFO)
            continue;
        uint32_t end = append_plain(used, attribute);

        if (end > sizeof built_bytes) {
            HOLDS(add_again(built_bytes, sizeof built_bytes, plain_bytes + used) == ((uint64_t)ULTRA_ROOM << 32) + used);
            return;
        }
        HOLDS(add_again(built_bytes, sizeof built_bytes, plain_bytes + used) == end);
        store32(plain_bytes + 4, count_of(plain_bytes) + 1);
        used = end;
    }
    HOLDS(memcmp(built_bytes, plain_bytes, used) == 0);
    for (size_t after = used; after < sizeof built_bytes && after < used + 64; after++)
        HOLDS(built_bytes[after] == 0xA5);
    HOLDS(ultra_read(built_bytes, used) == used);
}

/* ---- All that is asked of a buffer ---- */

static uint8_t before_bytes[REGION_SIZE];

static uint64_t check_buffer(struct lent lent)
{
    uint64_t reading = ultra_read(lent.buf, lent.len);

    if (lent.len != 0)
        memcpy(before_bytes, lent.buf, lent.len);
    check_reading(lent, reading);
    check_steps(lent, reading);
    check_attributes(lent, reading);
    check_map(lent, reading);
    check_line(lent, reading);
    check_modules(lent, reading);
    HOLDS(lent.len == 0 || memcmp(before_bytes, lent.buf, lent.len) == 0);
    if (ultra_number(reading) == ULTRA_OK) {
        check_silent(lent, reading, 0xFF);
        check_rebuilt(lent, reading);
    }
    return reading;
}

/* ---- The script ---- */

struct script {
    const uint8_t *at;
    const uint8_t *end;
};

static uint8_t take8(struct script *script)
{
    return script->at < script->end ? *script->at++ : 0;
}

static uint64_t take64(struct script *script)
{
    uint64_t value = 0;

    for (int byte = 0; byte < 8; byte++)
        value = value << 8 | take8(script);
    return value;
}

/* Mostly numbers at which something changes. */
static uint64_t take_number(struct script *script)
{
    static const uint64_t near[] = {0, 1, 2, 3, 4, 5, 24, 32, 4095, 4096, 4097, 8192, 65535, 65536, 0xFFFFFFFF, 0x100000000,
                                    0xFFFFFFFFFFFFF000, 0xFFFFFFFFFFFFFFFF};
    uint8_t which = take8(script);

    return which < sizeof near / sizeof near[0] ? near[which] : take64(script);
}

/* Letters after a slash, with one byte of the script's choice in them, flush with a page that cannot be touched. */
static const uint8_t *take_text(struct script *script, struct region *region, size_t *length)
{
    uint8_t *text;
    uint8_t place;

    *length = take8(script);
    if (*length == 255)
        *length += take8(script);
    text = region_lend(region, *length, BACK);
    for (size_t at = 0; at < *length; at++)
        text[at] = at == 0 ? '/' : 'a';
    place = take8(script);
    if (place < *length)
        text[place] = take8(script);
    return text;
}

static const uint8_t *take_guid(struct script *script, struct region *region, size_t *length)
{
    uint8_t choice = take8(script);
    uint8_t *guid;

    *length = choice < 200 ? 16 : choice - 200;
    guid = region_lend(region, *length, BACK);
    memset(guid, choice, *length);
    return guid;
}

static const uint8_t *take_entries(struct script *script, struct region *region, size_t *length)
{
    uint8_t count = take8(script) % 32;
    uint8_t odd = take8(script);
    uint8_t *entries;

    *length = 24u * count + (odd < 24 ? odd : 0);
    entries = region_lend(region, *length, BACK);
    memset(entries, 0, *length);
    for (uint8_t at = 0; at < count; at++) {
        uint64_t entry[3] = {4096u * at, take_number(script), take_number(script)};

        memcpy(entries + 24 * at, entry, sizeof entry);
    }
    return entries;
}

static struct region buffer;
static struct region first_slice;
static struct region second_slice;
static struct region third_slice;

/* Adds what the script says, of a type from 1 to 6. */
static uint64_t add(struct script *script, uint32_t type, uint8_t *buf, size_t len)
{
    size_t lengths[3];
    const uint8_t *first;
    const uint8_t *second;
    const uint8_t *third;
    uint64_t numbers[4];

    for (int at = 0; at < 4; at++)
        numbers[at] = take_number(script);
    switch (type) {
    case ULTRA_ATTRIBUTE_PLATFORM_INFO:
        first = take_text(script, &first_slice, &lengths[0]);
        return ultra_add_platform(buf, len, (uint32_t)numbers[0], (uint16_t)numbers[1], (uint16_t)numbers[2], first, lengths[0],
                                  numbers[3], numbers[0], (uint8_t)numbers[1], numbers[2], numbers[3]);
    case ULTRA_ATTRIBUTE_KERNEL_INFO:
        first = take_guid(script, &first_slice, &lengths[0]);
        second = take_guid(script, &second_slice, &lengths[1]);
        third = take_text(script, &third_slice, &lengths[2]);
        return ultra_add_kernel(buf, len, numbers[0], numbers[1], numbers[2], numbers[3], first, lengths[0], second, lengths[1],
                                (uint32_t)numbers[0], (uint32_t)numbers[1], third, lengths[2]);
    case ULTRA_ATTRIBUTE_MEMORY_MAP:
        first = take_entries(script, &first_slice, &lengths[0]);
        return ultra_add_map(buf, len, first, lengths[0]);
    case ULTRA_ATTRIBUTE_MODULE_INFO:
        first = take_text(script, &first_slice, &lengths[0]);
        return ultra_add_module(buf, len, (uint32_t)numbers[0], first, lengths[0], numbers[1], numbers[2]);
    case ULTRA_ATTRIBUTE_COMMAND_LINE:
        first = take_text(script, &first_slice, &lengths[0]);
        return ultra_add_command_line(buf, len, first, lengths[0]);
    default:
        return ultra_add_framebuffer(buf, len, (uint32_t)numbers[0], (uint32_t)numbers[1], (uint32_t)numbers[2],
                                     (uint16_t)(numbers[3] & 1 ? 24 : 32), (uint16_t)(numbers[3] % 7), numbers[1]);
    }
}

/* One more attribute where the used length was, one more in the count, and no other byte changed. */
static void check_added(struct lent lent, uint32_t type, uint64_t answer, uint64_t reading)
{
    uint32_t count = count_of(lent.buf);
    uint32_t used = count == 1 ? 8 : count == 2 ? 8 + size_of(lent.buf + 8) : ultra_value(reading);
    uint32_t end = ultra_value(answer);

    HOLDS(end <= room_of(lent.len) && end >= used + 8);
    HOLDS(count == count_of(before_bytes) + 1);
    HOLDS(type_of(lent.buf + used) == type && size_of(lent.buf + used) == end - used);
    HOLDS(memcmp(lent.buf, before_bytes, 4) == 0);
    HOLDS(memcmp(lent.buf + 8, before_bytes + 8, used - 8) == 0);
    HOLDS(memcmp(lent.buf + end, before_bytes + end, lent.len - end) == 0);
    if (count >= 2) {
        HOLDS(ultra_read(lent.buf, lent.len) == end);
        HOLDS(ultra_attribute(lent.buf, lent.len, count - 1) == used);
    }
}

static void check_add(struct script *script, uint32_t type, uint8_t *buf, size_t len)
{
    struct lent lent = {buf, len};
    uint64_t reading = ultra_read(buf, len);
    uint64_t answer;

    if (len != 0)
        memcpy(before_bytes, buf, len);
    answer = add(script, type, buf, len);
    saw(ADD, type, ultra_number(answer), rough(len < 8 ? 0 : count_of(buf)));
    HOLDS(region_intact(&buffer));
    if (ultra_number(answer) == ULTRA_OK) {
        check_added(lent, type, answer, reading);
        return;
    }
    HOLDS(len == 0 || memcmp(before_bytes, buf, len) == 0);
    HOLDS(ultra_number(answer) <= ULTRA_ROOM && ultra_number(answer) != ULTRA_MISSING);
    if (ultra_number(reading) == ULTRA_OK)
        HOLDS(ultra_number(answer) >= ULTRA_PLACE && ultra_value(answer) == ultra_value(reading));
    else if (ultra_number(reading) != ULTRA_MISSING)
        HOLDS(answer == reading);
}

static void check_begin(uint8_t *buf, size_t len)
{
    static const uint8_t head[8] = {1};
    uint64_t answer;

    if (len != 0)
        memcpy(before_bytes, buf, len);
    answer = ultra_begin(buf, len);
    saw(BEGIN, ultra_number(answer), 0, 0);
    HOLDS(region_intact(&buffer));
    if (len < 8) {
        HOLDS(answer == (uint64_t)ULTRA_SHORT << 32);
        HOLDS(len == 0 || memcmp(before_bytes, buf, len) == 0);
    } else {
        HOLDS(answer == 8);
        HOLDS(memcmp(buf, head, 8) == 0);
        HOLDS(memcmp(buf + 8, before_bytes + 8, len - 8) == 0);
    }
}

/* Another writer's change, at any place. */
static void poke(struct script *script, uint8_t *buf, size_t len)
{
    size_t place = (size_t)take8(script) << 8;

    place |= take8(script);
    if (place < len)
        buf[place] = take8(script);
}

static void run_script(struct script *script, uint8_t *buf, size_t len)
{
    while (script->at < script->end) {
        uint8_t what = take8(script) % 8;

        if (what == 0)
            check_begin(buf, len);
        else if (what == 7)
            poke(script, buf, len);
        else
            check_add(script, what, buf, len);
    }
}

/* ---- An input ---- */

/* How many bytes the buffer has after those of the input: none, some, or past the room. */
static size_t after(uint8_t choice, size_t given)
{
    static const size_t some[] = {0, 0, 1, 8, 100, 400, 1000, 4000};
    size_t more = some[choice % 8];

    if (choice >= 240 && given < ULTRA_ROOM_MAX)
        more = ULTRA_ROOM_MAX - given + (choice >= 248 ? 100 : 0);
    return given + more <= REGION_SIZE ? more : 0;
}

int LLVMFuzzerTestOneInput(const uint8_t *data, size_t size)
{
    size_t script_length = size == 0 ? 0 : data[size - 1];
    size_t given;
    struct script script;
    struct lent lent;
    uint8_t *buf;

    if (size > 0)
        size--;
    if (script_length > size)
        script_length = size;
    given = size - script_length;
    if (given > REGION_SIZE)
        return 0;
    script.at = data + given;
    script.end = data + size;
    lent.len = given + after(take8(&script), given);
    buf = region_lend(&buffer, lent.len, BACK);
    memset(buf, 0, lent.len);
    if (given != 0)
        memcpy(buf, data, given);
    lent.buf = buf;
    check_buffer(lent);
    run_script(&script, buf, lent.len);
    check_buffer(lent);
    return 0;
}
