/*
 * The published layout, seen from the other side: contexts that the library builds are read through the protocol's structures and
 * macros alone, and contexts built through those are read by the library. The header's offsets are held to the structures'.
 */
#include "check.h"
#include "protocol.h"
#include "ultra.h"

#include <stdlib.h>
#include <unistd.h>

enum { ROOM = 2048, TIME_LIMIT = 240 };

/* A filling that is none: valgrind then reports whatever depends on a byte that nobody wrote. */
enum { UNINITIALISED = -1 };

static uint8_t *new_buffer(size_t length, int fill)
{
    uint8_t *buf = malloc(length);

    if (buf == NULL)
        abort();
    if (fill != UNINITIALISED)
        memset(buf, fill, length);
    return buf;
}

static const uint8_t *bytes(const void *text)
{
    return text;
}

/* ---- Built by the library, read through the structures ---- */

/* Every member differs from every other, and its bytes among themselves, so that none can stand for another. */
static const char loader_name[] = "a loader's name of thirty-one b";
static const uint8_t disk_guid[16] = {0x10, 0x11, 0x12, 0x13, 0x14, 0x15, 0x16, 0x17, 0x18, 0x19, 0x1A, 0x1B, 0x1C, 0x1D, 0x1E, 0x1F};
static const uint8_t partition_guid[16] = {0xF0, 0xF1, 0xF2, 0xF3, 0xF4, 0xF5, 0xF6, 0xF7, 0xF8, 0xF9, 0xFA, 0xFB, 0xFC, 0xFD, 0xFE, 0xFF};
static const char kernel_path[] = "/boot/k\xC3\xA9rnel";
static const struct ultra_memory_map_entry map_entries[] = {
    {0x0000000000000000, 0x0000000000100000, ULTRA_MEMORY_TYPE_RESERVED},
    {0x0000000000100000, 0x0000000102030405, ULTRA_MEMORY_TYPE_FREE},
    {0x1122334455667788, 0x0000000000000000, 0x0000000100000000},
    {0xFFFFFFFFFFFFF000, 0x0000000000001000, ULTRA_MEMORY_TYPE_LOADER_RECLAIMABLE},
};
enum { MAP_COUNT = sizeof map_entries / sizeof map_entries[0] };
static const char module_names[2][64] = {"", "a module's name of sixty-three bytes, as long as there can be a"};
static const char command_line[] = "root=/dev/sda1 quiet \x01\x7F";

static uint32_t build_every_type(uint8_t *buf, size_t len)
{
    uint32_t used = 8;

    CHECK_ANSWER(ultra_begin(buf, len), ULTRA_OK, used);
    used += 88;
    CHECK_ANSWER(ultra_add_platform(buf, len, 0x01020304, 0x0506, 0x0708, bytes(loader_name), strlen(loader_name),
                                    0x1112131415161718, 0x2122232425262728, 0x31, 0x4142434445464748, 0x5152535455565758),
                 ULTRA_OK, used);
    used += 336;
    CHECK_ANSWER(ultra_add_kernel(buf, len, 0x6162636465666000, 0x7172737475767000, 0x0000000000ABC000, 0x8182838485868788,
                                  disk_guid, 16, partition_guid, 16, 0x91929394, 0xA1A2A3A4, bytes(kernel_path),
                                  strlen(kernel_path)),
                 ULTRA_OK, used);
    used += 8 + sizeof map_entries;
    CHECK_ANSWER(ultra_add_map(buf, len, bytes(map_entries), sizeof map_entries), ULTRA_OK, used);
    used += 96;
    CHECK_ANSWER(ultra_add_module(buf, len, ULTRA_MODULE_TYPE_FILE, bytes(module_names[0]), 0, 0xB1B2B3B4B5B6B000,
                                  0x00000000C1C2C3C4),
                 ULTRA_OK, used);
    used += 96;
    CHECK_ANSWER(ultra_add_module(buf, len, ULTRA_MODULE_TYPE_MEMORY, bytes(module_names[1]), 63, 0xD1D2D3D4D5D6D000,
                                  0x00000000E1E2E3E4),
                 ULTRA_OK, used);
    used += 8 + 24;
    CHECK_ANSWER(ultra_add_command_line(buf, len, bytes(command_line), 23), ULTRA_OK, used);
    used += 32;
    CHECK_ANSWER(ultra_add_framebuffer(buf, len, 0x00000102, 0x03040506, 0x00010708, 32, ULTRA_FB_FORMAT_XRGB8888,
                                       0x2324252627282930),
                 ULTRA_OK, used);
    return used;
}

/* A fixed text: its bytes, then zeros to the end of its field. */
static int field_is(const char *field, size_t width, const char *text)
{
    size_t length = strlen(text);

    if (length >= width || memcmp(field, text, length) != 0)
        return 0;
    for (size_t at = length; at < width; at++)
        if (field[at] != 0)
            return 0;
    return 1;
}

static int guid_is(const struct ultra_guid *guid, uint32_t data1, uint16_t data2, uint16_t data3, uint8_t data4)
{
    for (int at = 0; at < 8; at++)
        if (guid->data4[at] != data4 + at)
            return 0;
    return guid->data1 == data1 && guid->data2 == data2 && guid->data3 == data3;
}

static void see_platform(const struct ultra_attribute_header *header)
{
    const struct platform_info_attribute *platform = (const void *)header;
    static const uint8_t zeros[7];

    CHECK(header->type == ULTRA_ATTRIBUTE_PLATFORM_INFO);
    CHECK(header->size == sizeof *platform);
    CHECK(platform->platform_type == 0x01020304);
    CHECK(platform->loader_major == 0x0506);
    CHECK(platform->loader_minor == 0x0708);
    CHECK(field_is(platform->loader_name, sizeof platform->loader_name, loader_name));
    CHECK(platform->acpi_rsdp_address == 0x1112131415161718);
    CHECK(platform->higher_half_base == 0x2122232425262728);
    CHECK(platform->page_table_depth == 0x31);
    CHECK_BYTES(platform->reserved, zeros, sizeof zeros);
    CHECK(platform->dtb_address == 0x4142434445464748);
    CHECK(platform->smbios_address == 0x5152535455565758);
}

static void see_kernel(const struct ultra_attribute_header *header)
{
    const struct ultra_kernel_info_attribute *kernel = (const void *)header;

    CHECK(header->type == ULTRA_ATTRIBUTE_KERNEL_INFO);
    CHECK(header->size == sizeof *kernel);
    CHECK(kernel->physical_base == 0x6162636465666000);
    CHECK(kernel->virtual_base == 0x7172737475767000);
    CHECK(kernel->size == 0x0000000000ABC000);
    CHECK(kernel->partition_type == 0x8182838485868788);
    CHECK(guid_is(&kernel->disk_guid, 0x13121110, 0x1514, 0x1716, 0x18));
    CHECK(guid_is(&kernel->partition_guid, 0xF3F2F1F0, 0xF5F4, 0xF7F6, 0xF8));
    CHECK(kernel->disk_index == 0x91929394);
    CHECK(kernel->partition_index == 0xA1A2A3A4);
    CHECK(field_is(kernel->fs_path, sizeof kernel->fs_path, kernel_path));
}

static void see_map(const struct ultra_attribute_header *header)
{
    const struct ultra_memory_map_attribute *map = (const void *)header;

    CHECK(header->type == ULTRA_ATTRIBUTE_MEMORY_MAP);
    CHECK(header->size == sizeof *map + sizeof map_entries);
    CHECK(ULTRA_MEMORY_MAP_ENTRY_COUNT(map->header) == MAP_COUNT);
    for (size_t at = 0; at < MAP_COUNT; at++) {
        CHECK(map->entries[at].physical_address == map_entries[at].physical_address);
        CHECK(map->entries[at].size == map_entries[at].size);
        CHECK(map->entries[at].type == map_entries[at].type);
    }
}

static void see_module(const struct ultra_attribute_header *header, uint32_t type, const char *name, uint64_t address, uint64_t size)
{
    const struct ultra_module_info_attribute *module = (const void *)header;

    CHECK(header->type == ULTRA_ATTRIBUTE_MODULE_INFO);
    CHECK(header->size == sizeof *module);
    CHECK(module->reserved == 0);
    CHECK(module->type == type);
    CHECK(field_is(module->name, sizeof module->name, name));
    CHECK(module->address == address);
    CHECK(module->size == size);
}

static void see_command_line(const struct ultra_attribute_header *header)
{
    const struct ultra_command_line_attribute *line = (const void *)header;

    CHECK(header->type == ULTRA_ATTRIBUTE_COMMAND_LINE);
    CHECK(header->size == sizeof *line + 24);
    CHECK(field_is(line->text, 24, command_line));
}

static void see_framebuffer(const struct ultra_attribute_header *header)
{
    const struct ultra_framebuffer_attribute *framebuffer = (const void *)header;

    CHECK(header->type == ULTRA_ATTRIBUTE_FRAMEBUFFER_INFO);
    CHECK(header->size == sizeof *framebuffer);
    CHECK(framebuffer->fb.width == 0x00000102);
    CHECK(framebuffer->fb.height == 0x03040506);
    CHECK(framebuffer->fb.pitch == 0x00010708);
    CHECK(framebuffer->fb.bpp == 32);
    CHECK(framebuffer->fb.format == ULTRA_FB_FORMAT_XRGB8888);
    CHECK(framebuffer->fb.physical_address == 0x2324252627282930);
}

/* The fill shows a byte that should be cleared and is not, and one that should stay and does not. */
static void see_what_was_built(int fill)
{
    uint8_t *buf = new_buffer(ROOM, fill);
    uint8_t *untouched = new_buffer(ROOM, fill);
    const struct ultra_boot_context *context = (const void *)buf;
    struct ultra_attribute_header *attribute;
    uint32_t used;

    checks_name("built by the library over bytes %d", fill);
    used = build_every_type(buf, ROOM);
    CHECK(context->protocol_major == 1);
    CHECK(context->protocol_minor == 0);
    CHECK(context->reserved == 0);
    CHECK(context->attribute_count == 7);

    attribute = (struct ultra_attribute_header *)(buf + sizeof *context);
    see_platform(attribute);
    attribute = ULTRA_NEXT_ATTRIBUTE(attribute);
    see_kernel(attribute);
    attribute = ULTRA_NEXT_ATTRIBUTE(attribute);
    see_map(attribute);
    attribute = ULTRA_NEXT_ATTRIBUTE(attribute);
    see_module(attribute, ULTRA_MODULE_TYPE_FILE, module_names[0], 0xB1B2B3B4B5B6B000, 0x00000000C1C2C3C4);
    attribute = ULTRA_NEXT_ATTRIBUTE(attribute);
    see_module(attribute, ULTRA_MODULE_TYPE_MEMORY, module_names[1], 0xD1D2D3D4D5D6D000, 0x00000000E1E2E3E4);
    attribute = ULTRA_NEXT_ATTRIBUTE(attribute);
    see_command_line(attribute);
    attribute = ULTRA_NEXT_ATTRIBUTE(attribute);
    see_framebuffer(attribute);
    attribute = ULTRA_NEXT_ATTRIBUTE(attribute);
    CHECK((uint8_t *)attribute == buf + used);
    if (fill != UNINITIALISED)
        CHECK_BYTES(buf + used, untouched, ROOM - used);
    CHECK_ANSWER(ultra_read(buf, ROOM), ULTRA_OK, used);
    free(buf);
    free(untouched);
}

/* ---- Built by the library, read through the header's offsets ---- */

/* Each offset is the structure's. */
#define SAME(offset, structure, member) _Static_assert((offset) == offsetof(struct structure, member), #offset)

SAME(ULTRA_ATTRIBUTE_TYPE_OFFSET, ultra_attribute_header, type);
SAME(ULTRA_ATTRIBUTE_SIZE_OFFSET, ultra_attribute_header, size);
SAME(ULTRA_PLATFORM_TYPE_OFFSET, platform_info_attribute, platform_type);
SAME(ULTRA_PLATFORM_LOADER_MAJOR_OFFSET, platform_info_attribute, loader_major);
SAME(ULTRA_PLATFORM_LOADER_MINOR_OFFSET, platform_info_attribute, loader_minor);
SAME(ULTRA_PLATFORM_NAME_OFFSET, platform_info_attribute, loader_name);
SAME(ULTRA_PLATFORM_RSDP_OFFSET, platform_info_attribute, acpi_rsdp_address);
SAME(ULTRA_PLATFORM_HIGHER_HALF_BASE_OFFSET, platform_info_attribute, higher_half_base);
SAME(ULTRA_PLATFORM_DEPTH_OFFSET, platform_info_attribute, page_table_depth);
SAME(ULTRA_PLATFORM_DTB_OFFSET, platform_info_attribute, dtb_address);
SAME(ULTRA_PLATFORM_SMBIOS_OFFSET, platform_info_attribute, smbios_address);
SAME(ULTRA_KERNEL_PHYSICAL_BASE_OFFSET, ultra_kernel_info_attribute, physical_base);
SAME(ULTRA_KERNEL_VIRTUAL_BASE_OFFSET, ultra_kernel_info_attribute, virtual_base);
SAME(ULTRA_KERNEL_SIZE_OFFSET, ultra_kernel_info_attribute, size);
SAME(ULTRA_KERNEL_PARTITION_TYPE_OFFSET, ultra_kernel_info_attribute, partition_type);
SAME(ULTRA_KERNEL_DISK_GUID_OFFSET, ultra_kernel_info_attribute, disk_guid);
SAME(ULTRA_KERNEL_PARTITION_GUID_OFFSET, ultra_kernel_info_attribute, partition_guid);
SAME(ULTRA_KERNEL_DISK_INDEX_OFFSET, ultra_kernel_info_attribute, disk_index);
SAME(ULTRA_KERNEL_PARTITION_INDEX_OFFSET, ultra_kernel_info_attribute, partition_index);
SAME(ULTRA_KERNEL_PATH_OFFSET, ultra_kernel_info_attribute, fs_path);
SAME(ULTRA_MAP_ENTRIES_OFFSET, ultra_memory_map_attribute, entries);
SAME(ULTRA_MAP_ENTRY_ADDRESS_OFFSET, ultra_memory_map_entry, physical_address);
SAME(ULTRA_MAP_ENTRY_SIZE_OFFSET, ultra_memory_map_entry, size);
SAME(ULTRA_MAP_ENTRY_TYPE_OFFSET, ultra_memory_map_entry, type);
SAME(ULTRA_MODULE_TYPE_OFFSET, ultra_module_info_attribute, type);
SAME(ULTRA_MODULE_NAME_OFFSET, ultra_module_info_attribute, name);
SAME(ULTRA_MODULE_ADDRESS_OFFSET, ultra_module_info_attribute, address);
SAME(ULTRA_MODULE_SIZE_OFFSET, ultra_module_info_attribute, size);
SAME(ULTRA_COMMAND_LINE_TEXT_OFFSET, ultra_command_line_attribute, text);
SAME(ULTRA_FRAMEBUFFER_WIDTH_OFFSET, ultra_framebuffer_attribute, fb.width);
SAME(ULTRA_FRAMEBUFFER_HEIGHT_OFFSET, ultra_framebuffer_attribute, fb.height);
SAME(ULTRA_FRAMEBUFFER_PITCH_OFFSET, ultra_framebuffer_attribute, fb.pitch);
SAME(ULTRA_FRAMEBUFFER_BPP_OFFSET, ultra_framebuffer_attribute, fb.bpp);
SAME(ULTRA_FRAMEBUFFER_FORMAT_OFFSET, ultra_framebuffer_attribute, fb.format);
SAME(ULTRA_FRAMEBUFFER_ADDRESS_OFFSET, ultra_framebuffer_attribute, fb.physical_address);

/* And each width is the one that the header's comment says, also at an odd address, where no structure could be used. */
static void see_through_offsets(void)
{
    uint8_t *memory = new_buffer(ROOM + 1, 0xA5);
    uint8_t *buf = memory + 1;
    const uint8_t *at[7];

    checks_name("built by the library at an odd address");
    build_every_type(buf, ROOM);
    for (uint32_t index = 0; index < 7; index++)
        at[index] = buf + ultra_value(ultra_attribute(buf, ROOM, index));

    CHECK(ultra_u32(at[0] + ULTRA_ATTRIBUTE_TYPE_OFFSET) == ULTRA_ATTRIBUTE_PLATFORM_INFO);
    CHECK(ultra_u32(at[0] + ULTRA_ATTRIBUTE_SIZE_OFFSET) == ULTRA_PLATFORM_SIZE);
    CHECK(ultra_u32(at[0] + ULTRA_PLATFORM_TYPE_OFFSET) == 0x01020304);
    CHECK(ultra_u16(at[0] + ULTRA_PLATFORM_LOADER_MAJOR_OFFSET) == 0x0506);
    CHECK(ultra_u16(at[0] + ULTRA_PLATFORM_LOADER_MINOR_OFFSET) == 0x0708);
    CHECK_BYTES(at[0] + ULTRA_PLATFORM_NAME_OFFSET, bytes(loader_name), ULTRA_LOADER_NAME_MAX);
    CHECK(ultra_u64(at[0] + ULTRA_PLATFORM_RSDP_OFFSET) == 0x1112131415161718);
    CHECK(ultra_u64(at[0] + ULTRA_PLATFORM_HIGHER_HALF_BASE_OFFSET) == 0x2122232425262728);
    CHECK(at[0][ULTRA_PLATFORM_DEPTH_OFFSET] == 0x31);
    CHECK(ultra_u64(at[0] + ULTRA_PLATFORM_DTB_OFFSET) == 0x4142434445464748);
    CHECK(ultra_u64(at[0] + ULTRA_PLATFORM_SMBIOS_OFFSET) == 0x5152535455565758);

    CHECK(ultra_u64(at[1] + ULTRA_KERNEL_PHYSICAL_BASE_OFFSET) == 0x6162636465666000);
    CHECK(ultra_u64(at[1] + ULTRA_KERNEL_VIRTUAL_BASE_OFFSET) == 0x7172737475767000);
    CHECK(ultra_u64(at[1] + ULTRA_KERNEL_SIZE_OFFSET) == 0x0000000000ABC000);
    CHECK(ultra_u64(at[1] + ULTRA_KERNEL_PARTITION_TYPE_OFFSET) == 0x8182838485868788);
    CHECK_BYTES(at[1] + ULTRA_KERNEL_DISK_GUID_OFFSET, disk_guid, ULTRA_GUID_SIZE);
    CHECK_BYTES(at[1] + ULTRA_KERNEL_PARTITION_GUID_OFFSET, partition_guid, ULTRA_GUID_SIZE);
    CHECK(ultra_u32(at[1] + ULTRA_KERNEL_DISK_INDEX_OFFSET) == 0x91929394);
    CHECK(ultra_u32(at[1] + ULTRA_KERNEL_PARTITION_INDEX_OFFSET) == 0xA1A2A3A4);
    CHECK_BYTES(at[1] + ULTRA_KERNEL_PATH_OFFSET, bytes(kernel_path), sizeof kernel_path);

    for (size_t which = 0; which < MAP_COUNT; which++) {
        const uint8_t *entry = at[2] + ULTRA_MAP_ENTRIES_OFFSET + which * ULTRA_MAP_ENTRY_SIZE;

        CHECK(ultra_u64(entry + ULTRA_MAP_ENTRY_ADDRESS_OFFSET) == map_entries[which].physical_address);
        CHECK(ultra_u64(entry + ULTRA_MAP_ENTRY_SIZE_OFFSET) == map_entries[which].size);
        CHECK(ultra_u64(entry + ULTRA_MAP_ENTRY_TYPE_OFFSET) == map_entries[which].type);
    }

    CHECK(ultra_u32(at[4] + ULTRA_MODULE_TYPE_OFFSET) == ULTRA_MODULE_TYPE_MEMORY);
    CHECK_BYTES(at[4] + ULTRA_MODULE_NAME_OFFSET, bytes(module_names[1]), ULTRA_MODULE_NAME_MAX);
    CHECK(ultra_u64(at[4] + ULTRA_MODULE_ADDRESS_OFFSET) == 0xD1D2D3D4D5D6D000);
    CHECK(ultra_u64(at[4] + ULTRA_MODULE_SIZE_OFFSET) == 0x00000000E1E2E3E4);

    CHECK_BYTES(at[5] + ULTRA_COMMAND_LINE_TEXT_OFFSET, bytes(command_line), sizeof command_line);

    CHECK(ultra_u32(at[6] + ULTRA_FRAMEBUFFER_WIDTH_OFFSET) == 0x00000102);
    CHECK(ultra_u32(at[6] + ULTRA_FRAMEBUFFER_HEIGHT_OFFSET) == 0x03040506);
    CHECK(ultra_u32(at[6] + ULTRA_FRAMEBUFFER_PITCH_OFFSET) == 0x00010708);
    CHECK(ultra_u16(at[6] + ULTRA_FRAMEBUFFER_BPP_OFFSET) == 32);
    CHECK(ultra_u16(at[6] + ULTRA_FRAMEBUFFER_FORMAT_OFFSET) == ULTRA_FB_FORMAT_XRGB8888);
    CHECK(ultra_u64(at[6] + ULTRA_FRAMEBUFFER_ADDRESS_OFFSET) == 0x2324252627282930);
    free(memory);
}

/* ---- Built through the structures, read by the library ---- */

/* A context that another writer could send: a later version, attributes longer than ours, types that we do not know, and junk in
 * every byte that decides nothing. */
struct foreign {
    struct ultra_boot_context *context;
    struct platform_info_attribute *platform;
    struct ultra_kernel_info_attribute *kernel;
    struct ultra_attribute_header *vendor[2];
    struct ultra_memory_map_attribute *map;
    struct ultra_module_info_attribute *module[3];
    struct ultra_attribute_header *last_vendor;
    struct ultra_command_line_attribute *line;
    struct ultra_framebuffer_attribute *framebuffer;
    uint32_t used;
};

static struct ultra_attribute_header *attribute_at(struct ultra_boot_context *context, uint32_t index)
{
    struct ultra_attribute_header *attribute = (struct ultra_attribute_header *)((uint8_t *)context + sizeof *context);

    for (uint32_t at = 0; at < index; at++)
        attribute = ULTRA_NEXT_ATTRIBUTE(attribute);
    return attribute;
}

static uint32_t offset_of(const struct ultra_boot_context *context, const void *attribute)
{
    return (uint32_t)((const uint8_t *)attribute - (const uint8_t *)context);
}

static void *append(struct ultra_boot_context *context, uint32_t type, uint32_t size)
{
    struct ultra_attribute_header *attribute = attribute_at(context, context->attribute_count);

    attribute->type = type;
    attribute->size = size;
    context->attribute_count++;
    return attribute;
}

static void append_platform(struct foreign *f, uint32_t size)
{
    f->platform = append(f->context, ULTRA_ATTRIBUTE_PLATFORM_INFO, size);
    f->platform->platform_type = 0x80000000;
    memcpy(f->platform->loader_name, "l", 2);
}

static void append_kernel(struct foreign *f, uint32_t size)
{
    f->kernel = append(f->context, ULTRA_ATTRIBUTE_KERNEL_INFO, size);
    f->kernel->physical_base = 0x200000;
    f->kernel->virtual_base = 0xFFFFFFFF80200000;
    f->kernel->size = 0x7FE00000;
    f->kernel->partition_type = 0x100000000;
    memcpy(f->kernel->fs_path, "/\xFF", 3);
}

static void append_map(struct foreign *f)
{
    f->map = append(f->context, ULTRA_ATTRIBUTE_MEMORY_MAP, sizeof *f->map + 3 * sizeof f->map->entries[0]);
    f->map->entries[0] = (struct ultra_memory_map_entry){0x1000, 0x1000, ULTRA_MEMORY_TYPE_FREE};
    f->map->entries[1] = (struct ultra_memory_map_entry){0x2000, 0, 0xFFFFFFFF00000000};
    f->map->entries[2] = (struct ultra_memory_map_entry){0x2000, 0xFFFFFFFFFFFFE000, ULTRA_MEMORY_TYPE_NVS};
}

static void append_module(struct foreign *f, int which, uint32_t size, uint32_t type, uint64_t address, uint64_t length)
{
    f->module[which] = append(f->context, ULTRA_ATTRIBUTE_MODULE_INFO, size);
    f->module[which]->type = type;
    memcpy(f->module[which]->name, "m", 2);
    f->module[which]->address = address;
    f->module[which]->size = length;
}

static void append_line(struct foreign *f)
{
    f->line = append(f->context, ULTRA_ATTRIBUTE_COMMAND_LINE, sizeof *f->line + 32);
    memcpy(f->line->text, "log=1", 6);
}

static void append_framebuffer(struct foreign *f)
{
    f->framebuffer = append(f->context, ULTRA_ATTRIBUTE_FRAMEBUFFER_INFO, sizeof *f->framebuffer + 8);
    f->framebuffer->fb.width = 1366;
    f->framebuffer->fb.height = 768;
    f->framebuffer->fb.pitch = 4098;
    f->framebuffer->fb.bpp = 24;
    f->framebuffer->fb.format = ULTRA_FB_FORMAT_BGR888;
    f->framebuffer->fb.physical_address = UINT64_MAX - 4098 * 768 + 1;
}

static struct foreign new_head(int junk)
{
    struct foreign f = {0};

    f.context = (struct ultra_boot_context *)new_buffer(ROOM, junk);
    f.context->protocol_major = 2;
    f.context->protocol_minor = 7;
    f.context->attribute_count = 0;
    return f;
}

static struct foreign new_foreign(int junk)
{
    struct foreign f = new_head(junk);

    append_platform(&f, sizeof *f.platform + 16);
    append_kernel(&f, sizeof *f.kernel + 8);
    f.vendor[0] = append(f.context, 7, 24);
    f.vendor[1] = append(f.context, 7, 8);
    append_map(&f);
    append_module(&f, 0, sizeof *f.module[0], ULTRA_MODULE_TYPE_FILE, 0x10000, 0x1001);
    append_module(&f, 1, sizeof *f.module[1] + 8, ULTRA_MODULE_TYPE_MEMORY, 0x11000, 0x2000);
    append_module(&f, 2, sizeof *f.module[2], ULTRA_MODULE_TYPE_MEMORY, 0xFFFFFFFFFFFFF000, 0x1000);
    f.last_vendor = append(f.context, 0xFFFFFFFF, 16);
    append_line(&f);
    append_framebuffer(&f);
    f.used = offset_of(f.context, attribute_at(f.context, f.context->attribute_count));
    return f;
}

/* The library is lent just the used bytes, on the heap, so that a tool sees what it reads beyond them. */
static uint8_t *exact_copy(const struct foreign *f)
{
    uint8_t *buf = new_buffer(f->used, 0);

    memcpy(buf, f->context, f->used);
    return buf;
}

static void step_through(const struct foreign *f, const uint8_t *buf)
{
    struct ultra_cursor at = ultra_first_cursor();

    for (uint32_t index = 0; index < f->context->attribute_count; index++) {
        struct ultra_attribute_header *attribute = attribute_at(f->context, index);
        uint64_t answer = ultra_step(buf, f->used, at.index, at.offset);

        CHECK(at.index == index);
        CHECK(at.offset == offset_of(f->context, attribute));
        CHECK_ANSWER(answer, ULTRA_OK, offset_of(f->context, ULTRA_NEXT_ATTRIBUTE(attribute)));
        CHECK_ANSWER(ultra_attribute(buf, f->used, index), ULTRA_OK, at.offset);
        at = ultra_next_cursor(at, answer);
    }
    CHECK(at.offset == f->used);
    CHECK(ultra_step(buf, f->used, at.index, at.offset) == 0);
    CHECK_ANSWER(ultra_attribute(buf, f->used, at.index), ULTRA_COUNT, f->used);
    CHECK_ANSWER(ultra_attribute(buf, f->used, UINT64_C(1) << 32), ULTRA_COUNT, f->used);
}

static void ask_map(const struct foreign *f, const uint8_t *buf)
{
    size_t length = 3 * sizeof(struct ultra_memory_map_entry);
    uint8_t *out = new_buffer(length + 8, 0xA5);
    uint8_t *untouched = new_buffer(length + 8, 0xA5);

    CHECK_ANSWER(ultra_copy_map(buf, f->used, out, length - 1), ULTRA_ROOM, f->used);
    CHECK_BYTES(out, untouched, length + 8);
    CHECK_ANSWER(ultra_copy_map(buf, f->used, out, length + 8), ULTRA_OK, ULTRA_MEMORY_MAP_ENTRY_COUNT(f->map->header));
    CHECK_BYTES(out, f->map->entries, length);
    CHECK_BYTES(out + length, untouched, 8);
    free(out);
    free(untouched);
}

static void ask_modules(const struct foreign *f, const uint8_t *buf)
{
    uint32_t start[3];

    for (int at = 0; at < 3; at++)
        start[at] = offset_of(f->context, f->module[at]);
    CHECK_ANSWER(ultra_module_holding(buf, f->used, 0), ULTRA_OK, 0);
    CHECK_ANSWER(ultra_module_holding(buf, f->used, 0xFFFF), ULTRA_OK, 0);
    CHECK_ANSWER(ultra_module_holding(buf, f->used, 0x10000), ULTRA_OK, start[0]);
    CHECK_ANSWER(ultra_module_holding(buf, f->used, 0x11000), ULTRA_OK, start[0]);
    CHECK_ANSWER(ultra_module_holding(buf, f->used, 0x11001), ULTRA_OK, start[0]);
    CHECK_ANSWER(ultra_module_holding(buf, f->used, 0x11FFF), ULTRA_OK, start[0]);
    CHECK_ANSWER(ultra_module_holding(buf, f->used, 0x12000), ULTRA_OK, start[1]);
    CHECK_ANSWER(ultra_module_holding(buf, f->used, 0x12FFF), ULTRA_OK, start[1]);
    CHECK_ANSWER(ultra_module_holding(buf, f->used, 0x13000), ULTRA_OK, 0);
    CHECK_ANSWER(ultra_module_holding(buf, f->used, 0xFFFFFFFFFFFFEFFF), ULTRA_OK, 0);
    CHECK_ANSWER(ultra_module_holding(buf, f->used, 0xFFFFFFFFFFFFF000), ULTRA_OK, start[2]);
    CHECK_ANSWER(ultra_module_holding(buf, f->used, UINT64_MAX), ULTRA_OK, start[2]);
}

static void read_foreign(int junk)
{
    struct foreign f = new_foreign(junk);
    uint8_t *buf = exact_copy(&f);
    uint64_t line;

    checks_name("built through the structures over bytes %d", junk);
    CHECK(f.context->attribute_count == 11);
    CHECK_ANSWER(ultra_read(buf, f.used), ULTRA_OK, f.used);
    step_through(&f, buf);
    ask_map(&f, buf);
    ask_modules(&f, buf);
    line = ultra_command_line(buf, f.used);
    CHECK(ultra_text_start(line) == offset_of(f.context, f.line->text));
    CHECK(ultra_text_length(line) == 5);
    if (junk != UNINITIALISED)
        CHECK_BYTES(buf, f.context, f.used);
    free(buf);
    free(f.context);
}

/* Platforms of each size that the protocol had or may have, and nothing that can be asked about after the kernel. */
static void read_short_foreign(void)
{
    for (uint32_t size = 48; size <= 96; size += 8) {
        struct foreign f = new_head(0x5A);
        static const uint8_t before[24] = "as it was";
        uint8_t out[24] = "as it was";

        checks_name("a platform of %" PRIu32 " bytes", size);
        append_platform(&f, size);
        append_kernel(&f, sizeof *f.kernel);
        f.used = 8 + size + sizeof *f.kernel;
        if (size < 56) {
            CHECK_ANSWER(ultra_read((uint8_t *)f.context, f.used), ULTRA_FORM, 8);
        } else {
            CHECK_ANSWER(ultra_read((uint8_t *)f.context, f.used), ULTRA_OK, f.used);
            CHECK_ANSWER(ultra_attribute((uint8_t *)f.context, f.used, 1), ULTRA_OK, 8 + size);
            CHECK_ANSWER(ultra_attribute((uint8_t *)f.context, f.used, 2), ULTRA_COUNT, f.used);
            CHECK_ANSWER(ultra_copy_map((uint8_t *)f.context, f.used, out, sizeof out), ULTRA_ABSENT, f.used);
            CHECK_BYTES(out, before, sizeof out);
            CHECK(ultra_command_line((uint8_t *)f.context, f.used) == 0);
            CHECK_ANSWER(ultra_module_holding((uint8_t *)f.context, f.used, 0), ULTRA_OK, 0);
        }
        free(f.context);
    }
}

/* What the library adds after another writer's attributes; those keep every byte. */
static void add_to_foreign(void)
{
    struct foreign f = new_head(0x5A);
    struct ultra_framebuffer_attribute *added;
    uint8_t *before;

    checks_name("adding to a context built through the structures");
    append_platform(&f, 56);
    append_kernel(&f, sizeof *f.kernel + 24);
    append_module(&f, 0, sizeof *f.module[0], ULTRA_MODULE_TYPE_FILE, 0x10000, 1);
    f.vendor[0] = append(f.context, 8, 16);
    f.used = offset_of(f.context, attribute_at(f.context, 4));
    before = new_buffer(ROOM, 0);
    memcpy(before, f.context, ROOM);
    CHECK_ANSWER(ultra_add_module((uint8_t *)f.context, ROOM, ULTRA_MODULE_TYPE_FILE, NULL, 0, 0, 0), ULTRA_SPLIT, f.used);
    CHECK_BYTES((uint8_t *)f.context, before, ROOM);

    CHECK_ANSWER(ultra_add_framebuffer((uint8_t *)f.context, ROOM, 3, 4, 9, 24, ULTRA_FB_FORMAT_RGB888, 0x1000), ULTRA_OK,
                 f.used + sizeof *added);
    CHECK(f.context->attribute_count == 5);
    added = (struct ultra_framebuffer_attribute *)attribute_at(f.context, 4);
    CHECK(added->header.type == ULTRA_ATTRIBUTE_FRAMEBUFFER_INFO && added->header.size == sizeof *added);
    CHECK(added->fb.width == 3 && added->fb.height == 4 && added->fb.pitch == 9);
    CHECK(added->fb.bpp == 24 && added->fb.format == ULTRA_FB_FORMAT_RGB888 && added->fb.physical_address == 0x1000);

    f.context->attribute_count = 4;
    CHECK_BYTES((uint8_t *)f.context, before, f.used);
    CHECK_BYTES((uint8_t *)(added + 1), before + f.used + sizeof *added, ROOM - f.used - sizeof *added);
    free(before);
    free(f.context);
}

/* ---- One member spoilt: the library sees it where the structures have it ---- */

/* `at` is the attribute that is refused, or the context itself for offset 0. */
#define SPOIL(number, at, statement) \
    do { \
        struct foreign f = new_foreign(0x5A); \
        uint8_t *buf; \
        statement; \
        checks_name("%s", #statement); \
        buf = exact_copy(&f); \
        CHECK_ANSWER(ultra_read(buf, f.used), number, offset_of(f.context, at)); \
        CHECK_ANSWER(ultra_attribute(buf, f.used, 0), number, offset_of(f.context, at)); \
        CHECK_ANSWER(ultra_copy_map(buf, f.used, NULL, 0), number, offset_of(f.context, at)); \
        CHECK_ANSWER(ultra_module_holding(buf, f.used, 0), number, offset_of(f.context, at)); \
        CHECK(ultra_command_line(buf, f.used) == 0); \
        CHECK_BYTES(buf, f.context, f.used); \
        free(buf); \
        free(f.context); \
    } while (0)

static void spoil_structure(void)
{
    SPOIL(ULTRA_SHORT, f.context, f.used = 7);
    SPOIL(ULTRA_VERSION, f.context, f.context->protocol_major = 0);
    SPOIL(ULTRA_COUNT, f.context, f.context->attribute_count = 1025);
    SPOIL(ULTRA_MISSING, f.context, f.context->attribute_count = 1);
    SPOIL(ULTRA_HEADER, f.framebuffer, f.used = offset_of(f.context, f.framebuffer) + 7);
    SPOIL(ULTRA_HEADER, (uint8_t *)f.context + f.used, f.context->attribute_count++);
    SPOIL(ULTRA_SIZE, f.vendor[0], f.vendor[0]->size = 0);
    SPOIL(ULTRA_SIZE, f.vendor[0], f.vendor[0]->size = 28);
    SPOIL(ULTRA_OVERRUN, f.framebuffer, f.used -= 8);
    SPOIL(ULTRA_OVERRUN, f.platform, f.platform->header.size = 0xFFFFFFF8);
    SPOIL(ULTRA_TYPE, f.last_vendor, f.last_vendor->type = ULTRA_ATTRIBUTE_INVALID);
    SPOIL(ULTRA_PLACE, f.platform, f.platform->header.type = ULTRA_ATTRIBUTE_KERNEL_INFO);
    SPOIL(ULTRA_PLACE, f.kernel, f.kernel->header.type = 7);
    SPOIL(ULTRA_PLACE, f.last_vendor, f.last_vendor->type = ULTRA_ATTRIBUTE_PLATFORM_INFO);
    SPOIL(ULTRA_REPEAT, f.line, f.line->header.type = ULTRA_ATTRIBUTE_MEMORY_MAP);
    SPOIL(ULTRA_REPEAT, f.framebuffer, f.framebuffer->header.type = ULTRA_ATTRIBUTE_COMMAND_LINE);
    SPOIL(ULTRA_SPLIT, f.last_vendor, f.last_vendor->type = 7);
    SPOIL(ULTRA_SPLIT, f.framebuffer, f.framebuffer->header.type = ULTRA_ATTRIBUTE_MODULE_INFO);
}

static void spoil_forms(void)
{
    SPOIL(ULTRA_FORM, f.vendor[0], f.vendor[0]->type = ULTRA_ATTRIBUTE_FRAMEBUFFER_INFO);
    SPOIL(ULTRA_FORM, f.vendor[0], f.vendor[0]->type = ULTRA_ATTRIBUTE_MODULE_INFO);
    SPOIL(ULTRA_FORM, f.vendor[1], f.vendor[1]->type = ULTRA_ATTRIBUTE_COMMAND_LINE);
    SPOIL(ULTRA_FORM, f.map, f.map->header.size -= 8);
    SPOIL(ULTRA_FORM, f.map, f.map->header.size += 16);
    SPOIL(ULTRA_FORM, f.platform, f.platform->header.size = 48);
    SPOIL(ULTRA_FORM, f.kernel, f.kernel->header.size = 328);
    SPOIL(ULTRA_FORM, f.module[0], f.module[0]->header.size = 88);
    SPOIL(ULTRA_FORM, f.line, f.line->header.size = 8);
    SPOIL(ULTRA_FORM, f.framebuffer, f.framebuffer->header.size = 24);
}

static void spoil_values(void)
{
    SPOIL(ULTRA_VALUE, f.platform, f.platform->platform_type = ULTRA_PLATFORM_INVALID);
    SPOIL(ULTRA_VALUE, f.kernel, f.kernel->physical_base += 2048);
    SPOIL(ULTRA_VALUE, f.kernel, f.kernel->virtual_base += 1);
    SPOIL(ULTRA_VALUE, f.kernel, f.kernel->size -= 1);
    SPOIL(ULTRA_VALUE, f.kernel, f.kernel->partition_type = ULTRA_PARTITION_TYPE_INVALID);
    SPOIL(ULTRA_VALUE, f.map, f.map->entries[0].type = ULTRA_MEMORY_TYPE_INVALID);
    SPOIL(ULTRA_VALUE, f.map, f.map->entries[2].type = ULTRA_MEMORY_TYPE_INVALID);
    SPOIL(ULTRA_VALUE, f.module[1], f.module[1]->type = ULTRA_MODULE_TYPE_INVALID);
    SPOIL(ULTRA_VALUE, f.module[1], f.module[1]->type = 3);
    SPOIL(ULTRA_VALUE, f.module[0], f.module[0]->address += 8);
    SPOIL(ULTRA_VALUE, f.framebuffer, f.framebuffer->fb.format = ULTRA_FB_FORMAT_INVALID);
    SPOIL(ULTRA_VALUE, f.framebuffer, f.framebuffer->fb.format = 5);
    SPOIL(ULTRA_VALUE, f.framebuffer, f.framebuffer->fb.format = ULTRA_FB_FORMAT_RGBX8888);
    SPOIL(ULTRA_VALUE, f.framebuffer, f.framebuffer->fb.bpp = 32);
    SPOIL(ULTRA_VALUE, f.framebuffer, f.framebuffer->fb.width = 1367);
    SPOIL(ULTRA_VALUE, f.framebuffer, f.framebuffer->fb.pitch = 4097);
}

static void spoil_texts(void)
{
    SPOIL(ULTRA_TEXT, f.platform, f.platform->loader_name[0] = '\x80');
    SPOIL(ULTRA_TEXT, f.platform, memset(f.platform->loader_name, 'n', sizeof f.platform->loader_name));
    SPOIL(ULTRA_TEXT, f.kernel, f.kernel->fs_path[0] = 0);
    SPOIL(ULTRA_TEXT, f.kernel, f.kernel->fs_path[0] = 'b');
    SPOIL(ULTRA_TEXT, f.kernel, memset(f.kernel->fs_path, '/', sizeof f.kernel->fs_path));
    SPOIL(ULTRA_TEXT, f.module[2], f.module[2]->name[0] = '\xFF');
    SPOIL(ULTRA_TEXT, f.module[2], memset(f.module[2]->name, 'n', sizeof f.module[2]->name));
    SPOIL(ULTRA_TEXT, f.line, f.line->text[4] = '\x80');
    SPOIL(ULTRA_TEXT, f.line, memset(f.line->text, 'n', 32));
}

static void spoil_ranges(void)
{
    SPOIL(ULTRA_RANGE, f.kernel, f.kernel->physical_base = 0xFFFFFFFF80201000);
    SPOIL(ULTRA_RANGE, f.kernel, f.kernel->virtual_base += 4096);
    SPOIL(ULTRA_RANGE, f.kernel, f.kernel->size += 4096);
    SPOIL(ULTRA_RANGE, f.map, f.map->entries[2].size += 1);
    SPOIL(ULTRA_RANGE, f.map, f.map->entries[0].size = UINT64_MAX);
    SPOIL(ULTRA_RANGE, f.module[2], f.module[2]->size += 1);
    SPOIL(ULTRA_RANGE, f.framebuffer, f.framebuffer->fb.physical_address += 1);
    SPOIL(ULTRA_RANGE, f.framebuffer, f.framebuffer->fb.height += 1);
    SPOIL(ULTRA_ORDER, f.map, f.map->entries[0].size += 1);
    SPOIL(ULTRA_ORDER, f.map, f.map->entries[1].size = 1);
    SPOIL(ULTRA_ORDER, f.map, f.map->entries[1].physical_address = 0x2001);
}

/* ---- The context of document 01's listing ---- */

static const uint8_t listing[480] = {
    /* head: version 1.0, reserved, four attributes */
    1, 0, 0, 0, 4, 0, 0, 0,
    /* platform, 88 bytes */
    1, 0, 0, 0, 88, 0, 0, 0,
    /* type 2, loader 1.4, name */
    2, 0, 0, 0, 1, 0, 4, 0, 'f', 'r', 'o', 's', 't', 0, 0, 0, 0, 0, 0, 0, 0, 0, 0, 0, 0, 0, 0, 0, 0, 0, 0, 0, 0, 0, 0, 0, 0, 0, 0, 0,
    /* rsdp 917504, higher half base 18446603336221196288 */
    0, 0, 14, 0, 0, 0, 0, 0, 0, 0, 0, 0, 0, 128, 255, 255,
    /* depth 4, reserved, dtb, smbios */
    4, 0, 0, 0, 0, 0, 0, 0, 0, 0, 0, 0, 0, 0, 0, 0, 0, 0, 0, 0, 0, 0, 0, 0,
    /* kernel, 336 bytes */
    2, 0, 0, 0, 80, 1, 0, 0,
    /* physical base 2097152, virtual base 18446744071564165120, size 65536, partition type 2 */
    0, 0, 32, 0, 0, 0, 0, 0, 0, 0, 32, 128, 255, 255, 255, 255, 0, 0, 1, 0, 0, 0, 0, 0, 2, 0, 0, 0, 0, 0, 0, 0,
    /* disk GUID, partition GUID */
    0, 0, 0, 0, 0, 0, 0, 0, 0, 0, 0, 0, 0, 0, 0, 0, 0, 0, 0, 0, 0, 0, 0, 0, 0, 0, 0, 0, 0, 0, 0, 0,
    /* disk index 0, partition index 1, path */
    0, 0, 0, 0, 1, 0, 0, 0, '/', 'b', 'o', 'o', 't', '/', 'k',
    /* the rest of the path's 256 bytes is zero */
    [432] =
    /* map, 32 bytes: one entry of 1048576, 1048576, 1 */
    3, 0, 0, 0, 32, 0, 0, 0, 0, 0, 16, 0, 0, 0, 0, 0, 0, 0, 16, 0, 0, 0, 0, 0, 1, 0, 0, 0, 0, 0, 0, 0,
    /* command line, 16 bytes */
    5, 0, 0, 0, 16, 0, 0, 0, 'q', 'u', 'i', 'e', 't', 0, 0, 0,
};

static void build_listing(void)
{
    static const uint8_t no_guid[16];
    static const struct ultra_memory_map_entry entry = {1048576, 1048576, 1};
    uint8_t *buf = new_buffer(sizeof listing, 0xA5);
    size_t len = sizeof listing;

    checks_name("the context of the listing");
    CHECK_ANSWER(ultra_read(listing, len), ULTRA_OK, 480);
    CHECK_ANSWER(ultra_begin(buf, len), ULTRA_OK, 8);
    CHECK_ANSWER(ultra_add_platform(buf, len, 2, 1, 4, bytes("frost"), 5, 917504, UINT64_C(18446603336221196288), 4, 0, 0),
                 ULTRA_OK, 96);
    CHECK_ANSWER(ultra_add_kernel(buf, len, 2097152, UINT64_C(18446744071564165120), 65536, 2, no_guid, 16, no_guid, 16, 0, 1,
                                  bytes("/boot/k"), 7),
                 ULTRA_OK, 432);
    CHECK_ANSWER(ultra_add_map(buf, len, bytes(&entry), sizeof entry), ULTRA_OK, 464);
    CHECK_ANSWER(ultra_add_command_line(buf, len, bytes("quiet"), 5), ULTRA_OK, 480);
    CHECK_BYTES(buf, listing, len);
    free(buf);
}

int main(void)
{
    alarm(TIME_LIMIT);
    see_what_was_built(0x00);
    see_what_was_built(0xA5);
    see_what_was_built(UNINITIALISED);
    see_through_offsets();
    read_foreign(0x00);
    read_foreign(0x5A);
    read_foreign(0xFF);
    read_foreign(UNINITIALISED);
    read_short_foreign();
    add_to_foreign();
    spoil_structure();
    spoil_forms();
    spoil_values();
    spoil_texts();
    spoil_ranges();
    build_listing();
    return checks_end("layout");
}
