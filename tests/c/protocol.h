/*
 * The structures, constants and macros of the Ultra protocol, written out from its published text (source document 000), with the
 * names and members that it gives. Document 01's table of offsets and sizes is asserted of them below.
 * The tests see the library's bytes through this header, and through nothing that the library's own header defines.
 */
#ifndef TESTS_PROTOCOL_H
#define TESTS_PROTOCOL_H

#include <stddef.h>
#include <stdint.h>

#define ULTRA_MAGIC 0x554c5442

struct ultra_attribute_header {
    uint32_t type;
    uint32_t size;
};

#define ULTRA_ATTRIBUTE_INVALID          0
#define ULTRA_ATTRIBUTE_PLATFORM_INFO    1
#define ULTRA_ATTRIBUTE_KERNEL_INFO      2
#define ULTRA_ATTRIBUTE_MEMORY_MAP       3
#define ULTRA_ATTRIBUTE_MODULE_INFO      4
#define ULTRA_ATTRIBUTE_COMMAND_LINE     5
#define ULTRA_ATTRIBUTE_FRAMEBUFFER_INFO 6

struct ultra_boot_context {
    uint8_t protocol_major;
    uint8_t protocol_minor;
    uint16_t reserved;

    uint32_t attribute_count;
    struct ultra_attribute_header attributes[];
};

#define ULTRA_NEXT_ATTRIBUTE(current) ((struct ultra_attribute_header*)(((uint8_t*)(current)) + (current)->size))

struct platform_info_attribute {
    struct ultra_attribute_header header;
    uint32_t platform_type;

    uint16_t loader_major;
    uint16_t loader_minor;
    char loader_name[32];

    uint64_t acpi_rsdp_address;
    uint64_t higher_half_base;
    uint8_t page_table_depth;
    uint8_t reserved[7];
    uint64_t dtb_address;
    uint64_t smbios_address;
};

#define ULTRA_PLATFORM_INVALID 0
#define ULTRA_PLATFORM_BIOS    1
#define ULTRA_PLATFORM_UEFI    2

struct ultra_guid {
    uint32_t data1;
    uint16_t data2;
    uint16_t data3;
    uint8_t  data4[8];
};

#define ULTRA_PATH_MAX 256

struct ultra_kernel_info_attribute {
    struct ultra_attribute_header header;

    uint64_t physical_base;
    uint64_t virtual_base;
    uint64_t size;

    uint64_t partition_type;

    // only valid if partition_type == PARTITION_TYPE_GPT
    struct ultra_guid disk_guid;
    struct ultra_guid partition_guid;

    // always valid
    uint32_t disk_index;
    uint32_t partition_index;

    char fs_path[ULTRA_PATH_MAX];
};

#define ULTRA_PARTITION_TYPE_INVALID 0
#define ULTRA_PARTITION_TYPE_RAW     1
#define ULTRA_PARTITION_TYPE_MBR     2
#define ULTRA_PARTITION_TYPE_GPT     3

struct ultra_memory_map_entry {
    uint64_t physical_address;
    uint64_t size;
    uint64_t type;
};

struct ultra_memory_map_attribute {
    struct ultra_attribute_header header;
    struct ultra_memory_map_entry entries[];
};

#define ULTRA_MEMORY_TYPE_INVALID            0x00000000
#define ULTRA_MEMORY_TYPE_FREE               0x00000001
#define ULTRA_MEMORY_TYPE_RESERVED           0x00000002
#define ULTRA_MEMORY_TYPE_RECLAIMABLE        0x00000003
#define ULTRA_MEMORY_TYPE_NVS                0x00000004
#define ULTRA_MEMORY_TYPE_LOADER_RECLAIMABLE 0xFFFF0001
#define ULTRA_MEMORY_TYPE_MODULE             0xFFFF0002
#define ULTRA_MEMORY_TYPE_KERNEL_STACK       0xFFFF0003
#define ULTRA_MEMORY_TYPE_KERNEL_BINARY      0xFFFF0004

#define ULTRA_MEMORY_MAP_ENTRY_COUNT(header) ((((header).size) - sizeof(struct ultra_attribute_header)) / sizeof(struct ultra_memory_map_entry))

struct ultra_module_info_attribute {
    struct ultra_attribute_header header;
    uint32_t reserved;
    uint32_t type;
    char name[64];
    uint64_t address;
    uint64_t size;
};

#define ULTRA_MODULE_TYPE_INVALID 0
#define ULTRA_MODULE_TYPE_FILE    1
#define ULTRA_MODULE_TYPE_MEMORY  2

struct ultra_command_line_attribute {
    struct ultra_attribute_header header;
    char text[];
};

struct ultra_framebuffer {
    uint32_t width;
    uint32_t height;
    uint32_t pitch;
    uint16_t bpp;
    uint16_t format;
    uint64_t physical_address;
};

struct ultra_framebuffer_attribute {
    struct ultra_attribute_header header;
    struct ultra_framebuffer fb;
};

#define ULTRA_FB_FORMAT_INVALID  0
#define ULTRA_FB_FORMAT_RGB888   1
#define ULTRA_FB_FORMAT_BGR888   2
#define ULTRA_FB_FORMAT_RGBX8888 3
#define ULTRA_FB_FORMAT_XRGB8888 4

/* Document 01's table, row by row: a member's first byte, or first and last. */
#define AT(structure, member, offset) \
    _Static_assert(offsetof(struct structure, member) == (offset), #structure " " #member)
#define BYTES(structure, member, first, last) \
    AT(structure, member, first); \
    _Static_assert(sizeof(((struct structure *)0)->member) == (last) - (first) + 1, #structure " " #member)
#define SIZE(structure, size) _Static_assert(sizeof(struct structure) == (size), #structure)

AT(ultra_boot_context, protocol_major, 0);
AT(ultra_boot_context, protocol_minor, 1);
AT(ultra_boot_context, reserved, 2);
AT(ultra_boot_context, attribute_count, 4);
AT(ultra_boot_context, attributes, 8);
SIZE(ultra_boot_context, 8);
AT(ultra_attribute_header, type, 0);
AT(ultra_attribute_header, size, 4);
SIZE(ultra_attribute_header, 8);

BYTES(platform_info_attribute, platform_type, 8, 11);
BYTES(platform_info_attribute, loader_major, 12, 13);
BYTES(platform_info_attribute, loader_minor, 14, 15);
BYTES(platform_info_attribute, loader_name, 16, 47);
BYTES(platform_info_attribute, acpi_rsdp_address, 48, 55);
BYTES(platform_info_attribute, higher_half_base, 56, 63);
BYTES(platform_info_attribute, page_table_depth, 64, 64);
BYTES(platform_info_attribute, reserved, 65, 71);
BYTES(platform_info_attribute, dtb_address, 72, 79);
BYTES(platform_info_attribute, smbios_address, 80, 87);
SIZE(platform_info_attribute, 88);

BYTES(ultra_kernel_info_attribute, physical_base, 8, 15);
BYTES(ultra_kernel_info_attribute, virtual_base, 16, 23);
BYTES(ultra_kernel_info_attribute, size, 24, 31);
BYTES(ultra_kernel_info_attribute, partition_type, 32, 39);
BYTES(ultra_kernel_info_attribute, disk_guid, 40, 55);
BYTES(ultra_kernel_info_attribute, partition_guid, 56, 71);
BYTES(ultra_kernel_info_attribute, disk_index, 72, 75);
BYTES(ultra_kernel_info_attribute, partition_index, 76, 79);
BYTES(ultra_kernel_info_attribute, fs_path, 80, 335);
SIZE(ultra_kernel_info_attribute, 336);

AT(ultra_memory_map_attribute, entries, 8);
BYTES(ultra_memory_map_entry, physical_address, 0, 7);
BYTES(ultra_memory_map_entry, size, 8, 15);
BYTES(ultra_memory_map_entry, type, 16, 23);
SIZE(ultra_memory_map_entry, 24);

BYTES(ultra_module_info_attribute, reserved, 8, 11);
BYTES(ultra_module_info_attribute, type, 12, 15);
BYTES(ultra_module_info_attribute, name, 16, 79);
BYTES(ultra_module_info_attribute, address, 80, 87);
BYTES(ultra_module_info_attribute, size, 88, 95);
SIZE(ultra_module_info_attribute, 96);

AT(ultra_command_line_attribute, text, 8);

BYTES(ultra_framebuffer_attribute, fb.width, 8, 11);
BYTES(ultra_framebuffer_attribute, fb.height, 12, 15);
BYTES(ultra_framebuffer_attribute, fb.pitch, 16, 19);
BYTES(ultra_framebuffer_attribute, fb.bpp, 20, 21);
BYTES(ultra_framebuffer_attribute, fb.format, 22, 23);
BYTES(ultra_framebuffer_attribute, fb.physical_address, 24, 31);
SIZE(ultra_framebuffer_attribute, 32);

#undef AT
#undef BYTES
#undef SIZE

/* The library's numbers are little-endian; the structures read them with the host's order. */
_Static_assert(__BYTE_ORDER__ == __ORDER_LITTLE_ENDIAN__, "the tests read a context through structures of the host");

#endif
