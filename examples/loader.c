/*
 * Loader side: builds a boot context in a fixed buffer and writes it to a file.
 *
 *     loader FILE [ADDRESS]
 *
 * With an address, the context also has a module that was loaded there.
 * The part under "The loader" uses ultra.h and nothing else: no C library, no heap. It can be copied into a loader. The part under
 * "The host" stands for what a loader does around it.
 */
#include "ultra.h"

/* ---- The loader ---- */

/* A memory range in the form that a map is given in, on a little-endian machine. */
struct range {
    uint64_t address;
    uint64_t size;
    uint64_t type;
};

/* Texts are given without their closing zero: sizeof .. - 1. */
static const uint8_t loader_name[] = "frost";
static const uint8_t kernel_path[] = "/boot/k";
static const uint8_t command_line[] = "quiet";
static const uint8_t labels_name[] = "labels";

/* GUIDs are for GPT partitions; elsewhere they are zeros. */
static const uint8_t no_guid[ULTRA_GUID_SIZE];

/* Ascending, and none begins before the one before it ends: otherwise the map is refused with ULTRA_ORDER. */
static const struct range memory[] = {
    {0x100000, 0x100000, ULTRA_MEMORY_TYPE_FREE},
};

static uint64_t add_platform(uint8_t *buf, size_t len)
{
    const uint16_t loader_major = 1;
    const uint16_t loader_minor = 4;
    const uint64_t rsdp = 0xE0000;
    const uint64_t higher_half_base = 0xFFFF800000000000;
    const uint8_t page_table_depth = 4;
    const uint64_t no_dtb = 0;
    const uint64_t no_smbios = 0;

    return ultra_add_platform(buf, len, ULTRA_PLATFORM_UEFI, loader_major, loader_minor, loader_name, sizeof loader_name - 1,
                              rsdp, higher_half_base, page_table_depth, no_dtb, no_smbios);
}

static uint64_t add_kernel(uint8_t *buf, size_t len)
{
    const uint64_t physical_base = 0x200000;
    const uint64_t virtual_base = 0xFFFFFFFF80200000;
    const uint64_t size = 0x10000;
    const uint32_t disk_index = 0;
    const uint32_t partition_index = 1;

    return ultra_add_kernel(buf, len, physical_base, virtual_base, size, ULTRA_PARTITION_TYPE_MBR, no_guid, sizeof no_guid,
                            no_guid, sizeof no_guid, disk_index, partition_index, kernel_path, sizeof kernel_path - 1);
}

/* Builds the context. Answers its used length, or the first refusal: the kernel is not started without all four. */
static uint64_t build(uint8_t *buf, size_t len)
{
    uint64_t answer = ultra_begin(buf, len);

    if (ultra_number(answer) == ULTRA_OK)
        answer = add_platform(buf, len);
    if (ultra_number(answer) == ULTRA_OK)
        answer = add_kernel(buf, len);
    if (ultra_number(answer) == ULTRA_OK)
        answer = ultra_add_map(buf, len, (const uint8_t *)memory, sizeof memory);
    if (ultra_number(answer) == ULTRA_OK)
        answer = ultra_add_command_line(buf, len, command_line, sizeof command_line - 1);
    return answer;
}

/* Adds a module: the labels of the rooms, without which the kernel shows numbers. */
static uint64_t add_labels(uint8_t *buf, size_t len, uint64_t address)
{
    const uint64_t size = 0x1800;

    return ultra_add_module(buf, len, ULTRA_MODULE_TYPE_FILE, labels_name, sizeof labels_name - 1, address, size);
}

/* ---- The host ---- */

/* Included here and not above, so that the compiler refuses a use of these in the loader's part. */
#include <errno.h>
#include <inttypes.h>
#include <stdio.h>
#include <stdlib.h>

enum { REFUSED = 1, UNUSABLE = 2 };

static uint8_t context[4096];

/* Whether an answer is a refusal, which is then reported by its number and offset. */
static int refused(const char *what, uint64_t answer)
{
    if (ultra_number(answer) == ULTRA_OK)
        return 0;
    fprintf(stderr, "loader: %s refused=%" PRIu32 ",%" PRIu32 "\n", what, ultra_number(answer), ultra_value(answer));
    return 1;
}

static int parse_address(const char *text, uint64_t *address)
{
    char *end;

    errno = 0;
    *address = strtoull(text, &end, 0);
    return errno == 0 && end != text && *end == 0;
}

static int write_file(const char *name, const uint8_t *bytes, size_t len)
{
    FILE *file = fopen(name, "wb");
    int written;

    if (file == NULL)
        return 0;
    written = fwrite(bytes, 1, len, file) == len;
    return fclose(file) == 0 && written;
}

int main(int argc, char **argv)
{
    uint64_t address = 0;
    uint64_t built;

    if (argc < 2 || argc > 3 || (argc == 3 && !parse_address(argv[2], &address))) {
        fprintf(stderr, "usage: loader FILE [ADDRESS]\n");
        return UNUSABLE;
    }
    built = build(context, sizeof context);
    if (refused("context", built))
        return REFUSED;
    if (argc == 3) {
        uint64_t added = add_labels(context, sizeof context, address);

        /* A refused add has changed nothing: the context is as it was, and is handed over without the labels. */
        if (!refused("labels", added))
            built = added;
    }
    if (!write_file(argv[1], context, ultra_value(built))) {
        fprintf(stderr, "loader: %s cannot be written\n", argv[1]);
        return UNUSABLE;
    }
    return 0;
}
