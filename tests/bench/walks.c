/*
 * The unchecked side: what a kernel or a loader does by the protocol's structures and macros alone, trusting every byte.
 * Answers are those of the library's calls where there are such, so that the benchmark can compare them. Compiled with -O2.
 */
#include <stddef.h>
#include <stdint.h>
#include <string.h>

#include "protocol.h"

/* An attribute as the structure of its type. */
#define AS(structure, header) ((const struct structure *)(header))

static const struct ultra_boot_context *context_in(const uint8_t *buf)
{
    return (const struct ultra_boot_context *)buf;
}

/* (a) The bare walk: every attribute's header and nothing else. */
uint64_t walk_read(const uint8_t *buf)
{
    const struct ultra_boot_context *context = context_in(buf);
    const struct ultra_attribute_header *at = context->attributes;
    uint64_t sum = 0;

    for (uint32_t i = 0; i < context->attribute_count; i++) {
        sum += at->type;
        at = ULTRA_NEXT_ATTRIBUTE(at);
    }
    return sum;
}

/* (b) The walk of a kernel that uses the context: every member, every map entry, the length of every text. */
uint64_t walk_use(const uint8_t *buf)
{
    const struct ultra_boot_context *context = context_in(buf);
    const struct ultra_attribute_header *at = context->attributes;
    uint64_t sum = 0;

    for (uint32_t i = 0; i < context->attribute_count; i++) {
        sum += at->type;
        switch (at->type) {
        case ULTRA_ATTRIBUTE_PLATFORM_INFO: {
            const struct platform_info_attribute *platform = AS(platform_info_attribute, at);

            sum += platform->platform_type + platform->loader_major + platform->loader_minor + strlen(platform->loader_name) +
                   platform->acpi_rsdp_address + platform->higher_half_base + platform->page_table_depth +
                   platform->dtb_address + platform->smbios_address;
            break;
        }
        case ULTRA_ATTRIBUTE_KERNEL_INFO: {
            const struct ultra_kernel_info_attribute *kernel = AS(ultra_kernel_info_attribute, at);

            sum += kernel->physical_base + kernel->virtual_base + kernel->size + kernel->partition_type +
                   kernel->disk_guid.data1 + kernel->partition_guid.data1 + kernel->disk_index + kernel->partition_index +
                   strlen(kernel->fs_path);
            break;
        }
        case ULTRA_ATTRIBUTE_MEMORY_MAP: {
            const struct ultra_memory_map_attribute *map = AS(ultra_memory_map_attribute, at);

            for (size_t n = 0; n < ULTRA_MEMORY_MAP_ENTRY_COUNT(*at); n++) {
                sum += map->entries[n].physical_address + map->entries[n].size + map->entries[n].type;
            }
            break;
        }
        case ULTRA_ATTRIBUTE_MODULE_INFO: {
            const struct ultra_module_info_attribute *module = AS(ultra_module_info_attribute, at);

            sum += module->type + strlen(module->name) + module->address + module->size;
            break;
        }
        case ULTRA_ATTRIBUTE_COMMAND_LINE:
            sum += strlen(AS(ultra_command_line_attribute, at)->text);
            break;
        case ULTRA_ATTRIBUTE_FRAMEBUFFER_INFO: {
            const struct ultra_framebuffer *fb = &AS(ultra_framebuffer_attribute, at)->fb;

            sum += (uint64_t)fb->width + fb->height + fb->pitch + fb->bpp + fb->format + fb->physical_address;
            break;
        }
        default: /* "It is safe to ignore any unknown attribute types." */
            break;
        }
        at = ULTRA_NEXT_ATTRIBUTE(at);
    }
    return sum;
}

/* The attribute at an index below the count. */
uint64_t walk_attribute(const uint8_t *buf, uint64_t index)
{
    const struct ultra_attribute_header *at = context_in(buf)->attributes;

    for (uint64_t i = 0; i < index; i++) {
        at = ULTRA_NEXT_ATTRIBUTE(at);
    }
    return (uint64_t)((const uint8_t *)at - buf);
}

/* The first map, copied to an output that is large enough. */
uint64_t walk_copy_map(const uint8_t *buf, uint8_t *out)
{
    const struct ultra_attribute_header *at = context_in(buf)->attributes;
    size_t count;

    while (at->type != ULTRA_ATTRIBUTE_MEMORY_MAP) {
        at = ULTRA_NEXT_ATTRIBUTE(at);
    }
    count = ULTRA_MEMORY_MAP_ENTRY_COUNT(*at);
    memcpy(out, AS(ultra_memory_map_attribute, at)->entries, count * sizeof(struct ultra_memory_map_entry));
    return count;
}

/* ---- Building: as adding, each finds the end by the macro; then it writes a structure, its unused bytes zero. ---- */

uint64_t walk_begin(uint8_t *buf)
{
    struct ultra_boot_context *context = (struct ultra_boot_context *)buf;

    context->protocol_major = 1;
    context->protocol_minor = 0;
    context->reserved = 0;
    context->attribute_count = 0;
    return sizeof(*context);
}

/* Takes the place after the last attribute. */
static void *append(uint8_t *buf, uint32_t type, uint32_t size)
{
    struct ultra_boot_context *context = (struct ultra_boot_context *)buf;
    struct ultra_attribute_header *at = context->attributes;

    for (uint32_t i = 0; i < context->attribute_count; i++) {
        at = ULTRA_NEXT_ATTRIBUTE(at);
    }
    at->type = type;
    at->size = size;
    context->attribute_count++;
    return at;
}

static uint64_t used_after(const uint8_t *buf, const struct ultra_attribute_header *last)
{
    return (uint64_t)((const uint8_t *)ULTRA_NEXT_ATTRIBUTE(last) - buf);
}

static void put_text(char *field, size_t width, const uint8_t *text, size_t text_len)
{
    memcpy(field, text, text_len);
    memset(field + text_len, 0, width - text_len);
}

uint64_t walk_add_platform(uint8_t *buf, uint32_t type, uint16_t loader_major, uint16_t loader_minor, const uint8_t *name,
                           size_t name_len, uint64_t rsdp, uint64_t higher_half_base, uint8_t depth, uint64_t dtb, uint64_t smbios)
{
    struct platform_info_attribute *at = append(buf, ULTRA_ATTRIBUTE_PLATFORM_INFO, sizeof(*at));

    at->platform_type = type;
    at->loader_major = loader_major;
    at->loader_minor = loader_minor;
    put_text(at->loader_name, sizeof(at->loader_name), name, name_len);
    at->acpi_rsdp_address = rsdp;
    at->higher_half_base = higher_half_base;
    at->page_table_depth = depth;
    memset(at->reserved, 0, sizeof(at->reserved));
    at->dtb_address = dtb;
    at->smbios_address = smbios;
    return used_after(buf, &at->header);
}

uint64_t walk_add_kernel(uint8_t *buf, uint64_t physical_base, uint64_t virtual_base, uint64_t size, uint64_t partition_type,
                         const uint8_t *disk_guid, const uint8_t *partition_guid, uint32_t disk_index, uint32_t partition_index,
                         const uint8_t *path, size_t path_len)
{
    struct ultra_kernel_info_attribute *at = append(buf, ULTRA_ATTRIBUTE_KERNEL_INFO, sizeof(*at));

    at->physical_base = physical_base;
    at->virtual_base = virtual_base;
    at->size = size;
    at->partition_type = partition_type;
    memcpy(&at->disk_guid, disk_guid, sizeof(at->disk_guid));
    memcpy(&at->partition_guid, partition_guid, sizeof(at->partition_guid));
    at->disk_index = disk_index;
    at->partition_index = partition_index;
    put_text(at->fs_path, sizeof(at->fs_path), path, path_len);
    return used_after(buf, &at->header);
}

uint64_t walk_add_map(uint8_t *buf, const uint8_t *entries, size_t entries_len)
{
    struct ultra_memory_map_attribute *at =
        append(buf, ULTRA_ATTRIBUTE_MEMORY_MAP, (uint32_t)(sizeof(at->header) + entries_len));

    memcpy(at->entries, entries, entries_len);
    return used_after(buf, &at->header);
}

uint64_t walk_add_module(uint8_t *buf, uint32_t type, const uint8_t *name, size_t name_len, uint64_t address, uint64_t size)
{
    struct ultra_module_info_attribute *at = append(buf, ULTRA_ATTRIBUTE_MODULE_INFO, sizeof(*at));

    at->reserved = 0;
    at->type = type;
    put_text(at->name, sizeof(at->name), name, name_len);
    at->address = address;
    at->size = size;
    return used_after(buf, &at->header);
}

uint64_t walk_add_command_line(uint8_t *buf, const uint8_t *text, size_t text_len)
{
    size_t width = (text_len + 8) / 8 * 8; /* with its zero, rounded up */
    struct ultra_command_line_attribute *at =
        append(buf, ULTRA_ATTRIBUTE_COMMAND_LINE, (uint32_t)(sizeof(at->header) + width));

    put_text(at->text, width, text, text_len);
    return used_after(buf, &at->header);
}

uint64_t walk_add_framebuffer(uint8_t *buf, uint32_t width, uint32_t height, uint32_t pitch, uint16_t bpp, uint16_t format,
                              uint64_t address)
{
    struct ultra_framebuffer_attribute *at = append(buf, ULTRA_ATTRIBUTE_FRAMEBUFFER_INFO, sizeof(*at));

    at->fb.width = width;
    at->fb.height = height;
    at->fb.pitch = pitch;
    at->fb.bpp = bpp;
    at->fb.format = format;
    at->fb.physical_address = address;
    return used_after(buf, &at->header);
}
