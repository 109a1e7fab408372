/*
 * Kernel side: takes over a boot context, here from a file, and prints what a kernel needs of it.
 *
 *     kernel FILE
 *
 * The part under "The kernel" uses ultra.h and two functions that print, and nothing else: no C library, no heap, little stack. It
 * can be copied into a kernel. The part under "The host" stands for the kernel's console and entry.
 *
 * A kernel is handed the context's address alone. The length that it gives is the memory that may be read from there on, as loader
 * and kernel agreed (a page, say): the context need not fill it, and a context that claims more is refused.
 */
#include "ultra.h"

/* ---- The kernel ---- */

/* The console: a line of a key and numbers, and a line of a key and a text. */
static void print_numbers(const char *key, const uint64_t *numbers, size_t count);
static void print_text(const char *key, const uint8_t *text, size_t len);

/* A memory range in the form that a map is copied out in, on a little-endian machine. */
struct range {
    uint64_t address;
    uint64_t size;
    uint64_t type;
};

/* As many ranges as this kernel has a place for; a map of more is refused with ULTRA_ROOM. */
enum { RANGES_MAX = 128 };

static struct range ranges[RANGES_MAX];

/* The text that the board carries, for a context without a command line. */
static const uint8_t board_text[] = "console=serial";

/* An address that the kernel wonders about, such as that of a fault. The answer is that of its page: a module's last page is held whole. */
static const uint64_t fault_address = 0x301C00;

/* The length of a text that ends at the first zero. Reading accepts no text without one. */
static size_t text_length(const uint8_t *text)
{
    size_t len = 0;

    while (text[len] != 0)
        len++;
    return len;
}

/* Prints type, start and size of each attribute. Answers 0 at the end, or a refusal. */
static uint64_t print_attributes(const uint8_t *buf, size_t len)
{
    struct ultra_cursor at = ultra_first_cursor();
    uint64_t answer = ultra_step(buf, len, at.index, at.offset);

    while (answer != 0 && ultra_number(answer) == ULTRA_OK) {
        uint32_t type = ultra_u32(buf + at.offset + ULTRA_ATTRIBUTE_TYPE_OFFSET);
        uint32_t size = ultra_value(answer) - at.offset;

        print_numbers("attribute", (const uint64_t[]){type, at.offset, size}, 3);
        at = ultra_next_cursor(at, answer);
        answer = ultra_step(buf, len, at.index, at.offset);
    }
    return answer;
}

/* Copies the map out and prints its free ranges. Refused without a map too: this kernel cannot do without. */
static uint64_t print_free_ranges(const uint8_t *buf, size_t len)
{
    uint64_t answer = ultra_copy_map(buf, len, (uint8_t *)ranges, sizeof ranges);

    if (ultra_number(answer) != ULTRA_OK)
        return answer;
    for (uint32_t at = 0; at < ultra_value(answer); at++)
        if (ranges[at].type == ULTRA_MEMORY_TYPE_FREE)
            print_numbers("free", (const uint64_t[]){ranges[at].address, ranges[at].size}, 2);
    return answer;
}

/* Prints the start of the module that holds an address, 0 for none, and its name. */
static uint64_t print_holder(const uint8_t *buf, size_t len, uint64_t address)
{
    uint64_t answer = ultra_module_holding(buf, len, address);
    uint32_t start = ultra_value(answer);

    if (ultra_number(answer) != ULTRA_OK)
        return answer;
    print_numbers("holder", (const uint64_t[]){address, start}, 2);
    if (start != 0) {
        const uint8_t *name = buf + start + ULTRA_MODULE_NAME_OFFSET;

        print_text("modname", name, text_length(name));
    }
    return answer;
}

/* The one call without a refusal: 0 where there is no command line, and then the board's text counts. An empty line is not 0. */
static void print_command_line(const uint8_t *buf, size_t len)
{
    uint64_t line = ultra_command_line(buf, len);

    if (line == 0)
        print_text("cmdline", board_text, sizeof board_text - 1);
    else
        print_text("cmdline", buf + ultra_text_start(line), ultra_text_length(line));
}

/* Takes the context over. Answers whether the kernel can go on with it; a refusal is printed by its number and offset. */
static int take_over(const uint8_t *buf, size_t len)
{
    uint64_t answer = ultra_read(buf, len);

    if (ultra_number(answer) == ULTRA_OK) {
        print_numbers("used", (const uint64_t[]){ultra_value(answer)}, 1);
        answer = print_attributes(buf, len);
    }
    if (ultra_number(answer) == ULTRA_OK)
        answer = print_free_ranges(buf, len);
    if (ultra_number(answer) == ULTRA_OK)
        answer = print_holder(buf, len, fault_address);
    if (ultra_number(answer) != ULTRA_OK) {
        print_numbers("refused", (const uint64_t[]){ultra_number(answer), ultra_value(answer)}, 2);
        return 0;
    }
    print_command_line(buf, len);
    return 1;
}

/* ---- The host ---- */

/* Included here and not above, so that the compiler refuses a use of these in the kernel's part. */
#include <inttypes.h>
#include <stdio.h>

enum { REFUSED = 1, UNUSABLE = 2 };

/* Of a longer file the bytes after these would not count. */
static uint8_t context[ULTRA_ROOM_MAX];

static void print_numbers(const char *key, const uint64_t *numbers, size_t count)
{
    printf("%s", key);
    for (size_t at = 0; at < count; at++)
        printf("%c%" PRIu64, at == 0 ? '=' : ',', numbers[at]);
    printf("\n");
}

/* A text may have control characters, which could do anything to a terminal. */
static void print_text(const char *key, const uint8_t *text, size_t len)
{
    printf("%s=", key);
    for (size_t at = 0; at < len; at++)
        putchar(text[at] < 32 || text[at] > 126 ? '?' : text[at]);
    printf("\n");
}

/* Reads at most len bytes of a file. Answers how many, or -1 where it cannot be read. */
static long read_file(const char *name, uint8_t *bytes, size_t len)
{
    FILE *file = fopen(name, "rb");
    size_t got;
    int failed;

    if (file == NULL)
        return -1;
    got = fread(bytes, 1, len, file);
    failed = ferror(file);
    fclose(file);
    return failed ? -1 : (long)got;
}

int main(int argc, char **argv)
{
    long len;

    if (argc != 2) {
        fprintf(stderr, "usage: kernel FILE\n");
        return UNUSABLE;
    }
    len = read_file(argv[1], context, sizeof context);
    if (len < 0) {
        fprintf(stderr, "kernel: %s cannot be read\n", argv[1]);
        return UNUSABLE;
    }
    return take_over(context, (size_t)len) ? 0 : REFUSED;
}
