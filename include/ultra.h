/*
 * libultra: the boot context of the Ultra protocol, built and read.
 *
 * A context is a head of 8 bytes (major u8, minor u8, reserved u16, attribute count u32) and a run of attributes, each of which
 * begins with its type and its size (u32 each; the size counts the whole attribute). Numbers are little-endian. Members are at
 * the offsets of the protocol's structures: a context in memory that is aligned to 8 bytes can be read through those. At any
 * address ultra_u16, ultra_u32 and ultra_u64 read a number from its bytes, and the constants ULTRA_.._OFFSET say where it is.
 *
 * No call keeps state, allocates, or relies on a check made before it: whatever the buffer holds, a call answers by the rules
 * below, and it returns.
 *
 *
 * Answers
 *
 * Every call but ultra_command_line answers number * 2^32 + value; ultra_number and ultra_value take it apart. Number 0 is
 * success, and the value is then what the call's comment says. Any other number is a refusal: the value is an offset from the
 * buffer's start, and nothing that was lent has changed.
 *
 * "Used length" is 8 plus the sizes of the attributes. "Room" is the smaller of the buffer's length and ULTRA_ROOM_MAX: of a
 * longer buffer the bytes from ULTRA_ROOM_MAX on are neither read nor written.
 *
 *
 * Reading
 *
 * What the comments call the refusals of reading are these, in this order:
 *
 *   ULTRA_SHORT, ULTRA_VERSION, ULTRA_COUNT, ULTRA_MISSING    with offset 0;
 *   then, attribute by attribute, ULTRA_HEADER, ULTRA_SIZE, ULTRA_OVERRUN, ULTRA_TYPE, ULTRA_PLACE, ULTRA_REPEAT,
 *   ULTRA_SPLIT, ULTRA_FORM, ULTRA_VALUE, ULTRA_TEXT, ULTRA_RANGE, ULTRA_ORDER    with the start of that attribute.
 *
 * An earlier attribute's refusal goes before a later one's, whatever their numbers. Within a map all entries are tried for
 * ULTRA_VALUE, then all for ULTRA_RANGE, then all for ULTRA_ORDER.
 *
 * Bytes that decide nothing, and may hold anything in a context that is read: the head's reserved u16; platform bytes 65..71 and
 * from 88 on; kernel bytes from 336; module bytes 8..11 and from 96; framebuffer bytes from 32; what follows the first zero of a
 * text; the bodies of types from 7 up; everything past the used length.
 *
 *
 * What the caller owes
 *
 * - A pointer and a length stand for that many bytes of memory, valid for the whole call: readable, and writable where the
 *   pointer is not to const. A null pointer is allowed with length 0, and only then. A length is at most PTRDIFF_MAX.
 * - The protocol hands a kernel an address and no length: its buf_len is the memory that is readable from there on, as loader and
 *   kernel agreed (a page, say), and not ULTRA_ROOM_MAX, unless that much is mapped. The context need not fill it; one that claims
 *   more is refused.
 * - Memory that a call writes (buf without const, out) overlaps no other memory given in the same call.
 * - Nobody else writes the memory given while the call runs.
 * - Nothing else: no alignment is asked, and a buffer may hold any bytes.
 *
 * The archive is code for x86-64 with the calls of its System V ABI. As that ABI allows, it uses SSE registers and, below the
 * stack pointer, up to 128 bytes (the red zone): interrupts that are handled on the caller's stack have to leave those alone. A
 * call takes at most 4,096 bytes of stack, these and its arguments counted. Of its host the archive needs at most memcpy, memmove,
 * memset and memcmp.
 */
#ifndef ULTRA_H
#define ULTRA_H

#include <stddef.h>
#include <stdint.h>

#ifdef __cplusplus
extern "C" {
#endif

/* Numbers of an answer. */
#define ULTRA_OK       0 /* success */
#define ULTRA_SHORT    1 /* the room is below 8 */
#define ULTRA_VERSION  2 /* the major version is 0 */
#define ULTRA_COUNT    3 /* the count is above ULTRA_COUNT_MAX; an index asked for is at or past the count */
#define ULTRA_MISSING  4 /* the count is below 2; not given by beginning or adding */
#define ULTRA_HEADER   5 /* fewer than 8 bytes of room at the attribute's start */
#define ULTRA_SIZE     6 /* the size is below 8 or no multiple of 8 */
#define ULTRA_OVERRUN  7 /* the attribute ends past the room */
#define ULTRA_TYPE     8 /* the type is 0 */
#define ULTRA_PLACE    9 /* the first is no platform, the second no kernel, or a later one is one of these */
#define ULTRA_REPEAT  10 /* a second map, command line or framebuffer */
#define ULTRA_SPLIT   11 /* a module or a type from 7 up that occurred earlier, with another type just before it */
#define ULTRA_FORM    12 /* a size that the type cannot have; in adding, a length that a map or a GUID cannot have */
#define ULTRA_VALUE   13 /* a number that its member cannot have */
#define ULTRA_TEXT    14 /* a text that is not closed in its field, has a byte that it cannot have, or is a path that does not begin with '/' */
#define ULTRA_RANGE   15 /* an address and its size together pass 2^64; a sum of just 2^64 is allowed */
#define ULTRA_ORDER   16 /* a map entry's address is below the end (address + size) of the entry before it */
#define ULTRA_FULL    17 /* adding to ULTRA_COUNT_MAX attributes */
#define ULTRA_ROOM    18 /* the new attribute would end past the room, or an output is too short */
#define ULTRA_ABSENT  19 /* the context has no map */

/* Limits of a context. */
#define ULTRA_ROOM_MAX  65536 /* bytes of a buffer that count, from its start */
#define ULTRA_COUNT_MAX 1024  /* attributes of a context */

/* The size of the head: the first attribute starts there. */
#define ULTRA_HEAD_SIZE 8

/* The first cursor of stepping. */
#define ULTRA_FIRST_INDEX  0
#define ULTRA_FIRST_OFFSET ULTRA_HEAD_SIZE

/* Widths of fixed texts, each with the zero that closes it: a text given is at least one byte shorter. */
#define ULTRA_LOADER_NAME_MAX 32
#define ULTRA_MODULE_NAME_MAX 64
#define ULTRA_PATH_MAX        256

/* Bytes of a GUID, and of a map entry: address, size and type, 8 bytes each. */
#define ULTRA_GUID_SIZE      16
#define ULTRA_MAP_ENTRY_SIZE 24

/* Sizes of attributes as adding writes them. In reading, a platform has 56 bytes or more, and the others at least these. A map of
 * n entries has 8 + 24 * n bytes, a command line of k bytes is written in 8 + (k + 1 rounded up to a multiple of 8) and read
 * from 16 bytes on. */
#define ULTRA_PLATFORM_SIZE    88
#define ULTRA_KERNEL_SIZE      336
#define ULTRA_MODULE_SIZE      96
#define ULTRA_FRAMEBUFFER_SIZE 32

/* Offsets of members from the start of their attribute, named as the adds name them, and their widths: a module's address, say, is
 * ultra_u64(buf + start + ULTRA_MODULE_ADDRESS_OFFSET). A text ends before its first zero. "0: none" is where the protocol has
 * "0 if not applicable or not present". */

/* Every attribute. */
#define ULTRA_ATTRIBUTE_TYPE_OFFSET 0 /* u32 */
#define ULTRA_ATTRIBUTE_SIZE_OFFSET 4 /* u32, of the whole attribute */

/* Platform. */
#define ULTRA_PLATFORM_TYPE_OFFSET             8  /* u32 */
#define ULTRA_PLATFORM_LOADER_MAJOR_OFFSET     12 /* u16 */
#define ULTRA_PLATFORM_LOADER_MINOR_OFFSET     14 /* u16 */
#define ULTRA_PLATFORM_NAME_OFFSET             16 /* text, in ULTRA_LOADER_NAME_MAX bytes */
#define ULTRA_PLATFORM_RSDP_OFFSET             48 /* u64, 0: none */
#define ULTRA_PLATFORM_HIGHER_HALF_BASE_OFFSET 56 /* u64, there from size 64 on */
#define ULTRA_PLATFORM_DEPTH_OFFSET            64 /* u8, there from size 72 on */
#define ULTRA_PLATFORM_DTB_OFFSET              72 /* u64, there from size 80 on, 0: none */
#define ULTRA_PLATFORM_SMBIOS_OFFSET           80 /* u64, there from size 88 on, 0: none */

/* Kernel. */
#define ULTRA_KERNEL_PHYSICAL_BASE_OFFSET   8  /* u64 */
#define ULTRA_KERNEL_VIRTUAL_BASE_OFFSET    16 /* u64 */
#define ULTRA_KERNEL_SIZE_OFFSET            24 /* u64, of the kernel, not of the attribute */
#define ULTRA_KERNEL_PARTITION_TYPE_OFFSET  32 /* u64 */
#define ULTRA_KERNEL_DISK_GUID_OFFSET       40 /* ULTRA_GUID_SIZE bytes */
#define ULTRA_KERNEL_PARTITION_GUID_OFFSET  56 /* ULTRA_GUID_SIZE bytes */
#define ULTRA_KERNEL_DISK_INDEX_OFFSET      72 /* u32 */
#define ULTRA_KERNEL_PARTITION_INDEX_OFFSET 76 /* u32 */
#define ULTRA_KERNEL_PATH_OFFSET            80 /* text, in ULTRA_PATH_MAX bytes */

/* Map: its entries, one after the other; and the members of an entry, from the entry's start. */
#define ULTRA_MAP_ENTRIES_OFFSET       8  /* ULTRA_MAP_ENTRY_SIZE bytes each */
#define ULTRA_MAP_ENTRY_ADDRESS_OFFSET 0  /* u64 */
#define ULTRA_MAP_ENTRY_SIZE_OFFSET    8  /* u64 */
#define ULTRA_MAP_ENTRY_TYPE_OFFSET    16 /* u64 */

/* Module. */
#define ULTRA_MODULE_TYPE_OFFSET    12 /* u32 */
#define ULTRA_MODULE_NAME_OFFSET    16 /* text, in ULTRA_MODULE_NAME_MAX bytes */
#define ULTRA_MODULE_ADDRESS_OFFSET 80 /* u64 */
#define ULTRA_MODULE_SIZE_OFFSET    88 /* u64, of the module, not of the attribute */

/* Command line. */
#define ULTRA_COMMAND_LINE_TEXT_OFFSET 8 /* text, in what is left of the attribute */

/* Framebuffer. */
#define ULTRA_FRAMEBUFFER_WIDTH_OFFSET   8  /* u32 */
#define ULTRA_FRAMEBUFFER_HEIGHT_OFFSET  12 /* u32 */
#define ULTRA_FRAMEBUFFER_PITCH_OFFSET   16 /* u32 */
#define ULTRA_FRAMEBUFFER_BPP_OFFSET     20 /* u16 */
#define ULTRA_FRAMEBUFFER_FORMAT_OFFSET  22 /* u16 */
#define ULTRA_FRAMEBUFFER_ADDRESS_OFFSET 24 /* u64 */

/* Constants of the protocol, spelled as in its published text, so that a header made from that can be included too. */

#define ULTRA_ATTRIBUTE_INVALID          0
#define ULTRA_ATTRIBUTE_PLATFORM_INFO    1
#define ULTRA_ATTRIBUTE_KERNEL_INFO      2
#define ULTRA_ATTRIBUTE_MEMORY_MAP       3
#define ULTRA_ATTRIBUTE_MODULE_INFO      4
#define ULTRA_ATTRIBUTE_COMMAND_LINE     5
#define ULTRA_ATTRIBUTE_FRAMEBUFFER_INFO 6

#define ULTRA_PLATFORM_INVALID 0
#define ULTRA_PLATFORM_BIOS    1
#define ULTRA_PLATFORM_UEFI    2

#define ULTRA_PARTITION_TYPE_INVALID 0
#define ULTRA_PARTITION_TYPE_RAW     1
#define ULTRA_PARTITION_TYPE_MBR     2
#define ULTRA_PARTITION_TYPE_GPT     3

#define ULTRA_MEMORY_TYPE_INVALID            0x00000000
#define ULTRA_MEMORY_TYPE_FREE               0x00000001
#define ULTRA_MEMORY_TYPE_RESERVED           0x00000002
#define ULTRA_MEMORY_TYPE_RECLAIMABLE        0x00000003
#define ULTRA_MEMORY_TYPE_NVS                0x00000004
#define ULTRA_MEMORY_TYPE_LOADER_RECLAIMABLE 0xFFFF0001
#define ULTRA_MEMORY_TYPE_MODULE             0xFFFF0002
#define ULTRA_MEMORY_TYPE_KERNEL_STACK       0xFFFF0003
#define ULTRA_MEMORY_TYPE_KERNEL_BINARY      0xFFFF0004

#define ULTRA_MODULE_TYPE_INVALID 0
#define ULTRA_MODULE_TYPE_FILE    1
#define ULTRA_MODULE_TYPE_MEMORY  2

#define ULTRA_FB_FORMAT_INVALID  0
#define ULTRA_FB_FORMAT_RGB888   1
#define ULTRA_FB_FORMAT_BGR888   2
#define ULTRA_FB_FORMAT_RGBX8888 3
#define ULTRA_FB_FORMAT_XRGB8888 4

/* The number of an answer: ULTRA_OK, or the refusal's. */
static inline uint32_t ultra_number(uint64_t answer)
{
    return (uint32_t)(answer >> 32);
}

/* The value of an answer: what the call answers, or the refusal's offset. */
static inline uint32_t ultra_value(uint64_t answer)
{
    return (uint32_t)(answer & 0xFFFFFFFFu);
}

/* Where the text begins that ultra_command_line answers, from the buffer's start; 0 where there is no command line. */
static inline uint32_t ultra_text_start(uint64_t line)
{
    return (uint32_t)(line >> 32);
}

/* How many bytes that text has, without the zero that closes it. */
static inline uint32_t ultra_text_length(uint64_t line)
{
    return (uint32_t)(line & 0xFFFFFFFFu);
}

/* The number that these 2, 4 or 8 bytes are, the least byte first; no alignment is asked. */
static inline uint16_t ultra_u16(const uint8_t *bytes)
{
    return (uint16_t)(bytes[0] | bytes[1] << 8);
}

static inline uint32_t ultra_u32(const uint8_t *bytes)
{
    return ultra_u16(bytes) | (uint32_t)ultra_u16(bytes + 2) << 16;
}

static inline uint64_t ultra_u64(const uint8_t *bytes)
{
    return ultra_u32(bytes) | (uint64_t)ultra_u32(bytes + 4) << 32;
}

/* A cursor: which attribute is next in stepping, and where it starts. */
struct ultra_cursor {
    uint32_t index;
    uint32_t offset;
};

/* The cursor to start stepping with. */
static inline struct ultra_cursor ultra_first_cursor(void)
{
    struct ultra_cursor first;

    first.index = ULTRA_FIRST_INDEX;
    first.offset = ULTRA_FIRST_OFFSET;
    return first;
}

/* The cursor after the attribute that ultra_step answered at this one: for an answer that is neither the end nor a refusal. */
static inline struct ultra_cursor ultra_next_cursor(struct ultra_cursor cursor, uint64_t answer)
{
    struct ultra_cursor next;

    next.index = cursor.index + 1;
    next.offset = ultra_value(answer);
    return next;
}

/*
 * Reads a context by all rules of the format.
 * Success: the used length.
 * Refusals: those of reading. The rules on members, by type:
 *   platform      FORM: size below 56. VALUE: type 0. TEXT: name.
 *   kernel        FORM: size below 336. VALUE: a base or the size no multiple of 4,096, partition type 0 (all 64 bits).
 *                 TEXT: path. RANGE: physical base + size, virtual base + size.
 *   map           FORM: size not 8 + 24 * n. VALUE: a type 0 (all 64 bits). RANGE: an entry's address + size.
 *                 ORDER: an entry begins before the one before it ends.
 *   module        FORM: size below 96. VALUE: type not 1 or 2, address no multiple of 4,096. TEXT: name. RANGE: address + size.
 *   command line  FORM: size below 16. TEXT: the text, whose field ends with the attribute.
 *   framebuffer   FORM: size below 32. VALUE: format not 1 to 4; bits per pixel not 24 for formats 1 and 2, or not 32 for 3 and 4;
 *                 pitch * 8 below width * bpp. RANGE: address + pitch * height.
 * A text has a zero byte in its field and, before it, bytes 1 to 127; a path begins with '/' and is otherwise free.
 */
uint64_t ultra_read(const uint8_t *buf, size_t buf_len);

/*
 * Steps to the attribute at a cursor, the first of which is ultra_first_cursor. It judges that attribute's header alone, and
 * not whether the offset belongs to the index.
 * The attribute's size need not suit its type, and its members are not judged: call ultra_read first, or look at the size before each
 * member.
 * Success: the attribute starts at the cursor's offset, and the value is where the next one starts, never 0: see
 * ultra_next_cursor. At the end, where the index is at or past the count, the whole answer is 0; the offset is then not looked at.
 * Refusals: ULTRA_SHORT, ULTRA_VERSION, ULTRA_COUNT, ULTRA_MISSING with offset 0; then, unless it is the end, with the cursor's
 * offset: ULTRA_HEADER (also for an offset below 8 or no multiple of 8), ULTRA_SIZE, ULTRA_OVERRUN, ULTRA_TYPE.
 *
 *     struct ultra_cursor at = ultra_first_cursor();
 *     uint64_t answer = ultra_step(buf, buf_len, at.index, at.offset);
 *     while (answer != 0 && ultra_number(answer) == ULTRA_OK) {
 *         uint32_t type = ultra_u32(buf + at.offset + ULTRA_ATTRIBUTE_TYPE_OFFSET);
 *         uint32_t size = ultra_value(answer) - at.offset;
 *         ... the attribute at buf + at.offset ...
 *         at = ultra_next_cursor(at, answer);
 *         answer = ultra_step(buf, buf_len, at.index, at.offset);
 *     }
 */
uint64_t ultra_step(const uint8_t *buf, size_t buf_len, uint32_t index, uint32_t offset);

/*
 * Begins a context of version 1.0 with no attributes: writes the head's 8 bytes, whatever the buffer holds, and nothing more.
 * Success: 8, the used length.
 * Refusals: ULTRA_SHORT with offset 0.
 */
uint64_t ultra_begin(uint8_t *buf, size_t buf_len);

/*
 * Adding: what the six calls have in common.
 *
 * Each reads the buffer by all rules but the least count, and adds one attribute after the last. First a platform, then a
 * kernel, then the others in any order; modules stand together.
 * Success: the new used length. The attribute is written at the old used length, its reserved and unused bytes as zero, and the
 * head's count is raised by one; no other byte changes.
 * Refusals: those of reading but ULTRA_MISSING, each with its own offset; then those of the call's comment, in the order given
 * there, all with the used length that the buffer has.
 * Which of the two a refusal is: 1 to 8 are reading's, ULTRA_FULL and ULTRA_ROOM the call's own. 9 to 16 are the call's own if the
 * value is the used length, and reading's if it is the start of an attribute, which is below that. Once ultra_begin or ultra_read
 * has succeeded, and as long as only these calls write the buffer and its length stays, there are none of reading: a refusal is the
 * call's own, and its value is the used length that was answered last.
 * A text is given as its bytes, without a closing zero: a zero byte in it is ULTRA_TEXT. A string literal brings such a zero along,
 * so a forgotten - 1 is ULTRA_TEXT too:
 *
 *     static const uint8_t line[] = "quiet";
 *     uint64_t answer = ultra_add_command_line(buf, buf_len, line, sizeof line - 1);
 */

/*
 * Adds the platform, all of its members present. By the protocol rsdp, dtb and smbios are physical addresses, each 0 if not
 * applicable or not present.
 * Refusals of its own: ULTRA_FULL. ULTRA_PLACE: there is an attribute already. ULTRA_VALUE: type 0. ULTRA_TEXT: the name has more
 * than 31 bytes or one that is not 1 to 127. ULTRA_ROOM: fewer than 88 bytes left.
 */
uint64_t ultra_add_platform(uint8_t *buf, size_t buf_len, uint32_t type, uint16_t loader_major, uint16_t loader_minor,
                            const uint8_t *name, size_t name_len, uint64_t rsdp, uint64_t higher_half_base, uint8_t depth,
                            uint64_t dtb, uint64_t smbios);

/*
 * Adds the kernel. GUIDs are 16 bytes each, taken as they are for every partition type. By the protocol they are valid for
 * ULTRA_PARTITION_TYPE_GPT alone: where there are none, give 16 zero bytes, since NULL with length 0 is ULTRA_FORM.
 * Refusals of its own: ULTRA_FULL. ULTRA_PLACE: there is not just one attribute. ULTRA_FORM: a GUID's length is not 16.
 * ULTRA_VALUE: a base or the size is no multiple of 4,096, or the partition type is 0. ULTRA_TEXT: the path is empty, does not
 * begin with '/', has more than 255 bytes or a zero byte. ULTRA_RANGE: physical base + size or virtual base + size passes 2^64.
 * ULTRA_ROOM: fewer than 336 bytes left.
 */
uint64_t ultra_add_kernel(uint8_t *buf, size_t buf_len, uint64_t physical_base, uint64_t virtual_base, uint64_t size,
                          uint64_t partition_type, const uint8_t *disk_guid, size_t disk_guid_len,
                          const uint8_t *partition_guid, size_t partition_guid_len, uint32_t disk_index,
                          uint32_t partition_index, const uint8_t *path, size_t path_len);

/*
 * Adds a memory map. Its entries are given as bytes: address, size and type of each, as little-endian numbers of 8 bytes. No
 * bytes are a map of no entries. On x86-64, which is little-endian, an array of structs of three uint64_t (address, size, type) can
 * be given as it is: (const uint8_t *)array, sizeof array.
 * Refusals of its own: ULTRA_FULL. ULTRA_PLACE: there are fewer than two attributes. ULTRA_REPEAT: there is a map. ULTRA_FORM: the
 * length is no multiple of 24. ULTRA_VALUE: a type is 0. ULTRA_RANGE: an entry's address + size passes 2^64. ULTRA_ORDER: an entry's
 * address is below the end of the one before it. ULTRA_ROOM: fewer than 8 + entries_len bytes left.
 */
uint64_t ultra_add_map(uint8_t *buf, size_t buf_len, const uint8_t *entries, size_t entries_len);

/*
 * Adds a module.
 * Refusals of its own: ULTRA_FULL. ULTRA_PLACE: there are fewer than two attributes. ULTRA_SPLIT: there is a module, and the last
 * attribute is none. ULTRA_VALUE: the type is not 1 or 2, or the address is no multiple of 4,096. ULTRA_TEXT: the name has more
 * than 63 bytes or one that is not 1 to 127. ULTRA_RANGE: address + size passes 2^64. ULTRA_ROOM: fewer than 96 bytes left.
 */
uint64_t ultra_add_module(uint8_t *buf, size_t buf_len, uint32_t type, const uint8_t *name, size_t name_len,
                          uint64_t address, uint64_t size);

/*
 * Adds a command line, which may be empty.
 * Refusals of its own: ULTRA_FULL. ULTRA_PLACE: there are fewer than two attributes. ULTRA_REPEAT: there is a command line.
 * ULTRA_TEXT: a byte is not 1 to 127. ULTRA_ROOM: fewer bytes left than 8 + (text_len + 1 rounded up to a multiple of 8).
 */
uint64_t ultra_add_command_line(uint8_t *buf, size_t buf_len, const uint8_t *text, size_t text_len);

/*
 * Adds a framebuffer.
 * Refusals of its own: ULTRA_FULL. ULTRA_PLACE: there are fewer than two attributes. ULTRA_REPEAT: there is a framebuffer.
 * ULTRA_VALUE: the format is not 1 to 4, bpp is not 24 (formats 1 and 2) or 32 (formats 3 and 4), or pitch * 8 is below
 * width * bpp. ULTRA_RANGE: address + pitch * height passes 2^64. ULTRA_ROOM: fewer than 32 bytes left.
 */
uint64_t ultra_add_framebuffer(uint8_t *buf, size_t buf_len, uint32_t width, uint32_t height, uint32_t pitch, uint16_t bpp,
                               uint16_t format, uint64_t address);

/*
 * Where the attribute at an index starts; its type, size and members are in the buffer there, each at its ULTRA_.._OFFSET. Of a
 * platform, look at the size before a late member: the higher half base is there from size 64 on, the depth from 72, dtb from 80,
 * smbios from 88. What stands after a shorter one belongs to the kernel attribute.
 * Success: its start.
 * Refusals: those of reading; then ULTRA_COUNT with the used length, for an index at or past the count.
 */
uint64_t ultra_attribute(const uint8_t *buf, size_t buf_len, uint64_t index);

/*
 * Copies the memory map out: address, size and type of each entry, as little-endian numbers of 8 bytes. Of the output only whole
 * eights count. A map of n entries needs 24 * n bytes; bytes after those stay as they are. On x86-64 the output can be
 * an array of structs, as for ultra_add_map: (uint8_t *)array, sizeof array.
 * Success: n, the number of entries.
 * Refusals: those of reading; then, with the used length, ULTRA_ABSENT, and ULTRA_ROOM where the output is too short.
 */
uint64_t ultra_copy_map(const uint8_t *buf, size_t buf_len, uint8_t *out, size_t out_len);

/*
 * The command line. It has no refusals, and its answer is no number and value:
 * the text's start * 2^32 + its length, see ultra_text_start and ultra_text_length; 0 where the context has no command line or
 * reading refuses it. A caller with a text of its own, such as the board's default, takes that then. An empty command line has a
 * start and the length 0, so it is told from none: it is the line, and no text of the caller's goes in its place.
 */
uint64_t ultra_command_line(const uint8_t *buf, size_t buf_len);

/*
 * Which module holds an address: the first in the context with its address <= the given one < its address + its size, the size
 * rounded up to a multiple of 4,096. So a module holds every page that it has a byte on, the last one whole, and one answer serves for
 * all addresses of a page. A module of size 0 holds nothing. Where modules overlap, the first is answered, even where it has the address
 * only in the tail of its last page. Sums are whole numbers; none wraps.
 * Success: the start of that module's attribute (its name is at ULTRA_MODULE_NAME_OFFSET from there), or 0 where none holds it.
 * Refusals: those of reading.
 */
uint64_t ultra_module_holding(const uint8_t *buf, size_t buf_len, uint64_t address);

#ifdef __cplusplus
}
#endif

#endif
