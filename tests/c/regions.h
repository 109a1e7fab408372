/*
 * Memory to lend in tests, of just the length asked for.
 *
 * By default a region is mapped between two pages that cannot be touched, and what is lent stands flush with the one after it or
 * with the one in front of it; it can be made read-only. A byte read or written outside is then a fault, or, on the side that is
 * not flush, a changed byte of the filling.
 * With TESTS_ON_HEAP it is a heap block of that length, and a tool (valgrind, a sanitizer) watches the borders.
 */
#ifndef TESTS_REGIONS_H
#define TESTS_REGIONS_H

#include <stddef.h>
#include <stdint.h>
#include <stdio.h>
#include <stdlib.h>
#include <string.h>

enum side { BACK, FRONT };
enum access { READ_ONLY, WRITABLE };

struct region {
    uint8_t *mapped; /* the bytes between the two pages */
    uint8_t *lent;
    size_t length;
};

#ifdef TESTS_ON_HEAP

enum { SIDES = 1 };

static inline uint8_t *region_lend(struct region *region, size_t length, enum side side)
{
    (void)side;
    free(region->lent);
    region->lent = malloc(length);
    region->length = length;
    if (region->lent == NULL && length != 0)
        abort();
    return region->lent;
}

static inline void region_protect(struct region *region, enum access access)
{
    (void)region;
    (void)access;
}

static inline int region_intact(const struct region *region)
{
    (void)region;
    return 1;
}

static inline void region_release(struct region *region)
{
    free(region->lent);
    region->lent = NULL;
}

#else

#include <sys/mman.h>

/* Whole pages, enough for a buffer that is longer than the room of a context. */
enum { PAGE = 4096, REGION_SIZE = 18 * PAGE, FILLING = 0xC7, FILLING_SEEN = 512, SIDES = 2 };

static inline void region_or_die(int holds, const char *what)
{
    if (!holds) {
        perror(what);
        exit(2);
    }
}

static inline void region_protect(struct region *region, enum access access)
{
    int protection = access == WRITABLE ? PROT_READ | PROT_WRITE : PROT_READ;

    region_or_die(mprotect(region->mapped, REGION_SIZE, protection) == 0, "mprotect");
}

static inline void region_map(struct region *region)
{
    uint8_t *all = mmap(NULL, REGION_SIZE + 2 * PAGE, PROT_NONE, MAP_PRIVATE | MAP_ANONYMOUS, -1, 0);

    region_or_die(all != MAP_FAILED, "mmap");
    region->mapped = all + PAGE;
    region_protect(region, WRITABLE);
    memset(region->mapped, FILLING, REGION_SIZE);
}

static inline uint8_t *region_lend(struct region *region, size_t length, enum side side)
{
    if (region->mapped == NULL)
        region_map(region);
    region_or_die(length <= REGION_SIZE, "region_lend");
    region_protect(region, WRITABLE);
    if (region->lent != NULL)
        memset(region->lent, FILLING, region->length);
    region->lent = side == BACK ? region->mapped + REGION_SIZE - length : region->mapped;
    region->length = length;
    return region->lent;
}

/* The filling beside what is lent is as it was. */
static inline int region_intact(const struct region *region)
{
    const uint8_t *end = region->lent + region->length;
    const uint8_t *limit = region->mapped + REGION_SIZE;

    for (const uint8_t *at = region->lent; at > region->mapped && region->lent - at < FILLING_SEEN; at--)
        if (at[-1] != FILLING)
            return 0;
    for (const uint8_t *at = end; at < limit && at - end < FILLING_SEEN; at++)
        if (*at != FILLING)
            return 0;
    return 1;
}

static inline void region_release(struct region *region)
{
    munmap(region->mapped - PAGE, REGION_SIZE + 2 * PAGE);
    region->mapped = NULL;
    region->lent = NULL;
}

#endif

/* Lends a copy of some bytes. */
static inline uint8_t *region_copy(struct region *region, const void *from, size_t length, enum side side, enum access access)
{
    uint8_t *lent = region_lend(region, length, side);

    if (length != 0)
        memcpy(lent, from, length);
    region_protect(region, access);
    return lent;
}

#endif
