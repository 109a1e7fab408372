/*
 * Coverage of an archive that has no instrumentation: a breakpoint at the start of each of its basic blocks. The first run that
 * reaches a block marks its counter, which libFuzzer takes for coverage (__libfuzzer_extra_counters), and removes the breakpoint,
 * so that later runs go at full speed. The addresses come from a file, made by blocks.py, that ULTRA_BLOCKS names; without it there
 * are no breakpoints.
 * x86-64 Linux.
 */
#define _GNU_SOURCE
#include <signal.h>
#include <stdint.h>
#include <stdio.h>
#include <stdlib.h>
#include <sys/mman.h>
#include <ucontext.h>

int LLVMFuzzerInitialize(int *count, char ***arguments);

enum { BLOCKS = 1 << 13, PAGE = 4096, BREAKPOINT = 0xCC };

__attribute__((section("__libfuzzer_extra_counters"), used)) static uint8_t reached[BLOCKS];

/* In the order of their addresses. */
static struct block {
    uint8_t *at;
    uint8_t original;
    uint8_t seen;
} blocks[BLOCKS];
static size_t block_count;

static int by_address(const void *left, const void *right)
{
    const struct block *first = left;
    const struct block *second = right;

    return (first->at > second->at) - (first->at < second->at);
}

/* Restores the instruction and runs it. */
static void on_breakpoint(int number, siginfo_t *information, void *context)
{
    greg_t *registers = ((ucontext_t *)context)->uc_mcontext.gregs;
    struct block wanted = {(uint8_t *)registers[REG_RIP] - 1, 0, 0};
    struct block *found = bsearch(&wanted, blocks, block_count, sizeof blocks[0], by_address);

    (void)number;
    (void)information;
    if (found == NULL)
        abort();
    *found->at = found->original;
    found->seen = 1;
    reached[found - blocks] = 1;
    registers[REG_RIP] = (greg_t)(uintptr_t)found->at;
}

static void report(void)
{
    size_t count = 0;

    for (size_t at = 0; at < block_count; at++)
        count += blocks[at].seen;
    fprintf(stderr, "blocks of the archive reached: %zu of %zu\n", count, block_count);
}

static void fail(const char *what)
{
    perror(what);
    exit(2);
}

static void read_blocks(const char *path)
{
    FILE *file = fopen(path, "r");
    uintptr_t address;

    if (file == NULL)
        fail(path);
    while (block_count < BLOCKS && fscanf(file, "%zx", &address) == 1)
        blocks[block_count++].at = (uint8_t *)address;
    if (!feof(file) || block_count == 0) {
        fprintf(stderr, "%s: no list of addresses, or more than %d\n", path, BLOCKS);
        exit(2);
    }
    fclose(file);
    qsort(blocks, block_count, sizeof blocks[0], by_address);
}

static void set_breakpoint(struct block *block)
{
    uint8_t *page = (uint8_t *)((uintptr_t)block->at / PAGE * PAGE);

    if (mprotect(page, PAGE, PROT_READ | PROT_WRITE | PROT_EXEC) != 0)
        fail("mprotect");
    block->original = *block->at;
    *block->at = BREAKPOINT;
}

int LLVMFuzzerInitialize(int *count, char ***arguments)
{
    const char *path = getenv("ULTRA_BLOCKS");
    struct sigaction action = {0};

    (void)count;
    (void)arguments;
    if (path == NULL)
        return 0;
    read_blocks(path);
    action.sa_sigaction = on_breakpoint;
    action.sa_flags = SA_SIGINFO;
    if (sigaction(SIGTRAP, &action, NULL) != 0)
        fail("sigaction");
    for (size_t at = 0; at < block_count; at++)
        set_breakpoint(&blocks[at]);
    atexit(report);
    return 0;
}
