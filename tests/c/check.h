/*
 * Checks for the C tests. A failed check is printed with its place and the case at hand, and the program goes on, so that one run
 * shows them all; checks_end gives the exit status. A program that made no check fails.
 */
#ifndef TESTS_CHECK_H
#define TESTS_CHECK_H

#include <inttypes.h>
#include <stdarg.h>
#include <stddef.h>
#include <stdint.h>
#include <stdio.h>
#include <string.h>

enum { CHECKS_PRINTED_MAX = 20 };

static unsigned long checks_made;
static unsigned long checks_failed;

/* What is being tried, for messages, and the call that was last made: a handler of faults prints both. */
static char checks_case[200] = "(no case named)";
static const char *volatile checks_call = "(no call)";

__attribute__((format(printf, 1, 2))) static inline void checks_name(const char *format, ...)
{
    va_list arguments;

    va_start(arguments, format);
    vsnprintf(checks_case, sizeof checks_case, format, arguments);
    va_end(arguments);
}

/* Counts a check, and says whether it failed and is to be printed. */
static inline int checks_count(int holds)
{
    checks_made++;
    if (holds)
        return 0;
    checks_failed++;
    return checks_failed <= CHECKS_PRINTED_MAX;
}

static inline void checks_condition(int holds, const char *condition, const char *file, int line)
{
    if (checks_count(holds))
        fprintf(stderr, "%s:%d: %s: not so: %s\n", file, line, checks_case, condition);
}

static inline void checks_answer(uint64_t got, uint32_t number, uint64_t value, const char *call, const char *file, int line)
{
    uint64_t wanted = ((uint64_t)number << 32) + value;

    if (checks_count(got == wanted))
        fprintf(stderr, "%s:%d: %s: %s answers %" PRIu64 ",%" PRIu64 " and not %" PRIu32 ",%" PRIu64 "\n", file, line,
                checks_case, call, got >> 32, got & 0xFFFFFFFF, number, value);
}

static inline void checks_bytes(const void *got, const void *wanted, size_t length, const char *what, const char *file, int line)
{
    const uint8_t *left = got;
    const uint8_t *right = wanted;
    size_t at = 0;

    while (at < length && left[at] == right[at])
        at++;
    if (checks_count(at == length))
        fprintf(stderr, "%s:%d: %s: %s: byte %zu of %zu is %u and not %u\n", file, line, checks_case, what, at, length,
                left[at], right[at]);
}

#define CHECK(condition) checks_condition(!!(condition), #condition, __FILE__, __LINE__)
#define CHECK_ANSWER(call, number, value) \
    (checks_call = #call, checks_answer(call, number, value, #call, __FILE__, __LINE__))
#define CHECK_BYTES(got, wanted, length) checks_bytes(got, wanted, length, #got, __FILE__, __LINE__)

static inline int checks_end(const char *program)
{
    printf("%s: %lu checks, %lu failed\n", program, checks_made, checks_failed);
    return checks_made == 0 || checks_failed != 0;
}

#endif
