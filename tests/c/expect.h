/*
 * What the tests for C share: numbers and octets compared, with a word for each that differs, and a sender by its fields' names.
 */
#ifndef EXPECT_H
#define EXPECT_H

#include <stdio.h>
#include <string.h>

#include "layout.h"

static int failures = 0;

/* One number, compared. */
static void expect(const char *what, uint64_t got, uint64_t want) {
    if (got != want) {
        printf("%s: %llu, not %llu\n", what, (unsigned long long)got, (unsigned long long)want);
        failures += 1;
    }
}

/* Octets, compared. */
static void expect_octets(const char *what, const uint8_t *got, const uint8_t *want, size_t n) {
    expect(what, memcmp(got, want, n) != 0, 0);
}

static struct orl_sender sender(uint64_t sequence_count, uint64_t counter) {
    struct orl_sender s;
    s.sequence_count = sequence_count;
    s.counter = counter;
    return s;
}

static void expect_sender(const char *what, struct orl_sender got, struct orl_sender want) {
    expect(what, got.sequence_count, want.sequence_count);
    expect(what, got.counter, want.counter);
}

/* What a test says at its end, and its exit status. */
static int told(const char *test) {
    if (failures == 0) {
        printf("%s: all as expected\n", test);
    }
    return failures == 0 ? 0 : 1;
}

#endif
