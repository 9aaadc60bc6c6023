/* What the tests in C share: a fact that is expected, and buffers of their own. main returns failed. */
#ifndef EXPECT_H
#define EXPECT_H

#include <stdint.h>
#include <stdio.h>
#include <stdlib.h>
#include <string.h>

static int failed = 0;

static inline void expect(const char *what, int good) {
    if (good) return;
    printf("FAILED: %s\n", what);
    failed = 1;
}

/* A buffer of just this length that nothing has been written to. */
static inline uint8_t *lent(size_t len) {
    uint8_t *buffer = malloc(len);
    if (buffer == NULL && len > 0) exit(2);
    return buffer;
}

/* A buffer of just this length that holds these bytes. */
static inline uint8_t *copied(const void *bytes, size_t len) {
    uint8_t *buffer = lent(len);
    if (len > 0) memcpy(buffer, bytes, len);
    return buffer;
}

static inline int same(const void *one, const void *other, size_t len) {
    return len == 0 || memcmp(one, other, len) == 0;
}

static inline void mark(uint8_t *buffer, size_t len) {
    for (size_t at = 0; at < len; at++) buffer[at] = 0xaa;
}

/* Every byte is as mark left it. */
static inline int marked(const uint8_t *buffer, size_t len) {
    size_t kept = 0;
    while (kept < len && buffer[kept] == 0xaa) kept++;
    return kept == len;
}

#endif
