/*
 * What the tests in C share of plans: S and T of document 01, a plan for single cells, S so altered that it is turned
 * back, the cells of a sheet of full size; and answers put together.
 */
#ifndef PLANS_H
#define PLANS_H

#include "expect.h"
#include "sheet.h"

#include <string.h>

/* Plan S: three rows of three cells, bursts of one cell, k is 5. */
static const uint8_t plan_s[] = {
    3, 0, 3, 0, 1, 0, 1, 0, 2, 0, 2, 0, 22, 0, 34, 0, 46, 0, 62, 0, 0, 0, /* header */
    1, 0, 0, 0, 2, 0, 0, 0, 3, 0, 0, 0,                                   /* V */
    0, 0, 0, 0, 1, 0, 0, 0, 2, 0, 0, 0,                                   /* H */
    0, 0, 0, 0, 0, 0, 1, 0, 0, 0, 2, 0, 1, 0, 0, 0,                       /* check list */
};

/* Plan T: two rows of four cells, bursts of one row and two columns, k is 2. */
static const uint8_t plan_t[] = {
    2, 0, 4, 0, 1, 0, 2, 0, 4, 0, 2, 0, 22, 0, 38, 0, 54, 0, 78, 0, 0, 0,   /* header */
    1, 0, 0, 0, 2, 0, 0, 0, 4, 0, 0, 0, 8, 0, 0, 0,                         /* V */
    0, 0, 0, 0, 0, 0, 0, 0, 1, 0, 0, 0, 2, 0, 0, 0,                         /* H */
    0, 0, 0, 0, 0, 0, 1, 0, 0, 0, 2, 0, 0, 0, 3, 0, 1, 0, 0, 0, 1, 0, 1, 0, /* check list */
};

/* Plan W, for single cells in rectangles of one row and two columns: T's size, k is 4. 3 is 1 ^ 2. */
static const uint8_t plan_w[] = {
    2, 0, 4, 0, 1, 0, 2, 0, 3, 0, 1, 0, 22, 0, 38, 0, 54, 0, 70, 0, 1, 0, /* header */
    1, 0, 0, 0, 2, 0, 0, 0, 3, 0, 0, 0, 4, 0, 0, 0,                       /* V */
    0, 0, 0, 0, 0, 0, 0, 0, 1, 0, 0, 0, 1, 0, 0, 0,                       /* H */
    0, 0, 0, 0, 0, 0, 1, 0, 0, 0, 2, 0, 1, 0, 1, 0,                       /* check list */
};

/* Where a plan tells t. */
enum { T_AT = 20 };

/* Turns over the cell at this row and column, of a sheet of full size by rows: 88 bytes a row. */
static inline void turn(uint8_t *sheet, size_t i, size_t j) { sheet[i * 88 + j / 8] ^= (uint8_t)(1u << j % 8); }

/* What is told where something is turned back. */
typedef struct {
    unsigned number, p, q;
} refusal;

static inline uint64_t told(refusal r) { return r.number | (uint64_t)r.p << 5 | (uint64_t)r.q << 21; }

/* The answer of a read that turned over so many cells, of this smallest rectangle and with this pattern in it. */
static inline uint64_t mended(unsigned cells, unsigned top, unsigned left, unsigned height, unsigned width,
                              unsigned pattern) {
    return (uint64_t)cells << 5 | (uint64_t)top << 10 | (uint64_t)left << 19 | (uint64_t)height << 29 |
           (uint64_t)width << 32 | (uint64_t)pattern << 35;
}

/* S as it is turned back by each check of a plan, in a buffer of its own, with what is told. */
static inline void each_wrong_plan(void (*hand_over)(const uint8_t *plan, size_t len, refusal r)) {
    static const struct {
        size_t len, at, altered;
        uint8_t bytes[12];
        refusal r;
    } wrong[] = {
        {0, 0, 0, {0}, {SHEET_PLAN_SHORT, 0, 0}},
        {20, 0, 0, {0}, {SHEET_PLAN_SHORT, 0, 0}},
        {21, 0, 0, {0}, {SHEET_PLAN_SHORT, 0, 0}},
        {62, 4, 1, {5}, {SHEET_PLAN_BURST, 0, 0}},
        {62, 0, 1, {0}, {SHEET_PLAN_SIZE, 0, 0}},
        {62, 8, 1, {33}, {SHEET_PLAN_WIDTH, 0, 0}},
        {62, 20, 1, {3}, {SHEET_PLAN_MOST_CELLS, 0, 0}},
        {61, 21, 1, {1}, {SHEET_PLAN_MOST_CELLS, 0, 0}},
        {61, 0, 0, {0}, {SHEET_PLAN_LENGTH, 0, 0}},
        {62, 18, 1, {63}, {SHEET_PLAN_LENGTH, 0, 0}},
        {62, 30, 1, {4}, {SHEET_PLAN_ENTRY, 0, 2}},
        {62, 52, 1, {0}, {SHEET_PLAN_CHECK, 1, 0}},
        {62, 30, 1, {2}, {SHEET_PLAN_ROWS, 1, 2}},
        {62, 42, 1, {1}, {SHEET_PLAN_COLUMNS, 1, 2}},
        {62, 50, 12, {0, 0, 1, 0, 1, 0, 0, 0, 2, 0, 0, 0}, {SHEET_PLAN_DEPENDENT, 3, 0}},
    };
    for (size_t at = 0; at < sizeof wrong / sizeof *wrong; at++) {
        uint8_t *plan = lent(wrong[at].len);
        if (wrong[at].len > 0) memcpy(plan, plan_s, wrong[at].len);
        if (wrong[at].altered > 0) memcpy(plan + wrong[at].at, wrong[at].bytes, wrong[at].altered);
        hand_over(plan, wrong[at].len, wrong[at].r);
        free(plan);
    }
}

#endif
