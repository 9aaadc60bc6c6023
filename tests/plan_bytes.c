/*
 * sheet_plan_bytes against the call. With v_low = 0 the maker turns back every plan: with 15 where the buffer has the
 * right length, else with 5, since the length is looked at first. All sizes are tried with one pair of widths, some
 * with other widths and in neighbouring lengths too, and t of 0, 1 and 2 in turn. Prints how many makings were tried.
 */
#include "sheet.h"

#include <stdio.h>
#include <stdlib.h>

enum { MOST_ROWS = 512, MOST_COLUMNS = 698, MOST_BURST = 4, MOST_WIDTH = 32 };
enum { MOST_ENTRIES = MOST_BURST * (MOST_ROWS + MOST_COLUMNS), MOST_CHECKS = 2 * MOST_WIDTH };

/* room for the longest plan, and for one byte more */
static uint8_t plan[SHEET_PLAN_HEADER_BYTES + 4 * (MOST_ENTRIES + MOST_CHECKS) + 1];
static unsigned long tried = 0;

typedef struct {
    uint32_t n1, n2, b1, b2, rv, rh;
} sizes;

static size_t told(sizes s) { return sheet_plan_bytes(s.n1, s.n2, s.b1, s.b2, s.rv, s.rh); }

/* The answer must be this number, with places 0, 0. */
static void expect(sizes s, size_t len, uint64_t number) {
    uint64_t answer;
    if (len > sizeof plan) exit(2);
    answer = sheet_plan_make(s.n1, s.n2, s.b1, s.b2, (uint32_t)(tried % 3), s.rv, 0, s.rh, 1, plan, len);
    tried++;
    if (answer == number) return;
    printf("FAILED: %lu x %lu, %lu x %lu, %lu, %lu in %lu bytes: %#lx\n", (unsigned long)s.n1, (unsigned long)s.n2,
           (unsigned long)s.b1, (unsigned long)s.b2, (unsigned long)s.rv, (unsigned long)s.rh, (unsigned long)len,
           (unsigned long)answer);
    exit(1);
}

static void in_its_length(sizes s) { expect(s, told(s), SHEET_PLAN_POLYNOMIAL); }

static void about_its_length(sizes s) {
    in_its_length(s);
    expect(s, told(s) - 1, SHEET_PLAN_LENGTH);
    expect(s, told(s) + 1, SHEET_PLAN_LENGTH);
}

/* Every burst, and sizes from the burst's on, each so many after the one before. */
static void each_size(uint32_t step1, uint32_t step2, uint32_t rv, uint32_t rh, void (*visit)(sizes)) {
    sizes s = {0, 0, 0, 0, rv, rh};
    for (s.b1 = 1; s.b1 <= MOST_BURST; s.b1++)
        for (s.b2 = 1; s.b2 <= MOST_BURST; s.b2++)
            for (s.n1 = s.b1; s.n1 <= MOST_ROWS; s.n1 += step1)
                for (s.n2 = s.b2; s.n2 <= MOST_COLUMNS; s.n2 += step2) visit(s);
}

/* Absurd numbers: the length wraps, and the call does not come to it. */
static void absurd(void) {
    const uint32_t most = UINT32_MAX;
    const sizes bursts = {most, most, most, most, most, most}, rows = {most, most, 4, 4, most, most};
    const sizes widths = {512, 698, 4, 4, most, most};
    size_t n = most;
    if (told(bursts) != SHEET_PLAN_HEADER_BYTES + 8 * (n * n + n)) {
        printf("FAILED: the length does not wrap as a size_t does\n");
        exit(1);
    }
    expect(bursts, told(bursts) % sizeof plan, SHEET_PLAN_BURST);
    expect(rows, told(rows) % sizeof plan, SHEET_PLAN_SIZE);
    expect(widths, told(widths) % sizeof plan, SHEET_PLAN_WIDTH);
}

int main(void) {
    static const uint32_t widths[] = {1, 2, 22, 31, 32};
    each_size(1, 1, 22, 14, in_its_length);
    for (size_t v = 0; v < sizeof widths / sizeof *widths; v++)
        for (size_t h = 0; h < sizeof widths / sizeof *widths; h++)
            each_size(17, 23, widths[v], widths[h], about_its_length);
    absurd();
    printf("%lu makings\n", tried);
    return 0;
}
