/*
 * A burst put back from C: on sheets that end where their buffer does, so that valgrind tells of a byte beyond. Answers
 * under S and T and on a sheet of 8 by 8 cells, by hand; every sheet of S and T read and put back; each bit of an
 * answer; what is near the answer of a burst and is none; every number that turns something back, in order; the answers
 * of the other readers; and the house plan.
 */
#include "expect.h"
#include "plans.h"
#include "sheet.h"

#include <string.h>

/* The answer put back on these bytes leaves those others, and put back again it leaves these. */
static void puts_back(const char *what, const uint8_t *plan, size_t plan_len, const void *before, size_t len,
                      uint64_t answer, const void *after) {
    uint8_t *sheet = copied(before, len);
    expect(what, sheet_put_back(plan, plan_len, sheet, len, answer) == SHEET_OK && same(sheet, after, len));
    expect("twice", sheet_put_back(plan, plan_len, sheet, len, answer) == SHEET_OK && same(sheet, before, len));
    free(sheet);
}

/* The call turns these bytes back, with this number and places, and no byte changes. */
static void turned_back(const uint8_t *plan, size_t plan_len, const void *bytes, size_t len, uint64_t answer,
                        refusal r) {
    uint8_t *sheet = copied(bytes, len);
    expect("turned back", sheet_put_back(plan, plan_len, sheet, len, answer) == told(r));
    expect("a refusal leaves the sheet", same(sheet, bytes, len));
    free(sheet);
}

static const refusal not_a_burst = {SHEET_NOT_A_BURST, 0, 0};

/* Cases 3 and 6 of document 01 the other way round; none; and sheets that do not belong, or are not to be mended. */
static void by_hand(void) {
    const uint8_t *s = plan_s, *t = plan_t;
    size_t s_len = sizeof plan_s, t_len = sizeof plan_t;
    puts_back("case 3", s, s_len, "\x03\x03\x00", 3, mended(1, 2, 0, 1, 1, 1), "\x03\x03\x01");
    puts_back("case 6", t, t_len, "\x05\x05", 2, mended(2, 0, 1, 1, 2, 3), "\x03\x05");
    puts_back("none", s, s_len, "\x03\x03\x00", 3, 0, "\x03\x03\x00");
    puts_back("none on case 4", s, s_len, "\x03\x00\x00", 3, 0, "\x03\x00\x00");
    puts_back("on case 4", s, s_len, "\x03\x00\x00", 3, mended(1, 0, 1, 1, 1, 1), "\x01\x00\x00");
    puts_back("on case 7", t, t_len, "\x0c\x05", 2, mended(2, 1, 2, 1, 2, 3), "\x0c\x09");
    puts_back("the last cell of S", s, s_len, "\x00\x00\x00", 3, mended(1, 2, 2, 1, 1, 1), "\x00\x00\x04");
    puts_back("the last cell of T", t, t_len, "\x00\x00", 2, mended(1, 1, 3, 1, 1, 1), "\x00\x08");
}

/* A sheet is read: if it is taken, putting back restores it. Was it taken? */
static unsigned restored(const uint8_t *plan, size_t plan_len, const uint8_t *scan) {
    size_t len = sheet_plan_sheet_bytes(plan, plan_len), data_len = sheet_plan_data_bytes(plan, plan_len);
    uint8_t *sheet = copied(scan, len), *data = lent(data_len);
    uint64_t answer = sheet_read(plan, plan_len, sheet, len, data, data_len);
    unsigned is_taken = sheet_answer_number(answer) == SHEET_OK;
    expect("put back what was read",
           sheet_put_back(plan, plan_len, sheet, len, answer) == (is_taken ? SHEET_OK : SHEET_NOT_A_BURST));
    expect("the scan is restored", same(sheet, scan, len));
    free(data);
    free(sheet);
    return is_taken;
}

/* Every sheet of S and of T: the bits of a number are those of the rows. */
static void every_sheet(void) {
    unsigned of_s = 0, of_t = 0;
    for (unsigned bits = 0; bits < 512; bits++) {
        uint8_t rows[3] = {bits & 7, bits >> 3 & 7, (uint8_t)(bits >> 6)};
        of_s += restored(plan_s, sizeof plan_s, rows);
    }
    for (unsigned bits = 0; bits < 256; bits++) {
        uint8_t rows[2] = {bits & 15, (uint8_t)(bits >> 4)};
        of_t += restored(plan_t, sizeof plan_t, rows);
    }
    expect("each of 32 written sheets, as it is and with one of 9 cells turned over", of_s == 320);
    expect("each of 4 written sheets, as it is, with one of 8 cells or one of 6 pairs", of_t == 60);
}

/* How many of the 64 numbers are taken that differ from the answer in one bit. The others are turned back with 22. */
static unsigned bits_taken(const uint8_t *plan, size_t plan_len, uint64_t answer) {
    static const uint8_t light[3] = {0};
    size_t len = sheet_plan_sheet_bytes(plan, plan_len);
    unsigned taken = 0;
    for (unsigned bit = 0; bit < 64; bit++) {
        uint8_t *sheet = copied(light, len);
        uint64_t other = answer ^ UINT64_C(1) << bit, told_of = sheet_put_back(plan, plan_len, sheet, len, other);
        expect("taken or 22", told_of == SHEET_OK || (told_of == SHEET_NOT_A_BURST && same(sheet, light, len)));
        taken += told_of == SHEET_OK;
        free(sheet);
    }
    return taken;
}

/* A cell is moved by 1, 2, 4, .. rows or columns, and has to stay on the sheet. */
static void each_bit(void) {
    expect("no bit of none", bits_taken(plan_s, sizeof plan_s, 0) == 0);
    expect("(1, 1) of S: (0, 1), (1, 0)", bits_taken(plan_s, sizeof plan_s, mended(1, 1, 1, 1, 1, 1)) == 2);
    expect("(0, 0) of S: rows 1, 2, columns 1, 2", bits_taken(plan_s, sizeof plan_s, mended(1, 0, 0, 1, 1, 1)) == 4);
    expect("(0, 1) of T: row 1, columns 0, 3", bits_taken(plan_t, sizeof plan_t, mended(1, 0, 1, 1, 1, 1)) == 3);
    expect("a pair of T: row 1, from columns 1, 2", bits_taken(plan_t, sizeof plan_t, mended(2, 0, 0, 1, 2, 3)) == 3);
}

/* Under T a burst has one row and two columns, on two rows of four. */
static void near_bursts(void) {
    static const uint64_t near[] = {
        1,                              /* refusals, with places and without */
        SHEET_NOT_MENDABLE,
        SHEET_UNUSED_BIT | 1u << 5,
        31,
        UINT64_C(1) << 51,              /* other bits, of none */
        UINT64_C(1) << 63,
        UINT64_MAX,
    };
    const uint8_t *t = plan_t;
    size_t len = sizeof plan_t;
    uint64_t pair = mended(2, 0, 1, 1, 2, 3);
    for (size_t at = 0; at < sizeof near / sizeof *near; at++)
        turned_back(t, len, "\x05\x05", 2, near[at], not_a_burst);
    for (unsigned number = 1; number < 32; number++) turned_back(t, len, "\x05\x05", 2, pair | number, not_a_burst);
    for (unsigned bit = 51; bit < 64; bit++)
        turned_back(t, len, "\x05\x05", 2, pair | UINT64_C(1) << bit, not_a_burst);
    turned_back(t, len, "\x05\x05", 2, mended(0, 0, 0, 1, 1, 0), not_a_burst); /* no cells, with a rectangle */
    turned_back(t, len, "\x05\x05", 2, mended(0, 1, 0, 0, 0, 0), not_a_burst);
    turned_back(t, len, "\x05\x05", 2, mended(0, 0, 3, 0, 0, 0), not_a_burst);
    turned_back(t, len, "\x05\x05", 2, mended(0, 0, 0, 1, 0, 0), not_a_burst);
    turned_back(t, len, "\x05\x05", 2, mended(0, 0, 0, 0, 2, 0), not_a_burst);
    turned_back(t, len, "\x05\x05", 2, mended(0, 0, 1, 1, 2, 3), not_a_burst); /* another number of cells */
    turned_back(t, len, "\x05\x05", 2, mended(1, 0, 1, 1, 2, 3), not_a_burst);
    turned_back(t, len, "\x05\x05", 2, mended(3, 0, 1, 1, 2, 3), not_a_burst);
    turned_back(t, len, "\x05\x05", 2, mended(1, 0, 1, 1, 2, 1), not_a_burst); /* not the smallest rectangle */
    turned_back(t, len, "\x05\x05", 2, mended(1, 0, 1, 1, 2, 2), not_a_burst);
    turned_back(t, len, "\x05\x05", 2, mended(2, 0, 1, 1, 1, 3), not_a_burst); /* a bit beyond it */
    turned_back(t, len, "\x05\x05", 2, mended(3, 0, 1, 1, 2, 7), not_a_burst);
    turned_back(t, len, "\x05\x05", 2, mended(3, 0, 1, 1, 2, 0x8003), not_a_burst);
    turned_back(t, len, "\x05\x05", 2, mended(3, 0, 1, 1, 3, 7), not_a_burst); /* larger than a burst, on the sheet */
    turned_back(t, len, "\x05\x05", 2, mended(2, 0, 1, 1, 3, 5), not_a_burst);
    turned_back(t, len, "\x05\x05", 2, mended(2, 0, 1, 2, 1, 3), not_a_burst);
    turned_back(t, len, "\x05\x05", 2, mended(1, 2, 0, 1, 1, 1), not_a_burst); /* off the sheet: below, at the right */
    turned_back(t, len, "\x05\x05", 2, mended(1, 511, 0, 1, 1, 1), not_a_burst);
    turned_back(t, len, "\x05\x05", 2, mended(2, 0, 3, 1, 2, 3), not_a_burst);
    turned_back(t, len, "\x05\x05", 2, mended(1, 0, 4, 1, 1, 1), not_a_burst);
    turned_back(t, len, "\x05\x05", 2, mended(1, 1, 1023, 1, 1, 1), not_a_burst);
}

/* A plan is turned back whatever else is wrong: the length, unused bits, the answer. */
static void plan_turned_back(const uint8_t *plan, size_t plan_len, refusal r) {
    turned_back(plan, plan_len, "\x03\x03\x00", 3, 0, r);
    turned_back(plan, plan_len, "\xff\xff\xff", 3, 1, r);
    turned_back(plan, plan_len, "\xff\xff\xff\xff", 4, UINT64_MAX, r);
    turned_back(plan, plan_len, "", 0, mended(1, 2, 0, 1, 1, 1), r);
}

/* In order: 11, 13 and 22, each with all that come after it. */
static void refused(void) {
    static const refusal length = {SHEET_SHEET_LENGTH, 0, 0};
    uint64_t cell = mended(1, 2, 0, 1, 1, 1);
    size_t len = sizeof plan_s;
    turned_back(plan_s, len, "", 0, cell, length);
    turned_back(plan_s, len, "\x0b\x03", 2, 1, length);
    turned_back(plan_s, len, "\x0b\x03\x00\x00", 4, 0, length);
    turned_back(plan_s, len, "\x0b\x03\x00", 3, 0, (refusal){SHEET_UNUSED_BIT, 0, 0});
    turned_back(plan_s, len, "\x03\x83\xff", 3, cell, (refusal){SHEET_UNUSED_BIT, 1, 0});
    turned_back(plan_s, len, "\x03\x03\x10", 3, 1, (refusal){SHEET_UNUSED_BIT, 2, 0});
    turned_back(plan_s, len, "\x03\x03\x00", 3, 1, not_a_burst);
    turned_back(plan_s, len, "\x03\x00\x00", 3, cell | 1, not_a_burst);
}

/* A sheet of eight rows of eight cells, a byte a row, under a plan for bursts of 3 by 3. */
static uint8_t *eight_plan(size_t *plan_len) {
    uint8_t *plan;
    *plan_len = sheet_plan_bytes(8, 8, 3, 3, 22, 14);
    plan = lent(*plan_len);
    expect("the plan is made", sheet_plan_make(8, 8, 3, 3, 0, 22, 0x39f0d, 14, 0x8f7, plan, *plan_len) == SHEET_OK);
    return plan;
}

/* Bit r * width + s is row r and column s of the smallest rectangle: patterns that differ if it were another. */
static void eight_by_eight(void) {
    static const uint8_t light[8] = {0};
    size_t len;
    uint8_t *plan = eight_plan(&len);
    puts_back("two rows of three", plan, len, light, 8, mended(4, 1, 2, 2, 3, 0x0f), "\0\x1c\x04\0\0\0\0\0");
    puts_back("three rows of two", plan, len, light, 8, mended(4, 5, 6, 3, 2, 0x35), "\0\0\0\0\0\x40\x40\xc0");
    puts_back("three of three", plan, len, light, 8, mended(4, 0, 5, 3, 3, 0x5c), "\x80\x60\x20\0\0\0\0\0");
    puts_back("one row of three", plan, len, light, 8, mended(2, 7, 0, 1, 3, 5), "\0\0\0\0\0\0\0\x05");
    puts_back("one column of three", plan, len, light, 8, mended(2, 5, 7, 3, 1, 5), "\0\0\0\0\0\x80\0\x80");
    puts_back("two of two", plan, len, light, 8, mended(2, 3, 3, 2, 2, 6), "\0\0\0\x10\x08\0\0\0");
    puts_back("all nine", plan, len, light, 8, mended(9, 5, 5, 3, 3, 0x1ff), "\0\0\0\0\0\xe0\xe0\xe0");
    expect("they are read as such", restored(plan, len, (const uint8_t *)"\0\x1c\x04\0\0\0\0\0") == 1);
    expect("and these", restored(plan, len, (const uint8_t *)"\0\0\0\0\0\x40\x40\xc0") == 1);
    turned_back(plan, len, light, 8, mended(2, 3, 3, 2, 3, 0x12), not_a_burst); /* column 1 alone */
    turned_back(plan, len, light, 8, mended(2, 0, 0, 4, 1, 0x09), not_a_burst); /* four rows */
    turned_back(plan, len, light, 8, mended(2, 0, 0, 1, 4, 0x09), not_a_burst); /* four columns */
    turned_back(plan, len, light, 8, mended(9, 6, 5, 3, 3, 0x1ff), not_a_burst);
    turned_back(plan, len, light, 8, mended(9, 5, 6, 3, 3, 0x1ff), not_a_burst);
    turned_back(plan, len, light, 8, mended(10, 5, 5, 3, 3, 0x3ff), not_a_burst);
    free(plan);
}

/* What the other readers tell of the same scan is put back too: by trial, of a stack, and by columns, turned. */
static void other_readers(void) {
    static const uint8_t scan[8] = {0, 0x1c, 0x04, 0, 0, 0, 0, 0}, room = 0;
    uint8_t sheet[8], columns[8], data[4], stack[16], numbers[SHEET_STACK_NUMBERS];
    size_t len;
    uint8_t *plan = eight_plan(&len);
    uint64_t expected = mended(4, 1, 2, 2, 3, 0x0f), answer;
    memcpy(sheet, scan, 8);
    answer = sheet_read_by_trial(plan, len, sheet, 8, data, 4);
    expect("by trial", answer == expected && sheet_put_back(plan, len, sheet, 8, answer) == SHEET_OK);
    expect("the scan, by trial", same(sheet, scan, 8));
    sheet_stack_header(plan, len, &room, 1, stack);
    memcpy(stack + 8, scan, 8);
    expect("a stack", sheet_read_stack(plan, len, stack, 16, numbers, sizeof numbers, data, 4) == SHEET_OK);
    answer = sheet_stack_answer(numbers, 0);
    expect("of a stack", answer == expected && sheet_put_back(plan, len, stack + 8, 8, answer) == SHEET_OK);
    expect("the scan, in a stack", same(stack + 8, scan, 8));
    expect("by columns", sheet_to_columns(plan, len, scan, 8, columns, 8) == SHEET_OK);
    answer = sheet_read_by_column(plan, len, columns, 8, data, 4);
    expect("turned", sheet_to_rows(plan, len, columns, 8, sheet, 8) == SHEET_OK);
    expect("of columns", answer == expected && sheet_put_back(plan, len, sheet, 8, answer) == SHEET_OK);
    expect("the scan, by columns", same(sheet, scan, 8));
    free(plan);
}

/* Full size: bursts in the corners and in the middle, and rectangles that leave the sheet there. */
static void house(void) {
    static const size_t corners[][2] = {{0, 0}, {0, 695}, {509, 0}, {509, 695}, {255, 300}};
    size_t plan_len = SHEET_HOUSE_PLAN_BYTES, len;
    uint8_t *plan = lent(plan_len), *sheet, *light;
    expect("the house plan is made", sheet_house_plan(plan, plan_len) == SHEET_OK);
    len = sheet_plan_sheet_bytes(plan, plan_len);
    sheet = lent(len);
    light = lent(len);
    memset(light, 0, len);
    for (size_t at = 0; at < sizeof corners / sizeof *corners; at++) {
        size_t top = corners[at][0], left = corners[at][1];
        memset(sheet, 0, len);
        turn(sheet, top, left + 1);
        turn(sheet, top + 1, left);
        turn(sheet, top + 2, left);
        turn(sheet, top + 2, left + 2);
        puts_back("a corner", plan, plan_len, light, len, mended(4, (unsigned)top, (unsigned)left, 3, 3, 0x14a), sheet);
        expect("it is read", restored(plan, plan_len, sheet) == 1);
    }
    turned_back(plan, plan_len, light, len, mended(9, 510, 695, 3, 3, 0x1ff), not_a_burst);
    turned_back(plan, plan_len, light, len, mended(9, 509, 696, 3, 3, 0x1ff), not_a_burst);
    turned_back(plan, plan_len, light, len, mended(1, 511, 698, 1, 1, 1), not_a_burst);
    puts_back("none", plan, plan_len, sheet, len, 0, sheet);
    sheet[len - 1] |= 0x80;
    turned_back(plan, plan_len, sheet, len, 1, (refusal){SHEET_UNUSED_BIT, 45055, 0});
    free(light);
    free(sheet);
    free(plan);
}

int main(void) {
    by_hand();
    every_sheet();
    each_bit();
    near_bursts();
    each_wrong_plan(plan_turned_back);
    refused();
    eight_by_eight();
    other_readers();
    house();
    return failed;
}
