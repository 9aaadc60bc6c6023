/*
 * Reading by trial from C: in buffers that end where the sheet or the data does, so that valgrind tells of a byte
 * beyond, and with data that nothing has been written to, so that it tells of a byte left as it was. Sheets of S and T
 * by hand; every sheet of both beside sheet_read; every number that turns something back, in order; a sheet of 8 by 8
 * cells with bursts of 3 by 3; and the house plan.
 */
#include "expect.h"
#include "plans.h"
#include "sheet.h"

#include <string.h>

/* A sheet is read by trial with this answer, and mended to this sheet, with this data; or refused with 14. */
static void read_as(const char *what, const uint8_t *plan, size_t plan_len, const void *sheet, size_t len,
                    uint64_t answer, const void *left, const void *data, size_t data_len) {
    uint8_t *scan = copied(sheet, len), *text = lent(data_len);
    int is_refused = answer == SHEET_NOT_MENDABLE;
    if (is_refused) mark(text, data_len);
    expect(what, sheet_read_by_trial(plan, plan_len, scan, len, text, data_len) == answer);
    expect("the sheet that is left", same(scan, is_refused ? sheet : left, len));
    expect("the data", is_refused ? marked(text, data_len) : same(text, data, data_len));
    free(text);
    free(scan);
}

/* Cases 3, 4, 6 and 7 of document 01; clean sheets; and the last cell, which is narrower than its rectangle. */
static void by_hand(void) {
    const uint8_t *s = plan_s, *t = plan_t;
    size_t s_len = sizeof plan_s, t_len = sizeof plan_t;
    read_as("case 3", s, s_len, "\x03\x03\x01", 3, mended(1, 2, 0, 1, 1, 1), "\x03\x03\x00", "\x02", 1);
    read_as("case 4", s, s_len, "\x03\x00\x00", 3, SHEET_NOT_MENDABLE, "", "", 1);
    read_as("case 4 again", s, s_len, "\x06\x01\x00", 3, SHEET_NOT_MENDABLE, "", "", 1);
    read_as("case 6", t, t_len, "\x03\x05", 2, mended(2, 0, 1, 1, 2, 3), "\x05\x05", "\x02", 1);
    read_as("case 7", t, t_len, "\x0c\x05", 2, SHEET_NOT_MENDABLE, "", "", 1);
    read_as("case 7 again", t, t_len, "\x01\x01", 2, SHEET_NOT_MENDABLE, "", "", 1);
    read_as("S, clean", s, s_len, "\x03\x03\x00", 3, SHEET_OK, "\x03\x03\x00", "\x02", 1);
    read_as("T, clean", t, t_len, "\x05\x05", 2, SHEET_OK, "\x05\x05", "\x02", 1);
    read_as("S, the last cell", s, s_len, "\x03\x03\x04", 3, mended(1, 2, 2, 1, 1, 1), "\x03\x03\x00", "\x02", 1);
    read_as("T, the last cell", t, t_len, "\x05\x0d", 2, mended(1, 1, 3, 1, 1, 1), "\x05\x05", "\x02", 1);
}

/* A sheet is read by trial as sheet_read reads it: the answer, the sheet and the data, of which nothing was written. */
static uint64_t read_alike(const uint8_t *plan, size_t plan_len, const uint8_t *sheet) {
    size_t len = sheet_plan_sheet_bytes(plan, plan_len), data_len = sheet_plan_data_bytes(plan, plan_len);
    uint8_t *scan = copied(sheet, len), *usual = copied(sheet, len), *text = lent(data_len), *data = lent(data_len);
    uint64_t answer = sheet_read(plan, plan_len, usual, len, data, data_len);
    int is_taken = sheet_answer_number(answer) == SHEET_OK;
    if (!is_taken) mark(text, data_len);
    expect("the answer of sheet_read", sheet_read_by_trial(plan, plan_len, scan, len, text, data_len) == answer);
    expect("the sheet of sheet_read", same(scan, usual, len));
    expect("the data of sheet_read", is_taken ? same(text, data, data_len) : marked(text, data_len));
    free(data);
    free(text);
    free(usual);
    free(scan);
    return answer;
}

/* Every sheet of S and of T: the bits of a number are those of the rows. */
static void every_sheet(void) {
    unsigned of_s = 0, of_t = 0;
    for (unsigned bits = 0; bits < 512; bits++) {
        uint8_t rows[3] = {bits & 7, bits >> 3 & 7, (uint8_t)(bits >> 6)};
        of_s += sheet_answer_number(read_alike(plan_s, sizeof plan_s, rows)) == SHEET_OK;
    }
    for (unsigned bits = 0; bits < 256; bits++) {
        uint8_t rows[2] = {bits & 15, (uint8_t)(bits >> 4)};
        of_t += sheet_answer_number(read_alike(plan_t, sizeof plan_t, rows)) == SHEET_OK;
    }
    expect("each of 32 written sheets, as it is and with one of 9 cells turned over", of_s == 320);
    expect("each of 4 written sheets, as it is, with one of 8 cells or one of 6 pairs", of_t == 60);
}

/* The call turns back these bytes, with data of this length, and no byte changes. */
static void turned_back(const uint8_t *plan, size_t plan_len, const char *sheet, size_t len, size_t data_len,
                        refusal r) {
    uint8_t *scan = copied(sheet, len), *text = lent(data_len);
    mark(text, data_len);
    expect("turned back", sheet_read_by_trial(plan, plan_len, scan, len, text, data_len) == told(r));
    expect("a refusal leaves the sheet", same(scan, sheet, len));
    expect("a refusal leaves the data", marked(text, data_len));
    free(text);
    free(scan);
}

/* A plan is turned back whatever else is wrong: either length, unused bits. */
static void plan_turned_back(const uint8_t *plan, size_t plan_len, refusal r) {
    turned_back(plan, plan_len, "\x03\x03\x01", 3, 1, r);
    turned_back(plan, plan_len, "\xff\xff\xff", 3, 0, r);
    turned_back(plan, plan_len, "\xff\xff\xff\xff", 4, 2, r);
    turned_back(plan, plan_len, "", 0, 0, r);
}

/* 11, 12, 13 and 14, each with all that come after it; null where a length is 0. */
static void refused(void) {
    static const refusal length = {SHEET_SHEET_LENGTH, 0, 0}, of_data = {SHEET_DATA_LENGTH, 0, 0};
    static const refusal row_0 = {SHEET_UNUSED_BIT, 0, 0}, row_1 = {SHEET_UNUSED_BIT, 1, 0};
    static const refusal lost = {SHEET_NOT_MENDABLE, 0, 0};
    uint8_t data = 0xaa, sheet[2] = {0x03, 0x05};
    turned_back(plan_t, sizeof plan_t, "\xff\xff\xff", 3, 0, length);
    turned_back(plan_t, sizeof plan_t, "\xff", 1, 2, length);
    turned_back(plan_t, sizeof plan_t, "", 0, 1, length);
    turned_back(plan_t, sizeof plan_t, "\x1c\x15", 2, 0, of_data);
    turned_back(plan_t, sizeof plan_t, "\x1c\x15", 2, 2, of_data);
    turned_back(plan_t, sizeof plan_t, "\x1c\x15", 2, 1, row_0);
    turned_back(plan_t, sizeof plan_t, "\x0c\x15", 2, 1, row_1);
    turned_back(plan_t, sizeof plan_t, "\x0c\x05", 2, 1, lost);
    expect("no plan", sheet_read_by_trial(NULL, 0, sheet, 2, &data, 1) == SHEET_PLAN_SHORT);
    expect("no sheet", sheet_read_by_trial(plan_t, sizeof plan_t, NULL, 0, &data, 1) == SHEET_SHEET_LENGTH);
    expect("no data", sheet_read_by_trial(plan_t, sizeof plan_t, sheet, 2, NULL, 0) == SHEET_DATA_LENGTH);
    expect("nothing", sheet_read_by_trial(NULL, 0, NULL, 0, NULL, 0) == SHEET_PLAN_SHORT);
    expect("no byte changes", sheet[0] == 0x03 && sheet[1] == 0x05 && data == 0xaa);
}

/* Eight rows of eight cells, a byte a row, with bursts of 3 by 3: in the first rectangle, inside, and in the last. */
static void eight_by_eight(void) {
    size_t plan_len = sheet_plan_bytes(8, 8, 3, 3, 22, 14), data_len;
    uint8_t *plan = lent(plan_len), *data, sheet[8], scan[8];
    expect("the plan is made", sheet_plan_make(8, 8, 3, 3, 0, 22, 0x39f0d, 14, 0x8f7, plan, plan_len) == SHEET_OK);
    data_len = sheet_plan_data_bytes(plan, plan_len);
    data = lent(data_len);
    for (size_t at = 0; at < data_len; at++) data[at] = (uint8_t)(at * 67 + 5);
    data[data_len - 1] &= 15;
    expect("28 bits of data", sheet_plan_data_bits(plan, plan_len) == 28 && data_len == 4);
    expect("written", sheet_write(plan, plan_len, data, data_len, sheet, 8) == SHEET_OK);
    read_as("clean", plan, plan_len, sheet, 8, SHEET_OK, sheet, data, data_len);
    memcpy(scan, sheet, 8);
    for (size_t row = 0; row < 3; row++) scan[row] ^= 7;
    read_as("the first rectangle", plan, plan_len, scan, 8, mended(9, 0, 0, 3, 3, 0x1ff), sheet, data, data_len);
    memcpy(scan, sheet, 8);
    scan[3] ^= 0x08;
    scan[4] ^= 0x10;
    read_as("two cells inside", plan, plan_len, scan, 8, mended(2, 3, 3, 2, 2, 9), sheet, data, data_len);
    memcpy(scan, sheet, 8);
    for (size_t row = 5; row < 8; row++) scan[row] ^= 0xe0;
    read_as("the last rectangle", plan, plan_len, scan, 8, mended(9, 5, 5, 3, 3, 0x1ff), sheet, data, data_len);
    scan[0] ^= 1;
    read_as("and the first cell", plan, plan_len, scan, 8, SHEET_NOT_MENDABLE, "", "", data_len);
    free(data);
    free(plan);
}

/* Full size, where the patterns are tried that come first: the light sheet, and a burst in the first rectangle. */
static void house(void) {
    size_t plan_len = SHEET_HOUSE_PLAN_BYTES, len;
    uint8_t *plan = lent(plan_len), *sheet;
    expect("the house plan is made", sheet_house_plan(plan, plan_len) == SHEET_OK);
    len = sheet_plan_sheet_bytes(plan, plan_len);
    sheet = lent(len);
    memset(sheet, 0, len);
    expect("clean", read_alike(plan, plan_len, sheet) == SHEET_OK);
    turn(sheet, 0, 1);
    turn(sheet, 2, 2);
    expect("the first rectangle", read_alike(plan, plan_len, sheet) == mended(2, 0, 1, 3, 2, 0x21));
    free(sheet);
    free(plan);
}

int main(void) {
    by_hand();
    every_sheet();
    each_wrong_plan(plan_turned_back);
    refused();
    eight_by_eight();
    house();
    return failed;
}
