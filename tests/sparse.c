/*
 * Bursts of few cells from C, under plans with t of 1 and 2: a plan for single cells, by hand, and every sheet of it; T
 * with each t; on a sheet of 8 by 8 cells every burst of at most t cells, through every reader, and put back, and every
 * burst of up to three cells that has more; and full size. What is mended ends where its buffer does, so that valgrind
 * tells of a byte beyond.
 */
#include "expect.h"
#include "plans.h"
#include "sheet.h"

#include <string.h>

static const refusal not_a_burst = {SHEET_NOT_A_BURST, 0, 0}, lost = {SHEET_NOT_MENDABLE, 0, 0};

/* A sheet of W is written from the data, and read from the scan with this answer, or turned back. */
static void under_w(uint8_t data, const char *sheet, const char *scan, uint64_t answer) {
    uint8_t *bytes = lent(2), *text = copied(&data, 1);
    expect("taken under W", sheet_write(plan_w, sizeof plan_w, text, 1, bytes, 2) == SHEET_OK);
    expect("written under W", same(bytes, sheet, 2));
    memcpy(bytes, scan, 2);
    mark(text, 1);
    expect("read under W", sheet_read(plan_w, sizeof plan_w, bytes, 2, text, 1) == answer);
    expect("mended under W", same(bytes, answer == SHEET_NOT_MENDABLE ? scan : sheet, 2));
    expect("data under W", answer == SHEET_NOT_MENDABLE ? marked(text, 1) : text[0] == data);
    free(text);
    free(bytes);
}

/* Data bits 0 to 3 are (0, 3), (1, 3), (1, 2) and (1, 0). Of two cells another one may be mended. */
static void w_by_hand(void) {
    under_w(0x01, "\x0f\x00", "\x07\x00", mended(1, 0, 3, 1, 1, 1));
    under_w(0x02, "\x05\x0a", "\x05\x02", mended(1, 1, 3, 1, 1, 1));
    under_w(0x04, "\x06\x04", "\x06\x00", mended(1, 1, 2, 1, 1, 1)); /* or (0, 1) and (0, 2) of the light sheet */
    under_w(0x08, "\x03\x01", "\x03\x01", SHEET_OK);
    under_w(0x08, "\x03\x01", "\x03\x00", mended(1, 1, 0, 1, 1, 1)); /* or (0, 0) and (0, 1) of the light sheet */
    under_w(0x0f, "\x0f\x0f", "\x0f\x07", mended(1, 1, 3, 1, 1, 1));
    under_w(0x00, "\x00\x00", "\x05\x00", SHEET_NOT_MENDABLE);
}

/* Every sheet of W: the bits of a number are those of the rows. What is read is put back, and is one cell at most. */
static void every_sheet(void) {
    unsigned taken = 0;
    for (unsigned bits = 0; bits < 256; bits++) {
        uint8_t scan[2] = {bits & 15, (uint8_t)(bits >> 4)}, sheet[2], data[1];
        uint64_t answer;
        memcpy(sheet, scan, 2);
        answer = sheet_read(plan_w, sizeof plan_w, sheet, 2, data, 1);
        if (answer == told(lost)) continue;
        expect("at most one cell", sheet_answer_number(answer) == SHEET_OK && sheet_answer_cells(answer) <= 1);
        expect("put back", sheet_put_back(plan_w, sizeof plan_w, sheet, 2, answer) == SHEET_OK && same(sheet, scan, 2));
        taken++;
    }
    expect("each of 16 written sheets, as it is and with one of 8 cells turned over", taken == 144);
}

/* Case 6 of document 01 under T with this t: two cells are a burst unless t is 1. */
static void case_6(uint8_t t) {
    uint8_t *plan = copied(plan_t, sizeof plan_t), sheet[2] = {3, 5}, data[1];
    uint64_t two = mended(2, 0, 1, 1, 2, 3), answer;
    plan[T_AT] = t;
    answer = sheet_read(plan, sizeof plan_t, sheet, 2, data, 1);
    expect("case 6", answer == (t == 1 ? told(lost) : two));
    answer = sheet_put_back(plan, sizeof plan_t, sheet, 2, two);
    expect("put back", answer == (t == 1 ? told(not_a_burst) : SHEET_OK) && sheet[0] == 3 && sheet[1] == 5);
    free(plan);
}

enum { SIDE = 8, REACH = 3 };

/* Cells of a sheet of 8 by 8: row r and column c are r * 8 + c, rising. The last ones may be missing. */
typedef struct {
    unsigned count, cells[3];
} burst;

/* The answer that tells of these cells: the smallest rectangle, and the pattern in it. */
static uint64_t answer_of(burst b) {
    unsigned top = 8, left = 8, bottom = 0, right = 0, pattern = 0;
    if (b.count == 0) return SHEET_OK;
    for (unsigned k = 0; k < b.count; k++) {
        unsigned row = b.cells[k] / SIDE, column = b.cells[k] % SIDE;
        top = row < top ? row : top;
        left = column < left ? column : left;
        bottom = row > bottom ? row : bottom;
        right = column > right ? column : right;
    }
    for (unsigned k = 0; k < b.count; k++)
        pattern |= 1u << ((b.cells[k] / SIDE - top) * (right - left + 1) + b.cells[k] % SIDE - left);
    return mended(b.count, top, left, bottom - top + 1, right - left + 1, pattern);
}

static void turned_over(uint8_t *sheet, burst b) {
    for (unsigned k = 0; k < b.count; k++) sheet[b.cells[k] / SIDE] ^= (uint8_t)(1u << b.cells[k] % SIDE);
}

/* Both cells are in one rectangle of 3 by 3. */
static int are_near(unsigned one, unsigned other) {
    int rows = (int)(one / SIDE) - (int)(other / SIDE), columns = (int)(one % SIDE) - (int)(other % SIDE);
    return rows > -REACH && rows < REACH && columns > -REACH && columns < REACH;
}

/* Hands over every burst of just so many cells inside a rectangle of 3 by 3, and tells how many they are. */
static unsigned each_burst(unsigned count, void (*hand_over)(burst)) {
    unsigned bursts = 0, cells = SIDE * SIDE;
    for (unsigned a = 0; a < (count > 0 ? cells : 1); a++)
        for (unsigned b = count > 1 ? a + 1 : 0; b < (count > 1 ? cells : 1); b++)
            for (unsigned c = count > 2 ? b + 1 : 0; c < (count > 2 ? cells : 1); c++) {
                burst one = {count, {a, b, c}};
                if ((count > 1 && !are_near(a, b)) || (count > 2 && !(are_near(a, c) && are_near(b, c)))) continue;
                hand_over(one);
                bursts++;
            }
    return bursts;
}

/* The plan for the sheet of 8 by 8, a sheet written under it, and its data. */
static uint8_t *plan8, sheet8[8], *data8;
static size_t len8, data_len8;
static unsigned refused8, other8;

/* A scan of the sheet with this burst is read by every reader as it was written, and put back. */
static void mends(burst b) {
    static const uint8_t room = 1;
    uint64_t expected = answer_of(b);
    uint8_t scan[8], other[8], numbers[SHEET_STACK_NUMBERS];
    uint8_t *sheet, *columns = lent(8), *stack = lent(16), *data = lent(data_len8);
    memcpy(scan, sheet8, 8);
    turned_over(scan, b);
    memcpy(other, sheet8, 8);
    turned_over(other, (burst){1, {63, 0, 0}});
    sheet = copied(scan, 8);
    expect("read", sheet_read(plan8, len8, sheet, 8, data, data_len8) == expected);
    expect("as written", same(sheet, sheet8, 8) && same(data, data8, data_len8));
    expect("put back", sheet_put_back(plan8, len8, sheet, 8, expected) == SHEET_OK && same(sheet, scan, 8));
    mark(data, data_len8);
    expect("by trial", sheet_read_by_trial(plan8, len8, sheet, 8, data, data_len8) == expected);
    expect("as written, by trial", same(sheet, sheet8, 8) && same(data, data8, data_len8));
    mark(data, data_len8);
    expect("two scans", sheet_read_two(plan8, len8, scan, 8, other, 8, data, data_len8) == SHEET_OK);
    expect("the data of two", same(data, data8, data_len8));
    expect("turned", sheet_to_columns(plan8, len8, scan, 8, columns, 8) == SHEET_OK);
    mark(data, data_len8);
    expect("by columns", sheet_read_by_column(plan8, len8, columns, 8, data, data_len8) == expected);
    expect("turned back", sheet_to_rows(plan8, len8, columns, 8, sheet, 8) == SHEET_OK && same(sheet, sheet8, 8));
    expect("the data by columns", same(data, data8, data_len8));
    sheet_stack_header(plan8, len8, &room, 1, stack);
    memcpy(stack + 8, scan, 8);
    mark(data, data_len8);
    expect("a stack", sheet_read_stack(plan8, len8, stack, 16, numbers, sizeof numbers, data, data_len8) == SHEET_OK);
    expect("its sheet", sheet_stack_answer(numbers, 0) == expected && same(stack + 8, sheet8, 8));
    expect("its data", same(data, data8, data_len8));
    free(data);
    free(stack);
    free(columns);
    free(sheet);
}

/* The other readers answer of a scan what sheet_read does; two such scans are taken, or turned back as it is. */
static void read_alike(const uint8_t *scan, uint64_t answer) {
    static const uint8_t room = 0;
    uint8_t sheet[8], columns[8], stack[16], numbers[SHEET_STACK_NUMBERS], *data = lent(data_len8);
    memcpy(sheet, scan, 8);
    expect("alike by trial", sheet_read_by_trial(plan8, len8, sheet, 8, data, data_len8) == answer);
    expect("alike, two scans", sheet_read_two(plan8, len8, scan, 8, scan, 8, data, data_len8) ==
                                   (answer == told(lost) ? answer : SHEET_OK));
    expect("turned", sheet_to_columns(plan8, len8, scan, 8, columns, 8) == SHEET_OK);
    expect("alike by columns", sheet_read_by_column(plan8, len8, columns, 8, data, data_len8) == answer);
    sheet_stack_header(plan8, len8, &room, 1, stack);
    memcpy(stack + 8, scan, 8);
    expect("a stack", sheet_read_stack(plan8, len8, stack, 16, numbers, sizeof numbers, data, data_len8) == SHEET_OK);
    expect("alike in a stack", sheet_stack_answer(numbers, 0) == answer);
    free(data);
}

/* More cells than t: turned back with 14, or taken for another sheet, with at most t mended. They can't be put back. */
static void does_not_mend(burst b) {
    size_t t = sheet_plan_field(plan8, len8, T_AT);
    uint8_t scan[8], sheet[8], *data = lent(data_len8);
    uint64_t answer;
    memcpy(scan, sheet8, 8);
    turned_over(scan, b);
    memcpy(sheet, scan, 8);
    expect("more than t", sheet_put_back(plan8, len8, sheet, 8, answer_of(b)) == told(not_a_burst));
    expect("nothing is put back", same(sheet, scan, 8));
    answer = sheet_read(plan8, len8, sheet, 8, data, data_len8);
    refused8 += answer == told(lost);
    other8 += sheet_answer_number(answer) == SHEET_OK;
    expect("at most t are mended", answer == told(lost) ? same(sheet, scan, 8) : sheet_answer_cells(answer) <= t);
    expect("another sheet", !same(sheet, sheet8, 8));
    read_alike(scan, answer);
    free(data);
}

/* Bursts in 3 by 3: none, 64 cells alone, 546 pairs; and 1,924 of three cells. */
static void eight_by_eight(uint32_t t, uint32_t rv, uint32_t v_low, uint32_t rh, uint32_t h_low) {
    unsigned bursts = 0, more = 0;
    len8 = sheet_plan_bytes(8, 8, 3, 3, rv, rh);
    plan8 = lent(len8);
    expect("made", sheet_plan_make(8, 8, 3, 3, t, rv, v_low, rh, h_low, plan8, len8) == SHEET_OK);
    data_len8 = sheet_plan_data_bytes(plan8, len8);
    data8 = lent(data_len8);
    for (size_t at = 0; at < data_len8; at++) data8[at] = (uint8_t)(at * 67 + 5);
    data8[data_len8 - 1] = 1;
    expect("written", sheet_write(plan8, len8, data8, data_len8, sheet8, 8) == SHEET_OK);
    for (unsigned count = 0; count <= t; count++) bursts += each_burst(count, mends);
    expect("how many bursts", bursts == (t == 1 ? 65 : 611));
    refused8 = other8 = 0;
    for (unsigned count = t + 1; count <= 3; count++) more += each_burst(count, does_not_mend);
    expect("how many with more cells", more == (t == 1 ? 546 : 0) + 1924);
    expect("some are refused, some mended otherwise", refused8 > 0 && other8 > 0 && refused8 + other8 == more);
    expect("altered", sheet_alter(plan8, len8, sheet8, 8, 0) == SHEET_OK);
    data8[0] ^= 1;
    mends((burst){1, {27, 0, 0}});
    free(data8);
    free(plan8);
}

/* Full size, bursts of 4 by 4 with at most two cells: in the corners and amid the sheet; and a third cell. */
static void full_size(void) {
    static const size_t corners[][2] = {{0, 0}, {0, 694}, {508, 0}, {508, 694}, {255, 300}};
    size_t plan_len = sheet_plan_bytes(512, 698, 4, 4, 16, 10), len, data_len;
    uint8_t *plan = lent(plan_len), *sheet, *scan, *data, *back;
    expect("made", sheet_plan_make(512, 698, 4, 4, 2, 16, 0x1cd9, 10, 0x123, plan, plan_len) == SHEET_OK);
    expect("accepted", sheet_plan_test(plan, plan_len) == SHEET_OK);
    len = sheet_plan_sheet_bytes(plan, plan_len);
    data_len = sheet_plan_data_bytes(plan, plan_len);
    sheet = lent(len);
    data = lent(data_len);
    back = lent(data_len);
    for (size_t at = 0; at < data_len; at++) data[at] = (uint8_t)(at * 37 % 251);
    data[data_len - 1] = 0;
    expect("written", sheet_write(plan, plan_len, data, data_len, sheet, len) == SHEET_OK);
    scan = copied(sheet, len);
    for (size_t at = 0; at < sizeof corners / sizeof *corners; at++) {
        unsigned top = (unsigned)corners[at][0], left = (unsigned)corners[at][1];
        turn(scan, top, left + 3);
        turn(scan, top + 3, left);
        expect("read", sheet_read(plan, plan_len, scan, len, back, data_len) == mended(2, top, left, 4, 4, 0x1008));
        expect("as written", same(scan, sheet, len) && same(back, data, data_len));
        mark(back, data_len);
    }
    expect("three cells",
           sheet_put_back(plan, plan_len, scan, len, mended(3, 0, 0, 4, 4, 0x8009)) == told(not_a_burst));
    free(scan);
    free(back);
    free(data);
    free(sheet);
    free(plan);
}

int main(void) {
    w_by_hand();
    every_sheet();
    for (uint8_t t = 0; t < 3; t++) case_6(t);
    eight_by_eight(1, 6, 0x3, 5, 0x5);
    eight_by_eight(2, 10, 0x17, 7, 0x3);
    full_size();
    return failed;
}
