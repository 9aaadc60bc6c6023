/*
 * Sheets by columns from C: in buffers that end where their last column or row does, so that valgrind tells of a byte
 * beyond, and with targets and data that nothing has been written to, so that it tells of a byte left as it was. Plans
 * S and T and one whose columns have two bytes, by hand; every sheet of S beside the calls on sheets by rows; every
 * number that turns something back, in order; lengths as sheet.h tells them; and sheets of the house plan.
 */
#include "expect.h"
#include "plans.h"
#include "sheet.h"

#include <string.h>

/* Nine rows of two cells, bursts of one cell, k is 13: two bytes a column, one byte a row. */
static const uint8_t plan_tall[] = {
    9, 0, 2, 0, 1, 0, 1, 0, 4, 0, 1, 0, 22, 0, 58, 0, 66, 0, 86, 0, 0, 0, /* header */
    1, 0, 0, 0, 2, 0, 0, 0, 3, 0, 0, 0, 4, 0, 0, 0, 5, 0, 0, 0,           /* V */
    6, 0, 0, 0, 7, 0, 0, 0, 8, 0, 0, 0, 9, 0, 0, 0,                       /* V, rows 5 to 8 */
    0, 0, 0, 0, 1, 0, 0, 0,                                               /* H */
    0, 0, 0, 0, 0, 0, 1, 0, 1, 0, 0, 0, 3, 0, 0, 0, 7, 0, 0, 0,           /* check list */
};

static const struct {
    const uint8_t *plan;
    size_t len;
} small[] = {{plan_s, sizeof plan_s}, {plan_t, sizeof plan_t}, {plan_tall, sizeof plan_tall}};

enum { S, T, TALL };

/* A call that has one buffer to read and one to write, beside the plan. */
typedef uint64_t call(const uint8_t *plan, size_t plan_len, const uint8_t *from, size_t from_len, uint8_t *into,
                      size_t into_len);

/* What the call leaves in a buffer of this length that nothing has been written to. It must be taken. */
static uint8_t *left_by(call *f, const uint8_t *plan, size_t plan_len, const void *from, size_t from_len,
                        size_t into_len) {
    uint8_t *source = copied(from, from_len), *into = lent(into_len);
    expect("taken", f(plan, plan_len, source, from_len, into, into_len) == SHEET_OK);
    expect("what is read keeps its bytes", same(source, from, from_len));
    free(source);
    return into;
}

/* The call leaves just these bytes. */
static void leaves(const char *what, call *f, unsigned p, const void *from, size_t from_len, const void *bytes,
                   size_t len) {
    uint8_t *into = left_by(f, small[p].plan, small[p].len, from, from_len, len);
    expect(what, same(into, bytes, len));
    free(into);
}

/* Data, the sheet by rows and the sheet by columns that are written from it, of these lengths. */
static void written_as(unsigned p, const char *data, size_t data_len, const char *rows, size_t rows_len,
                       const char *columns, size_t columns_len) {
    expect("the length by rows", sheet_plan_sheet_bytes(small[p].plan, small[p].len) == rows_len);
    expect("the length by columns", sheet_plan_column_bytes(small[p].plan, small[p].len) == columns_len);
    leaves("written by rows", sheet_write, p, data, data_len, rows, rows_len);
    leaves("written by columns", sheet_write_by_column, p, data, data_len, columns, columns_len);
    leaves("turned by columns", sheet_to_columns, p, rows, rows_len, columns, columns_len);
    leaves("turned by rows", sheet_to_rows, p, columns, columns_len, rows, rows_len);
}

/* A sheet by columns is read with this answer, and mended to this sheet, with this data; or refused with 14. */
static void read_as(unsigned p, const char *sheet, size_t len, uint64_t answer, const char *mended, const char *data,
                    size_t data_len) {
    uint8_t *scan = copied(sheet, len), *text = lent(data_len);
    int is_refused = answer == SHEET_NOT_MENDABLE;
    if (is_refused) mark(text, data_len);
    expect("read by columns",
           sheet_read_by_column(small[p].plan, small[p].len, scan, len, text, data_len) == answer);
    expect("mended by columns", same(scan, is_refused ? sheet : mended, len));
    expect("data by columns", is_refused ? marked(text, data_len) : same(text, data, data_len));
    free(text);
    free(scan);
}

/*
 * The sheets of document 01 with their cells by columns; and of the tall plan the first data bit, (1, 1), which (0, 0),
 * (0, 1) and (1, 0) bring back to sums of 0, and the last, (8, 1), which (0, 1) and (7, 0) do.
 */
static void by_hand(void) {
    written_as(S, "\x01", 1, "\x05\x05\x00", 3, "\x03\x00\x03", 3);
    written_as(S, "\x02", 1, "\x03\x03\x00", 3, "\x03\x03\x00", 3);
    written_as(S, "\x1f", 1, "\x01\x07\x07", 3, "\x07\x06\x06", 3);
    written_as(T, "\x01", 1, "\x0a\x0a", 2, "\x00\x03\x00\x03", 4);
    written_as(T, "\x02", 1, "\x05\x05", 2, "\x03\x00\x03\x00", 4);
    written_as(TALL, "\x01\x00", 2, "\x03\x03\x00\x00\x00\x00\x00\x00\x00", 9, "\x03\x00\x03\x00", 4);
    written_as(TALL, "\x00\x10", 2, "\x02\x00\x00\x00\x00\x00\x00\x01\x02", 9, "\x80\x00\x01\x01", 4);

    read_as(S, "\x03\x03\x00", 3, SHEET_OK, "\x03\x03\x00", "\x02", 1);
    read_as(S, "\x07\x03\x00", 3, mended(1, 2, 0, 1, 1, 1), "\x03\x03\x00", "\x02", 1);
    read_as(S, "\x01\x01\x00", 3, SHEET_NOT_MENDABLE, "", "", 1);
    read_as(T, "\x03\x01\x02\x00", 4, mended(2, 0, 1, 1, 2, 3), "\x03\x00\x03\x00", "\x02", 1);
    read_as(T, "\x02\x00\x03\x01", 4, SHEET_NOT_MENDABLE, "", "", 1);
    read_as(TALL, "\x00\x01\x00\x00", 4, mended(1, 8, 0, 1, 1, 1), "\x00\x00\x00\x00", "\x00\x00", 2);
    read_as(TALL, "\x80\x00\x01\x00", 4, mended(1, 8, 1, 1, 1, 1), "\x80\x00\x01\x01", "\x00\x10", 2);
    read_as(TALL, "\x01\x00\x01\x00", 4, SHEET_NOT_MENDABLE, "", "", 2);
}

/* A sheet by rows of the right form is read alike in both layouts: the answer, the data, and the sheet, turned. */
static uint64_t read_alike(const uint8_t *plan, size_t plan_len, const uint8_t *sheet) {
    size_t len = sheet_plan_sheet_bytes(plan, plan_len), column_len = sheet_plan_column_bytes(plan, plan_len);
    size_t data_len = sheet_plan_data_bytes(plan, plan_len);
    uint8_t *rows = copied(sheet, len), *data = lent(data_len), *text = lent(data_len), *turned;
    uint8_t *columns = left_by(sheet_to_columns, plan, plan_len, sheet, len, column_len);
    uint64_t answer;
    mark(data, data_len);
    mark(text, data_len);
    answer = sheet_read(plan, plan_len, rows, len, data, data_len);
    expect("the answer in both layouts",
           sheet_read_by_column(plan, plan_len, columns, column_len, text, data_len) == answer);
    expect("the data in both layouts", same(text, data, data_len));
    turned = left_by(sheet_to_rows, plan, plan_len, columns, column_len, len);
    expect("the sheet in both layouts", same(turned, rows, len));
    free(turned);
    free(columns);
    free(text);
    free(data);
    free(rows);
    return answer;
}

/* Every sheet of S: the bits of a number are those of three rows of three. Each is turned there and back. */
static void every_sheet(void) {
    unsigned taken = 0;
    for (unsigned bits = 0; bits < 512; bits++) {
        uint8_t rows[3] = {bits & 7, bits >> 3 & 7, (uint8_t)(bits >> 6)}, columns[3] = {0, 0, 0};
        for (unsigned i = 0; i < 3; i++)
            for (unsigned j = 0; j < 3; j++) columns[j] |= (uint8_t)((rows[i] >> j & 1u) << i);
        leaves("a sheet of S by columns", sheet_to_columns, S, rows, 3, columns, 3);
        leaves("a sheet of S by rows", sheet_to_rows, S, columns, 3, rows, 3);
        taken += sheet_answer_number(read_alike(plan_s, sizeof plan_s, rows)) == SHEET_OK;
    }
    expect("each of 32 written sheets, as it is and with one of 9 cells turned over", taken == 320);
}

/* Reading has two buffers to write: as a call with one, on a copy of the sheet, which must keep its bytes. */
static uint64_t read_copy(const uint8_t *plan, size_t plan_len, const uint8_t *from, size_t from_len, uint8_t *into,
                          size_t into_len) {
    uint8_t *sheet = copied(from, from_len);
    uint64_t answer = sheet_read_by_column(plan, plan_len, sheet, from_len, into, into_len);
    expect("a refusal leaves the sheet", same(sheet, from, from_len));
    free(sheet);
    return answer;
}

/* The call turns these bytes and a buffer of this length back, and no byte changes. */
static void turned_back(call *f, const uint8_t *plan, size_t plan_len, const char *from, size_t from_len,
                        size_t into_len, refusal r) {
    uint8_t *source = copied(from, from_len), *into = lent(into_len);
    mark(into, into_len);
    expect("turned back", f(plan, plan_len, source, from_len, into, into_len) == told(r));
    expect("a refusal leaves what is read", same(source, from, from_len));
    expect("a refusal leaves what would be written", marked(into, into_len));
    free(into);
    free(source);
}

static call *const calls[] = {sheet_write_by_column, read_copy, sheet_to_columns, sheet_to_rows};

/* A plan is turned back whatever else is wrong: either length, unused bits. */
static void plan_turned_back(const uint8_t *plan, size_t plan_len, refusal r) {
    for (size_t at = 0; at < sizeof calls / sizeof *calls; at++) {
        turned_back(calls[at], plan, plan_len, "\x03\x03\x00", 3, 3, r);
        turned_back(calls[at], plan, plan_len, "\xff\xff\xff", 3, 1, r);
        turned_back(calls[at], plan, plan_len, "\xff\xff\xff\xff", 4, 2, r);
        turned_back(calls[at], plan, plan_len, "", 0, 0, r);
    }
}

static const refusal length = {SHEET_SHEET_LENGTH, 0, 0}, of_data = {SHEET_DATA_LENGTH, 0, 0};

static refusal unused(unsigned byte) {
    refusal r = {SHEET_UNUSED_BIT, byte, 0};
    return r;
}

/* The call turns back these bytes under a small plan. */
static void refuses(call *f, unsigned p, const char *from, size_t from_len, size_t into_len, refusal r) {
    turned_back(f, small[p].plan, small[p].len, from, from_len, into_len, r);
}

/* Writing: 11, 12 and 13 of the data, each with all that come after it. T has 2 bytes by rows and 4 by columns. */
static void refused_writes(void) {
    refuses(sheet_write_by_column, T, "\x02", 1, 2, length);
    refuses(sheet_write_by_column, T, "\x02", 1, 3, length);
    refuses(sheet_write_by_column, T, "\x02", 1, 5, length);
    refuses(sheet_write_by_column, T, "\xff\xff", 2, 0, length);
    refuses(sheet_write_by_column, TALL, "\x01\x00", 2, 9, length);
    refuses(sheet_write_by_column, TALL, "\x01\x00", 2, 2, length);
    refuses(sheet_write_by_column, T, "", 0, 4, of_data);
    refuses(sheet_write_by_column, T, "\xff\xff", 2, 4, of_data);
    refuses(sheet_write_by_column, T, "\x04", 1, 4, unused(0));
    refuses(sheet_write_by_column, TALL, "\x01\x20", 2, 4, unused(1));
}

/* Reading: 11, 12, 13 and 14. A column of the tall plan uses one bit of its second byte. */
static void refused_reads(void) {
    refuses(read_copy, T, "\x05\x05", 2, 1, length);
    refuses(read_copy, T, "\xff\xff\xff", 3, 2, length);
    refuses(read_copy, T, "\x03\x00\x03\x00\x00", 5, 1, length);
    refuses(read_copy, TALL, "\x00\x00\x00\x00\x00\x00\x00\x00\x00", 9, 2, length);
    refuses(read_copy, T, "\x03\x00\x03\x00", 4, 0, of_data);
    refuses(read_copy, T, "\xff\xff\xff\xff", 4, 2, of_data);
    refuses(read_copy, T, "\x02\x00\x03\x05", 4, 1, unused(3));
    refuses(read_copy, T, "\x02\x80\x07\x05", 4, 1, unused(1));
    refuses(read_copy, T, "\x04\x80\x07\x05", 4, 1, unused(0));
    refuses(read_copy, TALL, "\xff\x02\x00\x00", 4, 2, unused(1));
    refuses(read_copy, TALL, "\xff\x01\x00\x80", 4, 2, unused(3));
    refuses(read_copy, T, "\x02\x00\x03\x01", 4, 1, (refusal){SHEET_NOT_MENDABLE, 0, 0});
}

/* Turning: 11 for the source, 11 for the target, 13 for the source, in its own bytes. */
static void refused_turns(void) {
    refuses(sheet_to_columns, T, "\x00\x03\x00\x03", 4, 2, length);
    refuses(sheet_to_columns, T, "\xff\xff\xff", 3, 4, length);
    refuses(sheet_to_columns, T, "", 0, 4, length);
    refuses(sheet_to_columns, T, "\x0a\x0a", 2, 2, length);
    refuses(sheet_to_columns, T, "\xff\xff", 2, 3, length);
    refuses(sheet_to_columns, T, "\xff\xff", 2, 5, length);
    refuses(sheet_to_columns, T, "\x0a\x1a", 2, 4, unused(1));
    refuses(sheet_to_columns, T, "\x8a\x1a", 2, 4, unused(0));
    refuses(sheet_to_columns, TALL, "\x03\x03\x03\x03\x03\x03\x03\x03\x04", 9, 4, unused(8));
    refuses(sheet_to_rows, T, "\x0a\x0a", 2, 4, length);
    refuses(sheet_to_rows, T, "\xff\xff\xff", 3, 2, length);
    refuses(sheet_to_rows, T, "", 0, 2, length);
    refuses(sheet_to_rows, T, "\x00\x03\x00\x03", 4, 4, length);
    refuses(sheet_to_rows, T, "\xff\xff\xff\xff", 4, 1, length);
    refuses(sheet_to_rows, T, "\xff\xff\xff\xff", 4, 3, length);
    refuses(sheet_to_rows, T, "\x00\x03\x00\x07", 4, 2, unused(3));
    refuses(sheet_to_rows, T, "\x00\x43\x00\x07", 4, 2, unused(1));
    refuses(sheet_to_rows, TALL, "\xff\x01\xff\x03", 4, 9, unused(3));
}

/* Lengths by columns of any plan, and of none. */
static void lengths(void) {
    static const uint8_t large[SHEET_PLAN_HEADER_BYTES] = {0, 2, 0xba, 2}, odd[SHEET_PLAN_HEADER_BYTES] = {1, 2, 9, 0};
    static const uint8_t absurd[SHEET_PLAN_HEADER_BYTES] = {0xff, 0xff, 0xff, 0xff};
    expect("at full size", sheet_plan_column_bytes(large, sizeof large) == 698 * 64);
    expect("rounded up", sheet_plan_column_bytes(odd, sizeof odd) == 9 * 65);
    expect("of no plan", sheet_plan_column_bytes(NULL, 0) == 0);
    expect("of a short plan", sheet_plan_column_bytes(large, SHEET_PLAN_HEADER_BYTES - 1) == 0);
    expect("of an absurd plan", sheet_plan_column_bytes(absurd, sizeof absurd) == (size_t)65535 * 8192);
}

/* Cells of the house plan: 88 bytes a row, 64 bytes a column. */
static int by_rows(const uint8_t *sheet, size_t i, size_t j) { return sheet[i * 88 + j / 8] >> j % 8 & 1; }

static int by_columns(const uint8_t *sheet, size_t i, size_t j) { return sheet[j * 64 + i / 8] >> i % 8 & 1; }

/* Full size: written in both layouts, every cell alike; clean, with bursts, with two, and with an unused bit. */
static void house(void) {
    uint8_t *plan = lent(SHEET_HOUSE_PLAN_BYTES), *data, *rows, *columns;
    size_t plan_len = SHEET_HOUSE_PLAN_BYTES, len, column_len, data_len, alike = 0;
    expect("the house plan is made", sheet_house_plan(plan, plan_len) == SHEET_OK);
    len = sheet_plan_sheet_bytes(plan, plan_len);
    column_len = sheet_plan_column_bytes(plan, plan_len);
    data_len = sheet_plan_data_bytes(plan, plan_len);
    data = lent(data_len);
    for (size_t at = 0; at < data_len; at++) data[at] = (uint8_t)(at * 37 % 251);
    data[data_len - 1] = 0;
    rows = left_by(sheet_write, plan, plan_len, data, data_len, len);
    columns = left_by(sheet_write_by_column, plan, plan_len, data, data_len, column_len);
    for (size_t i = 0; i < 512; i++)
        for (size_t j = 0; j < 698; j++) alike += by_rows(rows, i, j) == by_columns(columns, i, j);
    expect("every cell in both layouts", alike == 512 * 698);

    expect("clean", read_alike(plan, plan_len, rows) == SHEET_OK);
    turn(rows, 511, 697);
    turn(rows, 509, 695);
    expect("the last corner", read_alike(plan, plan_len, rows) == mended(2, 509, 695, 3, 3, 0x101));
    turn(rows, 0, 0);
    expect("two corners", read_alike(plan, plan_len, rows) == SHEET_NOT_MENDABLE);
    rows[88 + 87] |= 4;
    turned_back(sheet_to_columns, plan, plan_len, (const char *)rows, len, column_len, unused(175));
    free(columns);
    free(rows);
    free(data);
    free(plan);
}

int main(void) {
    lengths();
    by_hand();
    every_sheet();
    each_wrong_plan(plan_turned_back);
    refused_writes();
    refused_reads();
    refused_turns();
    house();
    return failed;
}
