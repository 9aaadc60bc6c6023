/*
 * The sums of a run from C: in a buffer that nothing has been written to, so that valgrind tells of a byte that is left
 * as it was, and of a sheet whose last row ends where its buffer does, so that it tells of a row beyond. Plan T, by
 * hand; a sheet of the house plan in several runs; and buffers that are turned back.
 */
#include "expect.h"
#include "plans.h"
#include "sheet.h"

typedef struct {
    const uint8_t *plan;
    size_t plan_len;
    uint8_t *sheet;
    size_t sheet_len;
} scan;

typedef struct {
    uint32_t v, h;
} pair;

/* The sums of a run, which must be taken. */
static pair summed(scan s, uint32_t first, uint32_t past) {
    uint8_t *sums = lent(SHEET_SUMS_BYTES);
    uint64_t answer = sheet_sums(s.plan, s.plan_len, s.sheet, s.sheet_len, first, past, sums, SHEET_SUMS_BYTES);
    pair both = {sheet_sums_v(sums), sheet_sums_h(sums)};
    expect("the run is summed", answer == SHEET_OK);
    free(sums);
    return both;
}

static int is(pair both, uint32_t v, uint32_t h) { return both.v == v && both.h == h; }

/* Buffers that are turned back with this number and place; the sums keep their bytes. */
static void turned_back(scan s, size_t sums_len, unsigned number, unsigned p) {
    uint8_t *sums = lent(sums_len);
    uint64_t answer;
    mark(sums, sums_len);
    answer = sheet_sums(s.plan, s.plan_len, s.sheet, s.sheet_len, 0, 2, sums, sums_len);
    expect("turned back", answer == (number | (uint64_t)p << 5));
    expect("a refusal changes nothing", marked(sums, sums_len));
    free(sums);
}

/* Row 0 of T has V entries 1, 2, 1, 2, row 1 has 4, 8, 4, 8; the columns have H entries 0, 0, 1, 2. */
static void by_hand(void) {
    scan s = {plan_t, sizeof plan_t, lent(2), 2};
    s.sheet[0] = 0x03; /* columns 0 and 1: V 1 ^ 2, H 0 ^ 0 */
    s.sheet[1] = 0x05; /* columns 0 and 2: V 4 ^ 4, H 0 ^ 1 */
    expect("row 0", is(summed(s, 0, 1), 3, 0));
    expect("row 1", is(summed(s, 1, 2), 0, 1));
    expect("both rows", is(summed(s, 0, 2), 3, 1));
    expect("rows past the sheet", is(summed(s, 0, UINT32_MAX), 3, 1) && is(summed(s, 1, 65536), 0, 1));
    expect("no row on the sheet", is(summed(s, 2, 9), 0, 0) && is(summed(s, UINT32_MAX - 1, UINT32_MAX), 0, 0));
    expect("an empty run", is(summed(s, 1, 1), 0, 0) && is(summed(s, 2, 0), 0, 0));
    expect("the sheet is as it was", s.sheet[0] == 0x03 && s.sheet[1] == 0x05);

    turned_back(s, 0, SHEET_SUMS_LENGTH, 0);
    turned_back(s, 1, SHEET_SUMS_LENGTH, 0);
    turned_back(s, 7, SHEET_SUMS_LENGTH, 0);
    turned_back(s, 9, SHEET_SUMS_LENGTH, 0);
    turned_back(s, 16, SHEET_SUMS_LENGTH, 0);
    s.sheet[1] = 0x15;
    turned_back(s, 8, SHEET_UNUSED_BIT, 1);
    turned_back(s, 7, SHEET_UNUSED_BIT, 1);
    s.sheet_len = 1;
    turned_back(s, 7, SHEET_SHEET_LENGTH, 0);
    s.plan_len = SHEET_PLAN_HEADER_BYTES - 1;
    turned_back(s, 7, SHEET_PLAN_SHORT, 0);
    free(s.sheet);
}

/* The sums of the runs between these rows, joined. */
static pair joined(scan s) {
    static const uint32_t cuts[] = {0, 1, 200, 511, 512, 65536, UINT32_MAX};
    pair all = {0, 0};
    for (size_t cut = 1; cut < sizeof cuts / sizeof *cuts; cut++) {
        pair one = summed(s, cuts[cut - 1], cuts[cut]);
        all.v ^= one.v;
        all.h ^= one.h;
    }
    return all;
}

/* A written sheet has sums 0 and 0. With one cell of its last row turned over it has that cell's entries. */
static void house(void) {
    uint8_t *plan = lent(SHEET_HOUSE_PLAN_BYTES), *data;
    scan s = {plan, SHEET_HOUSE_PLAN_BYTES, NULL, 0};
    size_t data_len;
    pair last, all;
    expect("the house plan is made", sheet_house_plan(plan, s.plan_len) == SHEET_OK);
    s.sheet_len = sheet_plan_sheet_bytes(plan, s.plan_len);
    s.sheet = lent(s.sheet_len);
    data_len = sheet_plan_data_bytes(plan, s.plan_len);
    data = lent(data_len);
    for (size_t at = 0; at < data_len; at++) data[at] = (uint8_t)(at * 37 % 251);
    data[data_len - 1] = 0;
    expect("written", sheet_write(plan, s.plan_len, data, data_len, s.sheet, s.sheet_len) == SHEET_OK);
    expect("a written sheet", is(summed(s, 0, 512), 0, 0) && is(joined(s), 0, 0));

    last = summed(s, 511, 512);
    s.sheet[s.sheet_len - 1] ^= 2; /* row 511, column 697: V entry 511 * 3 + 1, H entry 697 * 3 + 1 */
    last.v ^= sheet_sums_v(plan + sheet_plan_field(plan, s.plan_len, 12) + 4 * (511 * 3 + 1));
    last.h ^= sheet_sums_v(plan + sheet_plan_field(plan, s.plan_len, 14) + 4 * (697 * 3 + 1));
    expect("its last row with one cell turned over", is(summed(s, 511, UINT32_MAX), last.v, last.h));
    all = summed(s, 0, 512);
    expect("all rows, joined", is(joined(s), all.v, all.h) && !is(all, 0, 0));
    expect("mended", sheet_answer_cells(sheet_read(plan, s.plan_len, s.sheet, s.sheet_len, data, data_len)) == 1);
    expect("a mended sheet", is(summed(s, 0, 512), 0, 0));
    free(s.sheet);
    free(data);
    free(plan);
}

int main(void) {
    static const uint8_t bytes[SHEET_SUMS_BYTES] = {0x11, 0x22, 0x33, 0x84, 0x55, 0x66, 0x77, 0x88};
    expect("V, low byte first", sheet_sums_v(bytes) == 0x84332211u);
    expect("H, low byte first", sheet_sums_h(bytes) == 0x88776655u);
    by_hand();
    house();
    return failed;
}
