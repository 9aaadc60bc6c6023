/*
 * One data bit altered from C: in a sheet whose last row ends where its buffer does, so that valgrind tells of a byte
 * beyond. Plan T, by hand; every number that turns something back, under plan S; the register that the position is
 * handed over in; and sheets of the house plan beside such as are written afresh.
 */
#include "expect.h"
#include "plans.h"
#include "sheet.h"

#include <string.h>

/* The sheet of T with these rows, altered, has these others. */
static void alters(uint8_t row0, uint8_t row1, uint32_t position, uint8_t altered0, uint8_t altered1) {
    uint8_t *sheet = lent(2);
    sheet[0] = row0;
    sheet[1] = row1;
    expect("altered under T", sheet_alter(plan_t, sizeof plan_t, sheet, 2, position) == SHEET_OK);
    expect("the sheet of T", sheet[0] == altered0 && sheet[1] == altered1);
    free(sheet);
}

/* Data bit 0 of T is cell (1, 3), bit 1 is (1, 2): with their check cells 0a 0a and 05 05. */
static void by_hand(void) {
    alters(0x00, 0x00, 0, 0x0a, 0x0a);
    alters(0x00, 0x00, 1, 0x05, 0x05);
    alters(0x0a, 0x0a, 0, 0x00, 0x00);
    alters(0x0a, 0x0a, 1, 0x0f, 0x0f);
    alters(0x05, 0x05, 0, 0x0f, 0x0f);
    alters(0x05, 0x05, 1, 0x00, 0x00);
    alters(0x0f, 0x0f, 0, 0x05, 0x05);
    alters(0x0f, 0x0f, 1, 0x0a, 0x0a);
}

/* A sheet that is turned back, with this number and places; it keeps its bytes. */
static void turned_back(const uint8_t *plan, size_t plan_len, const char *sheet, size_t sheet_len, uint32_t position,
                        refusal r) {
    uint8_t *lent_sheet = lent(sheet_len);
    memcpy(lent_sheet, sheet, sheet_len);
    expect("turned back", sheet_alter(plan, plan_len, lent_sheet, sheet_len, position) == told(r));
    expect("a refusal changes nothing", memcmp(lent_sheet, sheet, sheet_len) == 0);
    free(lent_sheet);
}

/* A plan is turned back whatever else is wrong: the sheet too long, the position past the data. */
static void plan_turned_back(const uint8_t *plan, size_t plan_len, refusal r) {
    turned_back(plan, plan_len, "\x03\x03\x00", 3, 0, r);
    turned_back(plan, plan_len, "\xff\xff\xff\xff", 4, UINT32_MAX, r);
}

/* In order: 11, 13, 17 and 18, each with all that come after it. */
static void refused_sheets(void) {
    static const refusal position = {SHEET_POSITION, 0, 0}, other = {SHEET_NOT_BELONGING, 0, 0};
    size_t len = sizeof plan_s;
    turned_back(plan_s, len, "", 0, 0, (refusal){SHEET_SHEET_LENGTH, 0, 0});
    turned_back(plan_s, len, "\x0b\x03", 2, 5, (refusal){SHEET_SHEET_LENGTH, 0, 0});
    turned_back(plan_s, len, "\x03\x03\x00\x00", 4, 0, (refusal){SHEET_SHEET_LENGTH, 0, 0});
    turned_back(plan_s, len, "\x0b\x03\x00", 3, 0, (refusal){SHEET_UNUSED_BIT, 0, 0});
    turned_back(plan_s, len, "\x03\x83\xff", 3, 5, (refusal){SHEET_UNUSED_BIT, 1, 0});
    turned_back(plan_s, len, "\x03\x00\x10", 3, UINT32_MAX, (refusal){SHEET_UNUSED_BIT, 2, 0});
    turned_back(plan_s, len, "\x03\x03\x00", 3, 5, position);
    turned_back(plan_s, len, "\x03\x03\x01", 3, 6, position);
    turned_back(plan_s, len, "\x03\x03\x00", 3, 65536, position);
    turned_back(plan_s, len, "\x03\x03\x00", 3, UINT32_C(0x80000000), position);
    turned_back(plan_s, len, "\x03\x00\x00", 3, UINT32_MAX, position);
    turned_back(plan_s, len, "\x03\x03\x01", 3, 0, other); /* one burst would mend it */
    turned_back(plan_s, len, "\x03\x00\x00", 3, 4, other); /* V sum 0, H sum 1 */
    turned_back(plan_s, len, "\x01\x00\x00", 3, 4, other); /* V sum 1, H sum 0 */
}

/* A host may leave anything in the upper half of the register that the position is handed over in. */
static void upper_half(void) {
    typedef uint64_t by_register(const uint8_t *, size_t, uint8_t *, size_t, uint64_t);
    by_register *call = (by_register *)(void (*)(void))sheet_alter;
    uint8_t sheet[2] = {0x0a, 0x0a};
    expect("upper half 1", call(plan_t, sizeof plan_t, sheet, 2, UINT64_C(0x100000001)) == SHEET_OK);
    expect("upper half all 1", call(plan_t, sizeof plan_t, sheet, 2, UINT64_C(0xffffffff00000000)) == SHEET_OK);
    expect("both altered", sheet[0] == 0x05 && sheet[1] == 0x05);
    expect("beyond", call(plan_t, sizeof plan_t, sheet, 2, UINT64_C(0xff00000002)) == SHEET_POSITION);
}

/* Positions of the house plan, one after the other, and each time the sheet beside the one written afresh. */
static void house(void) {
    static const uint32_t positions[] = {0, 1, 661, 662, 65535, 65536, 300000, 357339, 1, 262144};
    uint8_t *plan = lent(SHEET_HOUSE_PLAN_BYTES), *sheet, *fresh, *data, *back;
    size_t plan_len = SHEET_HOUSE_PLAN_BYTES, sheet_len, data_len;
    expect("the house plan is made", sheet_house_plan(plan, plan_len) == SHEET_OK);
    expect("its data", sheet_plan_data_bits(plan, plan_len) == 512 * 698 - 36);
    sheet_len = sheet_plan_sheet_bytes(plan, plan_len);
    data_len = sheet_plan_data_bytes(plan, plan_len);
    sheet = lent(sheet_len);
    fresh = lent(sheet_len);
    data = lent(data_len);
    back = lent(data_len);
    for (size_t at = 0; at < data_len; at++) data[at] = (uint8_t)(at * 37 % 251);
    data[data_len - 1] = 0;
    expect("written", sheet_write(plan, plan_len, data, data_len, sheet, sheet_len) == SHEET_OK);
    for (size_t at = 0; at < sizeof positions / sizeof *positions; at++) {
        uint32_t position = positions[at];
        expect("altered", sheet_alter(plan, plan_len, sheet, sheet_len, position) == SHEET_OK);
        data[position / 8] ^= (uint8_t)(1u << position % 8);
        expect("written afresh", sheet_write(plan, plan_len, data, data_len, fresh, sheet_len) == SHEET_OK);
        expect("the same sheet", memcmp(sheet, fresh, sheet_len) == 0);
    }
    expect("nothing to mend", sheet_read(plan, plan_len, sheet, sheet_len, back, data_len) == SHEET_OK);
    expect("the altered data", memcmp(back, data, data_len) == 0);
    turned_back(plan, plan_len, (const char *)fresh, sheet_len, 357340, (refusal){SHEET_POSITION, 0, 0});
    fresh[sheet_len - 1] ^= 2; /* row 511, column 697 */
    turned_back(plan, plan_len, (const char *)fresh, sheet_len, 357339, (refusal){SHEET_NOT_BELONGING, 0, 0});
    free(back);
    free(data);
    free(fresh);
    free(sheet);
    free(plan);
}

int main(void) {
    static const uint8_t few_cells[SHEET_PLAN_HEADER_BYTES] = {1, 0, 1, 0, 1, 0, 1, 0, 1, 0, 1, 0};
    expect("data bits of S and T", sheet_plan_data_bits(plan_s, sizeof plan_s) == 5 &&
                                       sheet_plan_data_bits(plan_t, sizeof plan_t) == 2);
    expect("no data bits", sheet_plan_data_bits(plan_s, SHEET_PLAN_HEADER_BYTES - 1) == 0 &&
                               sheet_plan_data_bits(few_cells, sizeof few_cells) == 0);
    by_hand();
    each_wrong_plan(plan_turned_back);
    refused_sheets();
    upper_half();
    house();
    return failed;
}
