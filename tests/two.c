/*
 * Two scans of one film from C: in buffers that end where their last row does, so that valgrind tells of a byte beyond,
 * and data that nothing has been written to, so that it tells of a byte that is left as it was. Plans S and T, by hand;
 * every number that turns something back, and for which scan; the row where two scans first differ, as a part of the
 * second; scans in one buffer; and sheets of the house plan.
 */
#include "expect.h"
#include "plans.h"
#include "sheet.h"

#include <string.h>

/* A plan, and two scans in buffers of their own. */
typedef struct {
    const uint8_t *plan;
    size_t plan_len;
    uint8_t *first;
    size_t first_len;
    uint8_t *second;
    size_t second_len;
} pair;

static pair scans(const uint8_t *plan, size_t plan_len, const char *first, size_t first_len, const char *second,
                  size_t second_len) {
    pair two = {plan, plan_len, copied(first, first_len), first_len, copied(second, second_len), second_len};
    return two;
}

static uint64_t read_two(pair two, uint8_t *data, size_t data_len) {
    return sheet_read_two(two.plan, two.plan_len, two.first, two.first_len, two.second, two.second_len, data, data_len);
}

static sheet_part differ(pair two) {
    return sheet_scans_differ(two.plan, two.plan_len, two.first, two.first_len, two.second, two.second_len);
}

/* The part is just these bytes of the second scan. */
static int lies_at(pair two, sheet_part part, size_t place, size_t length) {
    return part.start == two.second + place && part.length == length;
}

static int is_empty(pair two, sheet_part part) { return part.start == two.second && part.length == 0; }

/* The scans have these bytes still, and are done with. */
static void end(pair two, const char *first, const char *second) {
    expect("the first scan keeps its bytes", two.first_len == 0 || memcmp(two.first, first, two.first_len) == 0);
    expect("the second scan keeps its bytes", two.second_len == 0 || memcmp(two.second, second, two.second_len) == 0);
    free(two.first);
    free(two.second);
}

enum { NONE = 9 };

/* Two scans under S or T give this data, or this number and then no byte changes; and first differ in this row. */
static void comes_to(const uint8_t *plan, size_t plan_len, const char *first, const char *second, unsigned number,
                     uint8_t given, size_t row) {
    size_t len = sheet_plan_sheet_bytes(plan, plan_len);
    pair two = scans(plan, plan_len, first, len, second, len);
    uint8_t *data = lent(1);
    if (number != SHEET_OK) mark(data, 1);
    expect("number of two scans", read_two(two, data, 1) == number);
    expect("data of two scans", number == SHEET_OK ? data[0] == given : marked(data, 1));
    expect("the row that differs", row == NONE ? is_empty(two, differ(two)) : lies_at(two, differ(two), row, 1));
    if (row != NONE) expect("as it lies in the second", differ(two).start[0] == (uint8_t)second[row]);
    free(data);
    end(two, first, second);
}

static void under_s(const char *first, const char *second, unsigned number, uint8_t given, size_t row) {
    comes_to(plan_s, sizeof plan_s, first, second, number, given, row);
}

static void under_t(const char *first, const char *second, unsigned number, uint8_t given, size_t row) {
    comes_to(plan_t, sizeof plan_t, first, second, number, given, row);
}

/* Under S data 02 is written as 03 03 00 and 01 as 05 05 00; 03 00 00 and 06 01 00 cannot be mended. */
static void by_hand_s(void) {
    under_s("\x03\x03\x00", "\x03\x03\x00", SHEET_OK, 2, NONE);
    under_s("\x03\x03\x01", "\x03\x03\x00", SHEET_OK, 2, 2);
    under_s("\x03\x03\x00", "\x03\x03\x01", SHEET_OK, 2, 2);
    under_s("\x03\x03\x01", "\x02\x03\x00", SHEET_OK, 2, 0);
    under_s("\x03\x03\x00", "\x07\x03\x00", SHEET_OK, 2, 0); /* a check cell */
    under_s("\x03\x01\x00", "\x03\x03\x00", SHEET_OK, 2, 1); /* a data cell */
    under_s("\x03\x03\x00", "\x03\x01\x00", SHEET_OK, 2, 1);
    under_s("\x03\x03\x01", "\x03\x00\x00", SHEET_OK, 2, 1);
    under_s("\x03\x00\x00", "\x03\x03\x01", SHEET_OK, 2, 1);
    under_s("\x03\x00\x00", "\x06\x01\x00", SHEET_NOT_MENDABLE, 0, 0);
    under_s("\x03\x00\x00", "\x03\x00\x00", SHEET_NOT_MENDABLE, 0, NONE);
    under_s("\x03\x03\x00", "\x05\x05\x00", SHEET_DATA_DIFFER, 0, 0);
    under_s("\x05\x05\x04", "\x03\x03\x01", SHEET_DATA_DIFFER, 0, 0);
}

/* Under T data 02 is written as 05 05 and 01 as 0a 0a; 0c 05 and 01 01 cannot be mended. */
static void by_hand_t(void) {
    under_t("\x05\x05", "\x05\x05", SHEET_OK, 2, NONE);
    under_t("\x03\x05", "\x05\x05", SHEET_OK, 2, 0);
    under_t("\x03\x05", "\x05\x03", SHEET_OK, 2, 0);
    under_t("\x05\x05", "\x05\x06", SHEET_OK, 2, 1); /* check cells */
    under_t("\x03\x05", "\x0c\x05", SHEET_OK, 2, 0);
    under_t("\x01\x01", "\x03\x05", SHEET_OK, 2, 0);
    under_t("\x0c\x05", "\x01\x01", SHEET_NOT_MENDABLE, 0, 0);
    under_t("\x05\x05", "\x0a\x0a", SHEET_DATA_DIFFER, 0, 0);
    under_t("\x06\x05", "\x06\x0a", SHEET_DATA_DIFFER, 0, 1);
}

/* Two scans that are turned back, with this number and places. No byte changes, and the part is empty. */
static void turned_back(const uint8_t *plan, size_t plan_len, const char *first, size_t first_len, const char *second,
                        size_t second_len, size_t data_len, refusal r) {
    pair two = scans(plan, plan_len, first, first_len, second, second_len);
    uint8_t *data = lent(data_len);
    mark(data, data_len);
    expect("turned back", read_two(two, data, data_len) == told(r));
    expect("a refusal changes nothing", marked(data, data_len));
    expect("an empty part stands for it", r.number == SHEET_DATA_LENGTH || is_empty(two, differ(two)));
    free(data);
    end(two, first, second);
}

/* A plan is turned back whatever else is wrong: the lengths of both scans, the data's. */
static void plan_turned_back(const uint8_t *plan, size_t plan_len, refusal r) {
    turned_back(plan, plan_len, "\x03\x03\x00", 3, "\x03\x03\x01", 3, 1, r);
    turned_back(plan, plan_len, "\xff\xff\xff\xff", 4, "\xff", 1, 3, r);
    turned_back(plan, plan_len, "\xff\xff", 2, "\xff", 1, 0, r);
}

/* In order: 11 for either scan, 12, 13 for the first scan, 13 for the second, each with all that come after it. */
static void refused_scans(void) {
    static const refusal length = {SHEET_SHEET_LENGTH, 0, 0}, of_data = {SHEET_DATA_LENGTH, 0, 0};
    size_t len = sizeof plan_s;
    turned_back(plan_s, len, "", 0, "\x03\x03\x01", 3, 1, length);
    turned_back(plan_s, len, "\x03\x03\x00", 3, "", 0, 1, length);
    turned_back(plan_s, len, "\x03\x03", 2, "\x03\x03\x09", 3, 2, length);
    turned_back(plan_s, len, "\x03\x03\x00\x00", 4, "\x03\x03\x01", 3, 1, length);
    turned_back(plan_s, len, "\x03\x03\x00", 3, "\x03\x03\x01\x00", 4, 1, length);
    turned_back(plan_s, len, "\x03\x03\x00\x00", 4, "\x03\x03\x01\x00", 4, 1, length);
    turned_back(plan_s, len, "\x0b\x03\x00", 3, "\x03\x03\x01\x00", 4, 0, length);
    turned_back(plan_s, len, "\x03\x03\x00\x00", 4, "\x03\x03", 2, 0, length);
    turned_back(plan_s, len, "\x03\x03\x00", 3, "\x03\x03\x01", 3, 0, of_data);
    turned_back(plan_s, len, "\x0b\x03\x00", 3, "\x03\x0b\x00", 3, 2, of_data);
    turned_back(plan_s, len, "\x03\x0b\x00", 3, "\x03\x03\x00", 3, 1, (refusal){SHEET_UNUSED_BIT, 1, 0});
    turned_back(plan_s, len, "\x03\x03\x00", 3, "\x03\x0b\x00", 3, 1, (refusal){SHEET_UNUSED_BIT, 1, 0});
    turned_back(plan_s, len, "\x03\x03\x80", 3, "\x8b\x03\x00", 3, 1, (refusal){SHEET_UNUSED_BIT, 2, 0});
    turned_back(plan_s, len, "\x0b\x03\x80", 3, "\x03\x13\x00", 3, 1, (refusal){SHEET_UNUSED_BIT, 0, 0});
    turned_back(plan_s, len, "\x03\x00\x00", 3, "\x03\x00\x10", 3, 1, (refusal){SHEET_UNUSED_BIT, 2, 0});
    turned_back(plan_s, len, "\x03\x00\x10", 3, "\x03\x00\x00", 3, 1, (refusal){SHEET_UNUSED_BIT, 2, 0});
}

/* One buffer for both scans, and scans that overlap: a film of four rows, from row 0 and from row 1. */
static void one_buffer(void) {
    static const char film[] = "\x03\x03\x00\x00";
    uint8_t *bytes = copied(film, 4), *data = lent(1);
    pair both = {plan_s, sizeof plan_s, bytes, 3, bytes, 3}, later = {plan_s, sizeof plan_s, bytes, 3, bytes + 1, 3};
    expect("one buffer", read_two(both, data, 1) == SHEET_OK && data[0] == 2 && is_empty(both, differ(both)));
    mark(data, 1);
    /* 03 00 00 cannot be mended. */
    expect("overlapping", read_two(later, data, 1) == SHEET_OK && data[0] == 2);
    expect("the second row of the first", lies_at(later, differ(later), 1, 1) && differ(later).start == bytes + 2);
    expect("the film keeps its bytes", memcmp(bytes, film, 4) == 0);
    free(data);
    free(bytes);
}

/* Bursts on either scan or both; data that differ in the last bit; a scan with too many cells wrong. */
static void house(void) {
    uint8_t *plan = lent(SHEET_HOUSE_PLAN_BYTES), *sheet, *data, *back;
    size_t plan_len = SHEET_HOUSE_PLAN_BYTES, len, data_len;
    pair two;
    expect("the house plan is made", sheet_house_plan(plan, plan_len) == SHEET_OK);
    len = sheet_plan_sheet_bytes(plan, plan_len);
    data_len = sheet_plan_data_bytes(plan, plan_len);
    sheet = lent(len);
    data = lent(data_len);
    back = lent(data_len);
    for (size_t at = 0; at < data_len; at++) data[at] = (uint8_t)(at * 37 % 251);
    data[data_len - 1] = 0;
    expect("written", sheet_write(plan, plan_len, data, data_len, sheet, len) == SHEET_OK);
    two = scans(plan, plan_len, (const char *)sheet, len, (const char *)sheet, len);
    expect("no burst", read_two(two, back, data_len) == SHEET_OK && memcmp(back, data, data_len) == 0);
    expect("no row differs", is_empty(two, differ(two)));

    turn(two.second, 511, 697);
    mark(back, data_len);
    expect("the last cell", read_two(two, back, data_len) == SHEET_OK && memcmp(back, data, data_len) == 0);
    expect("the last row", lies_at(two, differ(two), 511 * 88, 88));
    turn(two.second, 509, 695);
    turn(two.first, 0, 0);
    turn(two.first, 2, 2);
    mark(back, data_len);
    expect("two bursts", read_two(two, back, data_len) == SHEET_OK && memcmp(back, data, data_len) == 0);
    expect("the first row", lies_at(two, differ(two), 0, 88) && memcmp(differ(two).start, sheet, 88) == 0);

    turn(two.first, 300, 300); /* the first scan cannot be mended */
    mark(back, data_len);
    expect("the second alone", read_two(two, back, data_len) == SHEET_OK && memcmp(back, data, data_len) == 0);
    turn(two.second, 300, 300); /* nor can the second */
    mark(back, data_len);
    expect("neither", read_two(two, back, data_len) == SHEET_NOT_MENDABLE && marked(back, data_len));
    turn(two.first, 300, 300);
    expect("the first alone", read_two(two, back, data_len) == SHEET_OK && memcmp(back, data, data_len) == 0);

    memcpy(two.second, sheet, len);
    expect("altered", sheet_alter(plan, plan_len, two.second, len, 357339) == SHEET_OK);
    mark(back, data_len);
    expect("the last data bit", read_two(two, back, data_len) == SHEET_DATA_DIFFER && marked(back, data_len));
    two.first[511 * 88 + 87] ^= 0x80;
    two.second[88 + 87] ^= 4;
    expect("unused bits", read_two(two, back, data_len) == (SHEET_UNUSED_BIT | UINT64_C(45055) << 5));
    expect("no part", is_empty(two, differ(two)) && marked(back, data_len));
    free(two.first);
    free(two.second);
    free(back);
    free(data);
    free(sheet);
    free(plan);
}

int main(void) {
    uint64_t difference = UINT64_C(0x5800000afa8);
    expect("a difference taken apart", sheet_difference_place(difference) == 0xafa8 &&
                                           sheet_difference_length(difference) == 0x580);
    expect("none taken apart", sheet_difference_place(0) == 0 && sheet_difference_length(0) == 0);
    expect("all bits of the place", sheet_difference_place(UINT64_C(0x1ffffffff)) == 0xffffffffu);
    by_hand_s();
    by_hand_t();
    each_wrong_plan(plan_turned_back);
    refused_scans();
    one_buffer();
    house();
    return failed;
}
