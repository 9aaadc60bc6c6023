/*
 * Stacks of sheets from C: in buffers that end where their last sheet does, so that valgrind tells of a byte beyond,
 * and some numbers that nothing has been written to, so that it tells of one left as it was. Headers, offsets and
 * lengths as the functions of sheet.h give them; plans S and T, by hand; each sheet beside sheet_read of it alone;
 * every number that turns a stack back; no sheets, 64 sheets and more; and sheets of the house plan.
 */
#include "expect.h"
#include "plans.h"
#include "sheet.h"

#include <string.h>

/* A plan, and a stack in buffers of its own. */
typedef struct {
    const uint8_t *plan;
    size_t plan_len, count;
    uint8_t *bytes, *numbers, *data;
    size_t bytes_len, numbers_len, data_len;
} stack;

/* The stack of these sheets, which lie one after the other, with a room for each. The data are marked. */
static stack built(const uint8_t *plan, size_t plan_len, const uint8_t *rooms, size_t count, const void *sheets) {
    stack s = {plan, plan_len, count, NULL, NULL, NULL, 0, 0, 0};
    size_t first = sheet_stack_offset(plan, plan_len, count, 0);
    s.bytes_len = sheet_stack_bytes(plan, plan_len, count);
    s.numbers_len = count * SHEET_STACK_NUMBERS;
    s.data_len = count * sheet_plan_data_bytes(plan, plan_len);
    s.bytes = lent(s.bytes_len);
    s.numbers = lent(s.numbers_len);
    s.data = lent(s.data_len);
    sheet_stack_header(plan, plan_len, rooms, count, s.bytes);
    if (count > 0) memcpy(s.bytes + first, sheets, s.bytes_len - first);
    mark(s.data, s.data_len);
    return s;
}

static uint64_t read_stack(stack s) {
    return sheet_read_stack(s.plan, s.plan_len, s.bytes, s.bytes_len, s.numbers, s.numbers_len, s.data, s.data_len);
}

static void end(stack s) {
    free(s.bytes);
    free(s.numbers);
    free(s.data);
}

/* Under S, rooms 0, 1, 1: 03 03 01 is mended to 03 03 00, data 02; 03 00 00 cannot be; 03 83 40 has unused bits. */
static void by_hand_s(void) {
    static const uint8_t rooms[] = {0, 1, 1}, sheets[] = {3, 3, 1, 3, 0, 0, 3, 0x83, 0x40};
    static const uint8_t after[] = {3, 0, 0, 0, 20, 0, 0, 0, 1, 0, 23, 0, 0, 0, 1,
                                    0, 26, 0, 0, 0, 3, 3, 0, 3, 0, 0, 3, 0x83, 0x40};
    static const uint8_t numbers[3 * SHEET_STACK_NUMBERS] = {
        0,  0, 0, 0, 0, 0, 1, 0, 2, 0, 0, 0, 1, 0, 1, 0, 1, 0, /* one cell, at row 2, column 0 */
        14, 0, 0, 0, 0, 0, 0, 0, 0, 0, 0, 0, 0, 0, 0, 0, 0, 0, /* not mendable */
        13, 0, 1, 0, 0, 0, 0, 0, 0, 0, 0, 0, 0, 0, 0, 0, 0, 0, /* an unused bit, in byte 1 of that sheet */
    };
    stack s = built(plan_s, sizeof plan_s, rooms, 3, sheets);
    expect("the length of a stack of S", s.bytes_len == sizeof after);
    expect("the header of a stack of S", same(s.bytes, after, 20));
    mark(s.numbers, s.numbers_len);
    expect("a stack of S", read_stack(s) == SHEET_OK);
    expect("its sheets", same(s.bytes, after, sizeof after));
    expect("its numbers", same(s.numbers, numbers, sizeof numbers));
    expect("its data", s.data[0] == 2 && marked(s.data + 1, 2));
    expect("an answer", sheet_stack_answer(s.numbers, 2) == (SHEET_UNUSED_BIT | 1u << 5));
    end(s);
}

/* Under T, rooms 1, 0: 03 05 is mended to 05 05, data 02; 0a 0a is as written, data 01. */
static void by_hand_t(void) {
    static const uint8_t rooms[] = {1, 0}, sheets[] = {3, 5, 10, 10};
    static const uint8_t after[] = {2, 0, 1, 0, 14, 0, 0, 0, 0, 0, 16, 0, 0, 0, 5, 5, 10, 10};
    static const uint8_t numbers[2 * SHEET_STACK_NUMBERS] = {0, 0, 0, 0, 0, 0, 2, 0, 0, 0, 1, 0, 1, 0, 2, 0, 3, 0};
    stack s = built(plan_t, sizeof plan_t, rooms, 2, sheets);
    expect("a stack of T", s.bytes_len == sizeof after && read_stack(s) == SHEET_OK);
    expect("its sheets", same(s.bytes, after, sizeof after));
    expect("its numbers", same(s.numbers, numbers, sizeof numbers));
    expect("its data", s.data[0] == 2 && s.data[1] == 1);
    end(s);
}

/* Each sheet of a stack is read as sheet_read reads it alone: sheet, numbers and data. The header stays. */
static void as_if_alone(const uint8_t *plan, size_t plan_len, const uint8_t *rooms, size_t count, const void *sheets) {
    stack s = built(plan, plan_len, rooms, count, sheets);
    size_t len = sheet_plan_sheet_bytes(plan, plan_len), data_len = sheet_plan_data_bytes(plan, plan_len);
    size_t first = sheet_stack_offset(plan, plan_len, count, 0);
    uint8_t *header = lent(first), *sheet = lent(len), *data = lent(data_len);
    memcpy(header, s.bytes, first);
    mark(s.numbers, s.numbers_len);
    expect("read as a stack", read_stack(s) == SHEET_OK);
    expect("the header stays", same(s.bytes, header, first));
    for (size_t at = 0; at < count; at++) {
        memcpy(sheet, (const uint8_t *)sheets + at * len, len);
        mark(data, data_len);
        expect("the numbers of a sheet", sheet_read(plan, plan_len, sheet, len, data, data_len) ==
                                             sheet_stack_answer(s.numbers, at));
        expect("a sheet", same(s.bytes + sheet_stack_offset(plan, plan_len, count, at), sheet, len));
        expect("the data of a sheet", same(s.data + at * data_len, data, data_len));
    }
    free(data);
    free(sheet);
    free(header);
    end(s);
}

/* Every sheet of S, unused bits among them, 64 at a time: the bits of a number are those of three rows of four. */
static void every_sheet(void) {
    for (unsigned from = 0; from < 4096; from += SHEET_STACK_SHEETS) {
        uint8_t rooms[SHEET_STACK_SHEETS], sheets[3 * SHEET_STACK_SHEETS];
        for (unsigned at = 0; at < SHEET_STACK_SHEETS; at++) {
            rooms[at] = (uint8_t)(at * 5 % 7 % 2);
            for (unsigned row = 0; row < 3; row++) sheets[3 * at + row] = (from + at) >> 4 * row & 15;
        }
        as_if_alone(plan_s, sizeof plan_s, rooms, SHEET_STACK_SHEETS, sheets);
    }
}

/* These bytes as a stack are turned back, with buffers of these lengths. No byte changes. */
static void turned_back(const uint8_t *plan, size_t plan_len, const void *bytes, size_t len, size_t numbers_len,
                        size_t data_len, refusal r) {
    stack s = {plan, plan_len, 0, lent(len), lent(numbers_len), lent(data_len), len, numbers_len, data_len};
    if (len > 0) memcpy(s.bytes, bytes, len);
    mark(s.numbers, numbers_len);
    mark(s.data, data_len);
    expect("turned back", read_stack(s) == told(r));
    expect("a refusal leaves the stack", same(s.bytes, bytes, len));
    expect("a refusal leaves numbers and data", marked(s.numbers, numbers_len) && marked(s.data, data_len));
    end(s);
}

/* Two sheets of S, both to be mended. */
static const uint8_t two[] = {2, 0, 0, 0, 14, 0, 0, 0, 1, 0, 17, 0, 0, 0, 3, 3, 1, 5, 5, 4};

/* A plan is turned back whatever else is wrong: the header, both lengths. */
static void plan_turned_back(const uint8_t *plan, size_t plan_len, refusal r) {
    turned_back(plan, plan_len, two, sizeof two, 36, 2, r);
    turned_back(plan, plan_len, two, sizeof two - 1, 35, 3, r);
    turned_back(plan, plan_len, "", 0, 0, 0, r);
    turned_back(plan, plan_len, "\0\0", 2, 0, 0, r);
}

static const refusal form = {SHEET_STACK_FORM, 0, 0}, of_numbers = {SHEET_NUMBERS_LENGTH, 0, 0};
static const refusal of_data = {SHEET_DATA_LENGTH, 0, 0};

/* The two sheets with another byte at a place of the header. */
static void altered(size_t at, uint8_t byte) {
    uint8_t bytes[sizeof two];
    memcpy(bytes, two, sizeof two);
    bytes[at] = byte;
    turned_back(plan_s, sizeof plan_s, bytes, sizeof two, 36, 2, form);
    turned_back(plan_s, sizeof plan_s, bytes, sizeof two, 18, 1, form);
}

/* Offsets exchanged; every other byte of the header, but a room that is the other; lengths; then 20, 21 and 12. */
static void refused_stacks(void) {
    static const uint8_t exchanged[] = {2, 0, 0, 0, 17, 0, 0, 0, 1, 0, 14, 0, 0, 0, 3, 3, 1, 5, 5, 4};
    static uint8_t longer[sizeof two + 65536];
    size_t len = sizeof plan_s;
    turned_back(plan_s, len, exchanged, sizeof exchanged, 36, 2, form);
    for (size_t at = 0; at < 14; at++)
        for (unsigned byte = 0; byte < 256; byte++)
            if (byte != two[at] && (byte > 1 || (at != 2 && at != 8))) altered(at, (uint8_t)byte);
    memcpy(longer, two, sizeof two);
    for (size_t cut = 0; cut < sizeof two; cut++) {
        turned_back(plan_s, len, two, cut, 36, 2, form);
        turned_back(plan_s, len, two, cut, 18, 1, form);
    }
    for (size_t more = 1; more <= 4; more++) turned_back(plan_s, len, longer, sizeof two + more, 36, 2, form);
    turned_back(plan_s, len, longer, sizeof longer, 36, 2, form);
    turned_back(plan_s, len, two, sizeof two - 1, 35, 3, form);
    turned_back(plan_s, len, two, sizeof two, 35, 2, of_numbers);
    turned_back(plan_s, len, two, sizeof two, 37, 3, of_numbers);
    turned_back(plan_s, len, two, sizeof two, 0, 0, of_numbers);
    turned_back(plan_s, len, two, sizeof two, 18, 1, of_numbers);
    turned_back(plan_s, len, two, sizeof two, 32, 2, of_numbers);
    turned_back(plan_s, len, two, sizeof two, 36, 1, of_data);
    turned_back(plan_s, len, two, sizeof two, 36, 3, of_data);
    turned_back(plan_s, len, two, sizeof two, 36, 0, of_data);
}

/* The other room is a good one too. */
static void other_rooms(void) {
    static const uint8_t sheets[] = {3, 3, 1, 5, 5, 4};
    for (unsigned both = 0; both < 4; both++) {
        uint8_t rooms[2] = {both & 1, (uint8_t)(both >> 1)};
        as_if_alone(plan_s, sizeof plan_s, rooms, 2, sheets);
    }
}

/* No sheets: two bytes; 64 sheets are taken, and of 65, 256 and 300 the header and the lengths alone are right. */
static void counts(void) {
    static const size_t too_many[] = {65, 256, 300};
    static const uint8_t rooms[300] = {0}, sheets[900] = {0};
    stack none = built(plan_s, sizeof plan_s, NULL, 0, NULL);
    expect("no sheets", none.bytes_len == 2 && none.bytes[0] == 0 && none.bytes[1] == 0);
    expect("no sheets are read", read_stack(none) == SHEET_OK && none.bytes[0] == 0 && none.bytes[1] == 0);
    end(none);
    turned_back(plan_s, sizeof plan_s, "\0\0", 2, 18, 1, of_numbers);
    turned_back(plan_s, sizeof plan_s, "\0\0", 2, 0, 1, of_data);
    turned_back(plan_s, sizeof plan_s, "\0\0\0", 3, 0, 0, form);
    turned_back(plan_s, sizeof plan_s, "\1\0\0\0\10\0\0\0", 8, 0, 0, form); /* a header, and no sheet behind it */
    as_if_alone(plan_s, sizeof plan_s, rooms, 63, sheets);
    as_if_alone(plan_s, sizeof plan_s, rooms, 64, sheets);
    for (size_t at = 0; at < sizeof too_many / sizeof *too_many; at++) {
        stack s = built(plan_s, sizeof plan_s, rooms, too_many[at], sheets);
        mark(s.numbers, s.numbers_len);
        expect("their count", s.bytes[0] == too_many[at] % 256 && s.bytes[1] == too_many[at] / 256);
        expect("too many sheets", read_stack(s) == SHEET_STACK_FORM);
        expect("they change nothing", marked(s.numbers, s.numbers_len) && marked(s.data, s.data_len));
        end(s);
    }
}

/* Offsets and lengths of any plan and any numbers, headers with any rooms, and numbers taken apart. */
static void by_themselves(void) {
    static const uint8_t rooms[] = {1, 0, 255}, large[SHEET_PLAN_HEADER_BYTES] = {0, 2, 0xba, 2};
    static const uint8_t header[] = {3, 0, 1, 0, 20, 0, 0, 0, 0, 0, 0x14, 0xb0, 0, 0, 255, 0, 0x14, 0x60, 1, 0, 0xaa};
    static const uint8_t numbers[3 * SHEET_STACK_NUMBERS] = {
        0,  0, 0,    0,    0,    0,    0,  0, 0, 0, 0,    0, 0, 0, 0, 0, 0,    0,
        14, 0, 0xfe, 0xaf, 0xfd, 0x0a, 0,  0, 0, 0, 0,    0, 0, 0, 0, 0, 0,    0,
        0,  0, 0,    0,    0,    0,    16, 0, 3, 1, 0xb9, 2, 3, 0, 4, 0, 0xfe, 0xca,
    };
    uint8_t bytes[sizeof header], none[4];
    uint64_t refused = sheet_stack_answer(numbers, 1), answer = sheet_stack_answer(numbers, 2);
    expect("offsets of S", sheet_stack_offset(plan_s, sizeof plan_s, 4, 0) == 26 &&
                               sheet_stack_offset(plan_s, sizeof plan_s, 4, 3) == 35);
    expect("offsets at full size", sheet_stack_offset(large, sizeof large, 64, 63) == 386 + 63 * 45056);
    expect("lengths", sheet_stack_bytes(plan_s, sizeof plan_s, 4) == 38 &&
                          sheet_stack_bytes(large, sizeof large, 64) == 386 + 64 * 45056);
    expect("of no plan", sheet_stack_offset(NULL, 0, 3, 2) == 20 && sheet_stack_bytes(NULL, 0, 0) == 2);
    (void)sheet_stack_offset(large, sizeof large, SIZE_MAX, SIZE_MAX);
    mark(bytes, sizeof bytes);
    sheet_stack_header(large, sizeof large, rooms, 3, bytes);
    expect("a header at full size", same(bytes, header, sizeof header));
    mark(none, sizeof none);
    sheet_stack_header(NULL, 0, NULL, 0, none);
    expect("a header of no sheets", none[0] == 0 && none[1] == 0 && marked(none + 2, 2));
    expect("number, p and q of a sheet", sheet_answer_number(refused) == 14 && sheet_answer_p(refused) == 0xaffe &&
                                             sheet_answer_q(refused) == 0xafd && refused >> 33 == 0);
    expect("cells, top and left", sheet_answer_cells(answer) == 16 && sheet_answer_top(answer) == 259 &&
                                      sheet_answer_left(answer) == 697);
    expect("height, width and pattern", sheet_answer_height(answer) == 3 && sheet_answer_width(answer) == 4 &&
                                            sheet_answer_pattern(answer) == 0xcafe && answer >> 51 == 0);
    expect("no number and no places", sheet_answer_number(answer) == 0 && sheet_answer_p(answer) == 0 &&
                                          sheet_answer_q(answer) == 0);
    expect("the sheet before", sheet_stack_answer(numbers, 0) == 0);
}

/* Six sheets at full size: as written, with bursts in the first and the last corner, with two, with an unused bit. */
static void house(void) {
    static const uint8_t rooms[] = {0, 1, 1, 0, 1, 0};
    enum { SHEETS = sizeof rooms };
    uint8_t *plan = lent(SHEET_HOUSE_PLAN_BYTES), *sheets, *data;
    size_t plan_len = SHEET_HOUSE_PLAN_BYTES, len, data_len;
    stack s;
    expect("the house plan is made", sheet_house_plan(plan, plan_len) == SHEET_OK);
    len = sheet_plan_sheet_bytes(plan, plan_len);
    data_len = sheet_plan_data_bytes(plan, plan_len);
    sheets = lent(SHEETS * len);
    data = lent(SHEETS * data_len);
    for (size_t at = 0; at < SHEETS; at++) {
        uint8_t *text = data + at * data_len;
        for (size_t byte = 0; byte < data_len; byte++) text[byte] = (uint8_t)((at + 1) * byte * 37 % 251);
        text[data_len - 1] = 0;
        expect("written", sheet_write(plan, plan_len, text, data_len, sheets + at * len, len) == SHEET_OK);
    }
    turn(sheets + len, 511, 697);
    turn(sheets + len, 509, 695);
    turn(sheets + 2 * len, 300, 300);
    turn(sheets + 2 * len, 303, 300);
    sheets[4 * len - 1] |= 0x80;
    turn(sheets + 5 * len, 0, 0);
    s = built(plan, plan_len, rooms, SHEETS, sheets);
    expect("a stack at full size", read_stack(s) == SHEET_OK);
    for (size_t at = 0; at < SHEETS; at++) {
        int is_refused = at == 2 || at == 3;
        const uint8_t *text = s.data + at * data_len;
        expect("its data", is_refused ? marked(text, data_len) : same(text, data + at * data_len, data_len));
    }
    expect("too many cells", sheet_stack_answer(s.numbers, 2) == SHEET_NOT_MENDABLE);
    expect("unused bits", sheet_stack_answer(s.numbers, 3) == (SHEET_UNUSED_BIT | UINT64_C(45055) << 5));
    expect("a burst", sheet_answer_cells(sheet_stack_answer(s.numbers, 1)) == 2 &&
                          sheet_answer_top(sheet_stack_answer(s.numbers, 1)) == 509 &&
                          sheet_answer_left(sheet_stack_answer(s.numbers, 1)) == 695 &&
                          sheet_answer_pattern(sheet_stack_answer(s.numbers, 1)) == 0x101);
    end(s);
    as_if_alone(plan, plan_len, rooms, SHEETS, sheets);
    free(data);
    free(sheets);
    free(plan);
}

int main(void) {
    by_themselves();
    by_hand_s();
    by_hand_t();
    every_sheet();
    each_wrong_plan(plan_turned_back);
    refused_stacks();
    other_rooms();
    counts();
    house();
    return failed;
}
