/*
 * Plans with t of 1 and 2 from C: check 23 and its place, in the test and in the maker; checks 8 and 9 by hand, each
 * with t of 0, 1 and 2; what the maker makes for few cells, and the register that t is handed over in.
 */
#include "expect.h"
#include "plans.h"
#include "sheet.h"

static const refusal fine = {SHEET_OK, 0, 0}, not_few = {SHEET_PLAN_MOST_CELLS, 0, 0};

/* The first bytes of a plan, with this t and with another byte at a place, are tested. */
static void tested(const char *what, const uint8_t *plan, size_t len, size_t t, size_t at, uint8_t byte, refusal r) {
    uint8_t *other = copied(plan, len);
    other[at] = byte;
    sheet_stack_put(other + T_AT, 2, t);
    expect(what, sheet_plan_test(other, len) == told(r));
    free(other);
}

/* T serves for single cells too, and for two, which are all of its burst. W serves for single cells alone. */
static void every_t(void) {
    static const size_t too_many[] = {3, 4, 255, 256, 257, 258, 512, 32768, 65535};
    static const refusal rows = {SHEET_PLAN_ROWS, 0, 1};
    size_t len = sizeof plan_t;
    for (size_t t = 0; t < 3; t++) tested("T, with each t", plan_t, len, t, 0, 2, fine);
    tested("W, any cells", plan_w, sizeof plan_w, 0, 0, 2, rows);
    tested("W, single cells", plan_w, sizeof plan_w, 1, 0, 2, fine);
    tested("W, two cells", plan_w, sizeof plan_w, 2, 0, 2, rows);
    for (size_t at = 0; at < sizeof too_many / sizeof *too_many; at++)
        tested("t over 2", plan_t, len, too_many[at], 0, 2, not_few);
}

/* T with one thing wrong, and what is told of that; with a wrong t too, 2, 3 and 4 are still told, and no other. */
static void place_of_23(void) {
    static const struct {
        size_t len, at;
        uint8_t byte;
        refusal r;
    } wrong[] = {
        {78, 4, 0, {SHEET_PLAN_BURST, 0, 0}},
        {78, 0, 0, {SHEET_PLAN_SIZE, 0, 0}},
        {78, 8, 33, {SHEET_PLAN_WIDTH, 0, 0}},
        {78, 12, 20, {SHEET_PLAN_LENGTH, 0, 0}},
        {77, 0, 2, {SHEET_PLAN_LENGTH, 0, 0}},
        {22, 0, 2, {SHEET_PLAN_LENGTH, 0, 0}},
        {78, 25, 1, {SHEET_PLAN_ENTRY, 0, 0}},
        {78, 54, 2, {SHEET_PLAN_CHECK, 0, 0}},
        {78, 22, 0, {SHEET_PLAN_ROWS, 0, 0}},
        {78, 46, 0, {SHEET_PLAN_COLUMNS, 0, 1}},
        {78, 76, 2, {SHEET_PLAN_DEPENDENT, 5, 0}},
    };
    for (size_t at = 0; at < sizeof wrong / sizeof *wrong; at++) {
        refusal r = wrong[at].r;
        int is_before = r.number <= SHEET_PLAN_WIDTH;
        tested("without 23", plan_t, wrong[at].len, 0, wrong[at].at, wrong[at].byte, r);
        tested("the place of 23", plan_t, wrong[at].len, 3, wrong[at].at, wrong[at].byte, is_before ? r : not_few);
    }
}

/* The numbers of a plan, whose check cells are the first in sheet order. */
typedef struct {
    uint32_t n1, n2, b1, b2, rv, rh, v[8], h[8];
} numbers;

/* The plan of these numbers is tested with this t. */
static void made_of(const char *what, numbers n, size_t t, refusal r) {
    size_t len = sheet_plan_bytes(n.n1, n.n2, n.b1, n.b2, n.rv, n.rh);
    size_t h_at = SHEET_PLAN_HEADER_BYTES + 4 * n.n1 * n.b2, list_at = h_at + 4 * n.n2 * n.b1;
    size_t header[] = {n.n1, n.n2, n.b1, n.b2, n.rv, n.rh, SHEET_PLAN_HEADER_BYTES, h_at, list_at, len, t};
    uint8_t *plan = lent(len);
    for (size_t k = 0; k < 11; k++) sheet_stack_put(plan + 2 * k, 2, header[k]);
    for (size_t k = 0; k < n.n1 * n.b2; k++) sheet_stack_put(plan + SHEET_PLAN_HEADER_BYTES + 4 * k, 4, n.v[k]);
    for (size_t k = 0; k < n.n2 * n.b1; k++) sheet_stack_put(plan + h_at + 4 * k, 4, n.h[k]);
    for (size_t k = 0; k < n.rv + n.rh; k++) {
        sheet_stack_put(plan + list_at + 4 * k, 2, k / n.n2);
        sheet_stack_put(plan + list_at + 4 * k + 2, 2, k % n.n2);
    }
    expect(what, sheet_plan_test(plan, len) == told(r));
    free(plan);
}

/* The same with t of 0, 1 and 2. */
static void each_t(const char *what, numbers n, refusal any, refusal single, refusal two) {
    made_of(what, n, 0, any);
    made_of(what, n, 1, single);
    made_of(what, n, 2, two);
}

/* Of the condition on rows, by hand. In the plan of four rows, with windows of two, the last entry is varied. */
static void rows_by_hand(void) {
    static const numbers same_row = {2, 4, 1, 2, 3, 2, {2, 3, 4, 4}, {2, 3, 1, 2}};
    static const numbers third_row = {3, 2, 1, 2, 5, 1, {1, 2, 4, 8, 16, 16}, {0, 0}};
    static const numbers zero = {2, 2, 1, 2, 3, 1, {1, 2, 0, 4}, {0, 0}};
    static const numbers first_zero = {2, 2, 1, 2, 3, 1, {1, 0, 2, 4}, {0, 0}};
    numbers n = {4, 2, 2, 2, 7, 1, {1, 2, 4, 8, 16, 32, 64, 7}, {0, 0, 0, 1}};
    refusal of_rows = {SHEET_PLAN_ROWS, 0, 1}, apart = {SHEET_PLAN_ROWS, 0, 2}, itself = {SHEET_PLAN_ROWS, 0, 0};
    each_t("equal in row 1", same_row, of_rows, (refusal){SHEET_PLAN_ROWS, 1, 1}, of_rows);
    each_t("equal in row 2", third_row, apart, (refusal){SHEET_PLAN_ROWS, 2, 2}, apart);
    each_t("0 is the sum of no entries", zero, of_rows, of_rows, of_rows);
    each_t("0 in the first window", first_zero, itself, itself, itself);
    each_t("three of one window", n, apart, fine, fine);
    n.v[7] = 3;
    each_t("two of one window", n, apart, fine, apart);
    n.v[7] = 33;
    each_t("one of each window, and a second", n, apart, fine, apart);
    n.v[7] = 16;
    each_t("equal in two rows", n, apart, (refusal){SHEET_PLAN_ROWS, 1, 2}, apart);
}

/* Of the condition on columns. Where it holds, check 10 is told, since it comes after. */
static void columns_by_hand(void) {
    static const numbers zero = {1, 4, 1, 2, 2, 1, {1, 2}, {0, 0, 0, 1}};
    numbers n = {2, 4, 2, 2, 4, 3, {1, 2, 4, 8}, {0, 0, 0, 0, 1, 2, 3, 4}};
    refusal apart = {SHEET_PLAN_COLUMNS, 0, 2}, next = {SHEET_PLAN_COLUMNS, 0, 1}, after = {SHEET_PLAN_DEPENDENT, 6, 0};
    each_t("a member is 0", zero, next, next, next);
    each_t("1, 2 and 3", n, apart, after, after);
    n.h[7] = 3;
    each_t("two members are equal", n, apart, after, apart);
}

/* The maker's answer, in a buffer of this length, which keeps its bytes where the plan is turned back. */
static uint64_t made(uint32_t n1, uint32_t t, uint32_t rv, uint32_t v_low, uint32_t rh, uint32_t h_low, size_t len) {
    uint8_t *plan = lent(len);
    uint64_t answer;
    mark(plan, len);
    answer = sheet_plan_make(n1, 10, 2, 2, t, rv, v_low, rh, h_low, plan, len);
    if (answer != SHEET_OK) expect("a refusal changes nothing", marked(plan, len));
    if (answer == SHEET_OK) expect("what is made", sheet_plan_test(plan, len) == SHEET_OK && plan[T_AT] == t);
    free(plan);
    return answer;
}

/* Sheets of 12 rows and 10 columns, bursts of 2 by 2. In order: 4, 23, 5, 15, 8, 9 and 16. */
static void maker(void) {
    static const uint32_t too_many[] = {3, 255, 256, 65536, 65537, 65538, UINT32_C(0x80000000), UINT32_MAX};
    size_t one = sheet_plan_bytes(12, 10, 2, 2, 5, 3), two = sheet_plan_bytes(12, 10, 2, 2, 8, 5);
    size_t wide = sheet_plan_bytes(12, 10, 2, 2, 9, 5);
    expect("single cells", made(12, 1, 5, 5, 3, 3, one) == SHEET_OK);
    expect("two cells", made(12, 2, 8, 0x19, 5, 3, two) == SHEET_OK);
    for (size_t at = 0; at < sizeof too_many / sizeof *too_many; at++)
        expect("t over 2", made(12, too_many[at], 8, 0x19, 5, 3, two) == SHEET_PLAN_MOST_CELLS);
    expect("after 3", made(1, 3, 8, 0x19, 5, 3, two) == SHEET_PLAN_SIZE);
    expect("after 4", made(12, 3, 33, 0x19, 5, 3, two) == SHEET_PLAN_WIDTH);
    expect("before 5", made(12, 3, 8, 0x19, 5, 3, two + 1) == SHEET_PLAN_MOST_CELLS);
    expect("before 15", made(12, 3, 8, 0x18, 5, 3, two) == SHEET_PLAN_MOST_CELLS);
    expect("5 after it", made(12, 2, 8, 0x18, 5, 3, two - 1) == SHEET_PLAN_LENGTH);
    expect("15 after it", made(12, 2, 8, 0x18, 5, 3, two) == SHEET_PLAN_POLYNOMIAL);
    expect("V for any cells", made(12, 0, 8, 0x19, 5, 3, two) == told((refusal){SHEET_PLAN_ROWS, 0, 5}));
    expect("V for two cells", made(12, 2, 5, 5, 3, 3, one) == told((refusal){SHEET_PLAN_ROWS, 0, 1}));
    expect("H for any cells", made(12, 0, 9, 0x11, 5, 3, wide) == told((refusal){SHEET_PLAN_COLUMNS, 0, 6}));
    expect("H for any cells, and two", made(12, 2, 9, 0x11, 5, 3, wide) == SHEET_OK);
    expect("few cells", made(2, 1, 8, 0x19, 32, 0xc5, sheet_plan_bytes(2, 10, 2, 2, 8, 32)) == SHEET_PLAN_FEW_CELLS);
}

/* A host may leave anything in the upper half of the register that t is handed over in. */
static void upper_half(void) {
    typedef uint64_t by_register(uint32_t, uint32_t, uint32_t, uint32_t, uint64_t, uint32_t, uint32_t, uint32_t,
                                 uint32_t, uint8_t *, size_t);
    by_register *call = (by_register *)(void (*)(void))sheet_plan_make;
    size_t len = sheet_plan_bytes(12, 10, 2, 2, 8, 5);
    uint8_t *plan = lent(len);
    expect("upper half 1", call(12, 10, 2, 2, UINT64_C(0x100000002), 8, 0x19, 5, 3, plan, len) == SHEET_OK);
    expect("t is 2", sheet_plan_field(plan, len, T_AT) == 2);
    expect("upper half all 1", sheet_answer_number(call(12, 10, 2, 2, UINT64_C(0xffffffff00000000), 8, 0x19, 5, 3, plan,
                                                        len)) == SHEET_PLAN_ROWS);
    free(plan);
}

int main(void) {
    every_t();
    place_of_23();
    rows_by_hand();
    columns_by_hand();
    maker();
    upper_half();
    return failed;
}
