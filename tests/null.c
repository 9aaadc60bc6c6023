/*
 * Null where the length is 0: every call, each buffer in turn and all at once. Plan N holds no data, so that calls with
 * null data succeed under it. A host that asks malloc for that data's bytes may get null.
 */
#include "expect.h"
#include "plans.h"
#include "sheet.h"

/* One row of two cells, both check cells: k is 0. */
static const uint8_t plan_n[] = {
    1, 0, 2, 0, 1, 0, 1, 0, 1, 0, 1, 0, 22, 0, 26, 0, 34, 0, 42, 0, 0, 0, /* header */
    1, 0, 0, 0,                                                           /* V */
    0, 0, 0, 0, 1, 0, 0, 0,                                               /* H */
    0, 0, 0, 0, 0, 0, 1, 0,                                               /* check list */
};

static int answers(uint64_t answer, unsigned number) { return answer == number; }

static int is_empty(sheet_part part, const uint8_t *second) { return part.length == 0 && part.start == second; }

int main(void) {
    uint8_t sheet[3] = {0xaa, 0xaa, 0xaa}, scan[3] = {1, 0, 0}, data[1] = {0}, sums[SHEET_SUMS_BYTES] = {0xaa};
    uint8_t no_sheets[2] = {0, 0}, stack[9] = {1, 0, 1, 0, 8, 0, 0, 0, 2}, numbers[SHEET_STACK_NUMBERS] = {0xaa};
    uint8_t *none = malloc(sheet_plan_data_bytes(plan_n, sizeof plan_n));
    size_t n = sizeof plan_n, s = sizeof plan_s;
    uint64_t answer;

    expect("sizes of no plan", sheet_plan_sheet_bytes(NULL, 0) == 0 && sheet_plan_column_bytes(NULL, 0) == 0 &&
                                   sheet_plan_data_bytes(NULL, 0) == 0 && sheet_plan_data_bits(NULL, 0) == 0);
    expect("plan N has no data", sheet_plan_data_bytes(plan_n, sizeof plan_n) == 0 &&
                                     sheet_plan_data_bits(plan_n, sizeof plan_n) == 0);

    expect("test, no plan", answers(sheet_plan_test(NULL, 0), SHEET_PLAN_SHORT));
    expect("test, plan N", answers(sheet_plan_test(plan_n, sizeof plan_n), SHEET_OK));

    expect("make, no plan", answers(sheet_plan_make(3, 3, 1, 1, 0, 2, 3, 2, 3, NULL, 0), SHEET_PLAN_LENGTH));
    expect("make, no plan, no burst", answers(sheet_plan_make(3, 3, 0, 1, 0, 2, 3, 2, 3, NULL, 0), SHEET_PLAN_BURST));
    expect("make, no plan, no rows", answers(sheet_plan_make(0, 3, 1, 1, 0, 2, 3, 2, 3, NULL, 0), SHEET_PLAN_SIZE));
    expect("make, no plan, no width", answers(sheet_plan_make(3, 3, 1, 1, 0, 0, 3, 2, 3, NULL, 0), SHEET_PLAN_WIDTH));
    expect("make, no plan, t", answers(sheet_plan_make(3, 3, 1, 1, 3, 2, 3, 2, 3, NULL, 0), SHEET_PLAN_MOST_CELLS));
    expect("house plan, no plan", answers(sheet_house_plan(NULL, 0), SHEET_PLAN_LENGTH));

    expect("write, no plan", answers(sheet_write(NULL, 0, data, 1, sheet, 3), SHEET_PLAN_SHORT));
    expect("write, nothing", answers(sheet_write(NULL, 0, NULL, 0, NULL, 0), SHEET_PLAN_SHORT));
    expect("write, no sheet", answers(sheet_write(plan_s, sizeof plan_s, data, 1, NULL, 0), SHEET_SHEET_LENGTH));
    expect("write, no data", answers(sheet_write(plan_s, sizeof plan_s, NULL, 0, sheet, 3), SHEET_DATA_LENGTH));
    expect("write, neither", answers(sheet_write(plan_n, sizeof plan_n, NULL, 0, NULL, 0), SHEET_SHEET_LENGTH));
    expect("a refusal changes nothing", marked(sheet, 3));
    expect("write, k = 0", answers(sheet_write(plan_n, sizeof plan_n, NULL, 0, sheet, 1), SHEET_OK));
    expect("the sheet is written", sheet[0] == 0 && sheet[1] == 0xaa);

    expect("read, no plan", answers(sheet_read(NULL, 0, sheet, 1, data, 1), SHEET_PLAN_SHORT));
    expect("read, nothing", answers(sheet_read(NULL, 0, NULL, 0, NULL, 0), SHEET_PLAN_SHORT));
    expect("read, no sheet", answers(sheet_read(plan_s, sizeof plan_s, NULL, 0, data, 1), SHEET_SHEET_LENGTH));
    expect("read, no data", answers(sheet_read(plan_s, sizeof plan_s, sheet, 3, NULL, 0), SHEET_DATA_LENGTH));
    expect("read, neither", answers(sheet_read(plan_n, sizeof plan_n, NULL, 0, NULL, 0), SHEET_SHEET_LENGTH));
    expect("read, k = 0, clean", answers(sheet_read(plan_n, sizeof plan_n, sheet, 1, NULL, 0), SHEET_OK));
    sheet[0] = 2;
    answer = sheet_read(plan_n, sizeof plan_n, sheet, 1, NULL, 0);
    expect("read, k = 0, one cell", sheet_answer_number(answer) == SHEET_OK && sheet_answer_cells(answer) == 1 &&
                                        sheet_answer_top(answer) == 0 && sheet_answer_left(answer) == 1);
    expect("the sheet is mended", sheet[0] == 0 && sheet[1] == 0xaa);

    expect("sums, no plan", answers(sheet_sums(NULL, 0, sheet, 1, 0, 1, sums, 8), SHEET_PLAN_SHORT));
    expect("sums, nothing", answers(sheet_sums(NULL, 0, NULL, 0, 0, 1, NULL, 0), SHEET_PLAN_SHORT));
    expect("sums, no sheet", answers(sheet_sums(plan_n, sizeof plan_n, NULL, 0, 0, 1, sums, 8), SHEET_SHEET_LENGTH));
    expect("sums, neither", answers(sheet_sums(plan_n, sizeof plan_n, NULL, 0, 0, 1, NULL, 0), SHEET_SHEET_LENGTH));
    expect("sums, no sums", answers(sheet_sums(plan_n, sizeof plan_n, sheet, 1, 0, 1, NULL, 0), SHEET_SUMS_LENGTH));
    expect("sums, no rows", answers(sheet_sums(plan_n, sizeof plan_n, sheet, 1, 1, 0, NULL, 0), SHEET_SUMS_LENGTH));
    expect("a refusal changes no sums", sums[0] == 0xaa && sheet_sums_h(sums) == 0);

    expect("alter, no plan", answers(sheet_alter(NULL, 0, sheet, 1, 0), SHEET_PLAN_SHORT));
    expect("alter, nothing", answers(sheet_alter(NULL, 0, NULL, 0, 0), SHEET_PLAN_SHORT));
    expect("alter, no sheet", answers(sheet_alter(plan_s, sizeof plan_s, NULL, 0, 0), SHEET_SHEET_LENGTH));
    expect("alter, neither", answers(sheet_alter(plan_n, sizeof plan_n, NULL, 0, 0), SHEET_SHEET_LENGTH));
    expect("alter, k = 0", answers(sheet_alter(plan_n, sizeof plan_n, sheet, 1, 0), SHEET_POSITION));
    expect("a refusal leaves the sheet", sheet[0] == 0 && sheet[1] == 0xaa);

    expect("two, no plan", answers(sheet_read_two(NULL, 0, sheet, 1, sheet, 1, data, 1), SHEET_PLAN_SHORT));
    expect("two, nothing", answers(sheet_read_two(NULL, 0, NULL, 0, NULL, 0, NULL, 0), SHEET_PLAN_SHORT));
    expect("two, no scans", answers(sheet_read_two(plan_n, n, NULL, 0, NULL, 0, NULL, 0), SHEET_SHEET_LENGTH));
    expect("two, no first", answers(sheet_read_two(plan_n, n, NULL, 0, sheet, 1, NULL, 0), SHEET_SHEET_LENGTH));
    expect("two, no second", answers(sheet_read_two(plan_n, n, sheet, 1, NULL, 0, NULL, 0), SHEET_SHEET_LENGTH));
    expect("two, no data", answers(sheet_read_two(plan_s, s, scan, 3, scan, 3, NULL, 0), SHEET_DATA_LENGTH));
    expect("two, k = 0", answers(sheet_read_two(plan_n, n, sheet, 1, sheet, 1, NULL, 0), SHEET_OK));
    expect("difference, nothing", is_empty(sheet_scans_differ(NULL, 0, NULL, 0, NULL, 0), NULL));
    expect("difference, no plan", is_empty(sheet_scans_differ(NULL, 0, sheet, 1, scan, 1), scan));
    expect("difference, no scans", is_empty(sheet_scans_differ(plan_n, n, NULL, 0, NULL, 0), NULL));
    expect("difference, no first", is_empty(sheet_scans_differ(plan_n, n, NULL, 0, scan, 1), scan));
    expect("difference, no second", is_empty(sheet_scans_differ(plan_n, n, scan, 1, NULL, 0), NULL));
    expect("the scans are left alone", sheet[0] == 0 && sheet[1] == 0xaa && scan[0] == 1 && scan[2] == 0);

    expect("stack, no plan", answers(sheet_read_stack(NULL, 0, stack, 9, numbers, 18, NULL, 0), SHEET_PLAN_SHORT));
    expect("stack, nothing", answers(sheet_read_stack(NULL, 0, NULL, 0, NULL, 0, NULL, 0), SHEET_PLAN_SHORT));
    expect("stack, plan alone", answers(sheet_read_stack(plan_n, n, NULL, 0, NULL, 0, NULL, 0), SHEET_STACK_FORM));
    expect("stack, no stack", answers(sheet_read_stack(plan_n, n, NULL, 0, numbers, 18, NULL, 0), SHEET_STACK_FORM));
    expect("stack, no numbers", answers(sheet_read_stack(plan_n, n, stack, 9, NULL, 0, NULL, 0), SHEET_NUMBERS_LENGTH));
    expect("stack, no sheets", answers(sheet_read_stack(plan_n, n, no_sheets, 2, NULL, 0, NULL, 0), SHEET_OK));
    expect("stack, no sheets of S", answers(sheet_read_stack(plan_s, s, no_sheets, 2, NULL, 0, NULL, 0), SHEET_OK));
    expect("a refusal leaves the stack", stack[8] == 2 && numbers[0] == 0xaa && numbers[1] == 0);
    expect("stack, k = 0", answers(sheet_read_stack(plan_n, n, stack, 9, numbers, 18, NULL, 0), SHEET_OK));
    expect("its sheet is mended", stack[8] == 0 && sheet_answer_cells(sheet_stack_answer(numbers, 0)) == 1);
    expect("a header of no sheets", sheet_stack_bytes(NULL, 0, 0) == 2);
    sheet_stack_header(NULL, 0, NULL, 0, no_sheets);
    expect("has two bytes", no_sheets[0] == 0 && no_sheets[1] == 0);

    expect("columns, no plan", answers(sheet_write_by_column(NULL, 0, data, 1, sheet, 3), SHEET_PLAN_SHORT));
    expect("columns, nothing", answers(sheet_write_by_column(NULL, 0, NULL, 0, NULL, 0), SHEET_PLAN_SHORT));
    expect("columns, no sheet", answers(sheet_write_by_column(plan_s, s, data, 1, NULL, 0), SHEET_SHEET_LENGTH));
    expect("columns, no data", answers(sheet_write_by_column(plan_s, s, NULL, 0, scan, 3), SHEET_DATA_LENGTH));
    expect("columns, neither", answers(sheet_write_by_column(plan_n, n, NULL, 0, NULL, 0), SHEET_SHEET_LENGTH));
    expect("a refusal leaves the columns", scan[0] == 1 && scan[1] == 0 && scan[2] == 0);
    expect("columns, k = 0", answers(sheet_write_by_column(plan_n, n, NULL, 0, scan, 2), SHEET_OK) && scan[0] == 0);

    expect("columns read, no plan", answers(sheet_read_by_column(NULL, 0, scan, 2, data, 1), SHEET_PLAN_SHORT));
    expect("columns read, nothing", answers(sheet_read_by_column(NULL, 0, NULL, 0, NULL, 0), SHEET_PLAN_SHORT));
    expect("columns read, no sheet", answers(sheet_read_by_column(plan_s, s, NULL, 0, data, 1), SHEET_SHEET_LENGTH));
    expect("columns read, no data", answers(sheet_read_by_column(plan_s, s, scan, 3, NULL, 0), SHEET_DATA_LENGTH));
    expect("columns read, neither", answers(sheet_read_by_column(plan_n, n, NULL, 0, NULL, 0), SHEET_SHEET_LENGTH));
    scan[1] = 1;
    answer = sheet_read_by_column(plan_n, n, scan, 2, NULL, 0);
    expect("columns read, k = 0", sheet_answer_cells(answer) == 1 && sheet_answer_left(answer) == 1 && scan[1] == 0);

    expect("trial, no plan", answers(sheet_read_by_trial(NULL, 0, sheet, 1, data, 1), SHEET_PLAN_SHORT));
    expect("trial, nothing", answers(sheet_read_by_trial(NULL, 0, NULL, 0, NULL, 0), SHEET_PLAN_SHORT));
    expect("trial, no sheet", answers(sheet_read_by_trial(plan_s, s, NULL, 0, data, 1), SHEET_SHEET_LENGTH));
    expect("trial, no data", answers(sheet_read_by_trial(plan_s, s, scan, 3, NULL, 0), SHEET_DATA_LENGTH));
    expect("trial, neither", answers(sheet_read_by_trial(plan_n, n, NULL, 0, NULL, 0), SHEET_SHEET_LENGTH));
    sheet[0] = 2;
    answer = sheet_read_by_trial(plan_n, n, sheet, 1, NULL, 0);
    expect("trial, k = 0", sheet_answer_cells(answer) == 1 && sheet_answer_left(answer) == 1 && sheet[0] == 0);

    expect("put back, no plan", answers(sheet_put_back(NULL, 0, sheet, 1, answer), SHEET_PLAN_SHORT));
    expect("put back, nothing", answers(sheet_put_back(NULL, 0, NULL, 0, answer), SHEET_PLAN_SHORT));
    expect("put back, no sheet", answers(sheet_put_back(plan_s, s, NULL, 0, 0), SHEET_SHEET_LENGTH));
    expect("put back, neither", answers(sheet_put_back(plan_n, n, NULL, 0, 1), SHEET_SHEET_LENGTH));
    expect("a refusal puts nothing back", sheet[0] == 0 && sheet[1] == 0xaa);
    expect("put back, k = 0", answers(sheet_put_back(plan_n, n, sheet, 1, answer), SHEET_OK) && sheet[0] == 2);
    expect("put back twice", answers(sheet_put_back(plan_n, n, sheet, 1, answer), SHEET_OK) && sheet[0] == 0);

    expect("turned, no plan", answers(sheet_to_columns(NULL, 0, sheet, 1, scan, 2), SHEET_PLAN_SHORT) &&
                                  answers(sheet_to_rows(NULL, 0, scan, 2, sheet, 1), SHEET_PLAN_SHORT));
    expect("turned, nothing", answers(sheet_to_columns(NULL, 0, NULL, 0, NULL, 0), SHEET_PLAN_SHORT) &&
                                  answers(sheet_to_rows(NULL, 0, NULL, 0, NULL, 0), SHEET_PLAN_SHORT));
    expect("turned, neither", answers(sheet_to_columns(plan_n, n, NULL, 0, NULL, 0), SHEET_SHEET_LENGTH) &&
                                  answers(sheet_to_rows(plan_n, n, NULL, 0, NULL, 0), SHEET_SHEET_LENGTH));
    expect("turned, no source", answers(sheet_to_columns(plan_n, n, NULL, 0, scan, 2), SHEET_SHEET_LENGTH) &&
                                    answers(sheet_to_rows(plan_n, n, NULL, 0, sheet, 1), SHEET_SHEET_LENGTH));
    expect("turned, no target", answers(sheet_to_columns(plan_n, n, sheet, 1, NULL, 0), SHEET_SHEET_LENGTH) &&
                                    answers(sheet_to_rows(plan_n, n, scan, 2, NULL, 0), SHEET_SHEET_LENGTH));
    expect("no sheet was changed", sheet[0] == 0 && sheet[1] == 0xaa && scan[0] == 0 && scan[1] == 0);

    expect("write, malloc(0)", answers(sheet_write(plan_n, sizeof plan_n, none, 0, sheet, 1), SHEET_OK));
    expect("read, malloc(0)", answers(sheet_read(plan_n, sizeof plan_n, sheet, 1, none, 0), SHEET_OK));
    free(none);
    return failed;
}
