/*
 * The house plan from C: in a buffer of its length that nothing has been written to, so that valgrind tells of a byte
 * that is left as it was and of one beyond the end; beside the maker; and in buffers of other lengths.
 */
#include "expect.h"
#include "sheet.h"

#include <string.h>

/* A buffer of another length is turned back with places 0, 0, and keeps its bytes. */
static void turned_back(size_t len) {
    uint8_t *buffer = lent(len);
    mark(buffer, len);
    expect("another length", sheet_house_plan(buffer, len) == SHEET_PLAN_LENGTH);
    expect("a refusal changes nothing", marked(buffer, len));
    free(buffer);
}

int main(void) {
    const size_t len = SHEET_HOUSE_PLAN_BYTES;
    uint8_t *house = lent(len), *made = lent(len);

    expect("the length", sheet_plan_bytes(512, 698, 3, 3, 22, 14) == len);
    expect("the house plan is made", sheet_house_plan(house, len) == SHEET_OK);
    expect("the maker", sheet_plan_make(512, 698, 3, 3, 0, 22, 0x39f0d, 14, 0x8f7, made, len) == SHEET_OK);
    expect("the plan is the maker's", memcmp(house, made, len) == 0);
    expect("any cells of a burst", sheet_plan_field(house, len, 20) == 0);
    expect("the plan is accepted", sheet_plan_test(house, len) == SHEET_OK);
    expect("sizes", sheet_plan_sheet_bytes(house, len) == 512 * 88 && sheet_plan_data_bytes(house, len) == 44668);
    turned_back(1);
    turned_back(SHEET_PLAN_HEADER_BYTES);
    turned_back(len - 1);
    turned_back(len + 1);
    turned_back(2 * len);
    free(house);
    free(made);
    return failed;
}
