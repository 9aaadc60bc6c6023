/*
 * The functions of sheet.h that take an answer apart, beside the independent Rust: a line of the file that is named
 * (answers.expected) has an answer in hexadecimal and the nine numbers that are to come of it.
 */
#include "expect.h"
#include "sheet.h"

#include <inttypes.h>

/* What is told of the answer, in the order of a line. */
static void take_apart(uint64_t answer, unsigned numbers[9]) {
    numbers[0] = sheet_answer_number(answer);
    numbers[1] = sheet_answer_p(answer);
    numbers[2] = sheet_answer_q(answer);
    numbers[3] = sheet_answer_cells(answer);
    numbers[4] = sheet_answer_top(answer);
    numbers[5] = sheet_answer_left(answer);
    numbers[6] = sheet_answer_height(answer);
    numbers[7] = sheet_answer_width(answer);
    numbers[8] = sheet_answer_pattern(answer);
}

/* The nine as a stack holds them come to the answer again, but for the bits that belong to no field. */
static void put_together(uint64_t answer, const unsigned numbers[9]) {
    uint8_t bytes[SHEET_STACK_NUMBERS];
    unsigned used = numbers[0] == SHEET_OK ? 51 : 33;
    for (size_t at = 0; at < 9; at++) sheet_stack_put(bytes + 2 * at, 2, numbers[at]);
    expect("put together", sheet_stack_answer(bytes, 0) == (answer & ((UINT64_C(1) << used) - 1)));
}

int main(int count, char **words) {
    FILE *table = count == 2 ? fopen(words[1], "r") : NULL;
    uint64_t answer;
    size_t lines = 0;
    if (table == NULL) return 2;
    while (fscanf(table, "%" SCNx64, &answer) == 1) {
        unsigned expected[9], numbers[9];
        for (size_t at = 0; at < 9; at++)
            if (fscanf(table, "%u", &expected[at]) != 1) return 2;
        take_apart(answer, numbers);
        for (size_t at = 0; at < 9; at++)
            if (numbers[at] != expected[at])
                printf("%016" PRIx64 ": number %u is %u, not %u\n", answer, (unsigned)at, numbers[at], expected[at]);
        expect("taken apart", same(numbers, expected, sizeof numbers));
        put_together(answer, expected);
        lines++;
    }
    fclose(table);
    expect("a table of answers", lines >= 300);
    return failed;
}
