/*
 * A whole host: makes a plan for sheets of 16 rows and 40 columns and bursts of 3 by 3 cells, writes a drawing to a
 * sheet, puts a burst on it, sums it in two halves, reads it back, and by trial too, puts the burst back as it was
 * scanned, alters one stitch, reads two scans that each have a burst, reads a stack of sheets from two rooms, reads a
 * sheet that a scanner stored by columns, makes a plan for fluff, and shows each step.
 * Cells inside the mended rectangle are shown as O (dark) and o (light).
 *
 *     gcc -Iinclude examples/host.c target/staticlib/libsheet.a -o host && ./host
 */
#include "sheet.h"

#include <stdio.h>
#include <stdlib.h>
#include <string.h>

enum { ROWS = 16, COLUMNS = 40, HEIGHT = 3, WIDTH = 3, ANY_CELLS = 0 };
enum { RV = 22, V_LOW = 0x39f0d, RH = 14, H_LOW = 0x8f7, CHECKS = RV + RH };
enum { ROW_BYTES = (COLUMNS + 7) / 8, SHEET_LEN = ROWS * ROW_BYTES, DATA_LEN = (ROWS * COLUMNS - CHECKS + 7) / 8 };

static const char *const drawing[ROWS] = {
    "........................................", "...##......##........##......##.........",
    "..####....####......####....####........", ".######..######....######..######.......",
    ".##############....##############.......", ".##############....##############.......",
    "..############......############........", "...##########........##########.........",
    "....########..........########..........", ".....######............######...........",
    "......####..............####............", ".......##................##.............",
    "........................................", "#..#..#..#..#..#..#..#..#..#..#..#..#..#",
    ".#..#..#..#..#..#..#..#..#..#..#..#..#..", "..#..#..#..#..#..#..#..#..#..#..#..#..#.",
};

static uint8_t *plan;
static size_t plan_len;
static uint8_t data[DATA_LEN], back[DATA_LEN], sheet[SHEET_LEN], scan[SHEET_LEN], second[SHEET_LEN];
static int is_check[ROWS][COLUMNS];
static uint32_t position[ROWS][COLUMNS]; /* of the cells that are not check cells */

/* A plan from two polynomials, which serve for sheets from 8 rows and 7 columns up to 512 and 698. */
static uint64_t make_plan(void) {
    plan_len = sheet_plan_bytes(ROWS, COLUMNS, HEIGHT, WIDTH, RV, RH);
    plan = malloc(plan_len);
    if (plan == NULL) exit(1);
    return sheet_plan_make(ROWS, COLUMNS, HEIGHT, WIDTH, ANY_CELLS, RV, V_LOW, RH, H_LOW, plan, plan_len);
}

static size_t number16(size_t at) { return plan[at] + 256u * plan[at + 1]; }

/* The check cells, row and column, from the list at the end of the plan. The header tells where it begins. */
static void find_checks(void) {
    for (size_t at = sheet_plan_field(plan, plan_len, 16); at < plan_len; at += 4)
        is_check[number16(at)][number16(at + 2)] = 1;
}

/* The drawing as data: the cells that are not check cells, row by row, in odd rows from the highest column down. */
static void draw(void) {
    uint32_t d = 0;
    for (size_t i = 0; i < ROWS; i++)
        for (size_t n = 0; n < COLUMNS; n++) {
            size_t j = i % 2 == 1 ? COLUMNS - 1 - n : n;
            if (is_check[i][j]) continue;
            if (drawing[i][j] == '#') data[d / 8] |= (uint8_t)(1u << d % 8);
            position[i][j] = d++;
        }
}

static int dark(const uint8_t *s, size_t i, size_t j) { return s[i * ROW_BYTES + j / 8] >> j % 8 & 1; }

static void turn(uint8_t *s, size_t i, size_t j) { s[i * ROW_BYTES + j / 8] ^= (uint8_t)(1u << j % 8); }

/* Four cells inside three rows and three columns. */
static void put_burst(uint8_t *s) {
    turn(s, 5, 12);
    turn(s, 5, 14);
    turn(s, 6, 13);
    turn(s, 7, 12);
}

static void show(const char *title, const uint8_t *s, uint64_t answer) {
    size_t top = sheet_answer_top(answer), left = sheet_answer_left(answer);
    size_t height = sheet_answer_height(answer), width = sheet_answer_width(answer);
    printf("%s\n", title);
    for (size_t i = 0; i < ROWS; i++) {
        for (size_t j = 0; j < COLUMNS; j++) {
            int inside = i - top < height && j - left < width;
            putchar(dark(s, i, j) ? (inside ? 'O' : '#') : (inside ? 'o' : '.'));
        }
        putchar('\n');
    }
}

/* How many check cells each row has. They are its leftmost cells under this plan. */
static void show_checks(void) {
    printf("check cells at the left of each row:");
    for (size_t i = 0; i < ROWS; i++) {
        int count = 0;
        for (size_t j = 0; j < COLUMNS; j++) count += is_check[i][j];
        printf(" %d", count);
    }
    putchar('\n');
}

static void show_pair(const char *what, uint32_t v, uint32_t h) {
    printf("%s %06lx %04lx", what, (unsigned long)v, (unsigned long)h);
}

/* The sums of the scan's upper and lower rows, as it may come in two pieces. Joined they are those of the sheet. */
static void show_sums(void) {
    uint8_t upper[SHEET_SUMS_BYTES], lower[SHEET_SUMS_BYTES];
    uint32_t v, h;
    if (sheet_sums(plan, plan_len, scan, SHEET_LEN, 0, ROWS / 2, upper, sizeof upper) != SHEET_OK) exit(1);
    if (sheet_sums(plan, plan_len, scan, SHEET_LEN, ROWS / 2, ROWS, lower, sizeof lower) != SHEET_OK) exit(1);
    v = sheet_sums_v(upper) ^ sheet_sums_v(lower);
    h = sheet_sums_h(upper) ^ sheet_sums_h(lower);
    show_pair("sums of the upper rows", sheet_sums_v(upper), sheet_sums_h(upper));
    show_pair(", of the lower rows", sheet_sums_v(lower), sheet_sums_h(lower));
    show_pair(", joined", v, h);
    printf(": %s is to be mended\n", v == 0 && h == 0 ? "nothing" : "something");
}

/* One stitch of the scan altered: what is left reads as the altered data, and is the sheet written afresh from it. */
static int alter_stitch(size_t i, size_t j) {
    uint32_t d = position[i][j];
    if (sheet_alter(plan, plan_len, scan, SHEET_LEN, d) != SHEET_OK) return 0;
    data[d / 8] ^= (uint8_t)(1u << d % 8);
    if (sheet_read(plan, plan_len, scan, SHEET_LEN, back, DATA_LEN) != SHEET_OK) return 0;
    if (sheet_write(plan, plan_len, data, DATA_LEN, sheet, SHEET_LEN) != SHEET_OK) return 0;
    return memcmp(scan, sheet, SHEET_LEN) == 0 && memcmp(back, data, DATA_LEN) == 0;
}

/* The same scan by trial, for a small sheet that is shown: the same answer, sheet and data. */
static int read_by_trial(uint64_t usual) {
    memcpy(second, sheet, SHEET_LEN);
    put_burst(second);
    if (sheet_read_by_trial(plan, plan_len, second, SHEET_LEN, back, DATA_LEN) != usual) return 0;
    return memcmp(second, sheet, SHEET_LEN) == 0 && memcmp(back, data, DATA_LEN) == 0;
}

/* The burst put back on a copy of what the read left, as a cleaning trial asks: it is the film as it was scanned. */
static int put_back(uint64_t answer) {
    uint8_t film[SHEET_LEN];
    memcpy(film, sheet, SHEET_LEN);
    put_burst(film);
    memcpy(second, scan, SHEET_LEN);
    if (sheet_put_back(plan, plan_len, second, SHEET_LEN, answer) != SHEET_OK) return 0;
    return memcmp(second, film, SHEET_LEN) == 0;
}

/* A row as it lies in the second scan, where a part of that begins. */
static void show_row(const uint8_t *row) {
    for (size_t j = 0; j < COLUMNS; j++) putchar(dark(row, 0, j) ? '#' : '.');
    putchar('\n');
}

/* Two scans of the sheet, each with its own burst: the row where they first differ, and the data that both give. */
static int read_two_scans(void) {
    sheet_part part;
    memcpy(second, scan, SHEET_LEN);
    turn(scan, 9, 8);
    turn(scan, 10, 9);
    turn(second, 3, 22);
    turn(second, 4, 21);
    turn(second, 5, 22);
    part = sheet_scans_differ(plan, plan_len, scan, SHEET_LEN, second, SHEET_LEN);
    if (part.length != ROW_BYTES) return 0;
    printf("\ntwo scans, each with a burst: row %lu differs first, and the second scan has it as\n",
           (unsigned long)((size_t)(part.start - second) / ROW_BYTES));
    show_row(part.start);
    memset(back, 0, DATA_LEN);
    if (sheet_read_two(plan, plan_len, scan, SHEET_LEN, second, SHEET_LEN, back, DATA_LEN) != SHEET_OK) return 0;
    return memcmp(back, data, DATA_LEN) == 0;
}

enum { SHEETS = 3 };

/* What a stack tells of one of its sheets. */
static void show_numbers(const uint8_t *numbers, const uint8_t *rooms, size_t i) {
    uint64_t answer = sheet_stack_answer(numbers, i);
    printf("sheet %lu, room %u: ", (unsigned long)i, rooms[i]);
    if (sheet_answer_number(answer) != SHEET_OK) {
        printf("refused with %u\n", sheet_answer_number(answer));
        return;
    }
    printf("%u cells mended", sheet_answer_cells(answer));
    if (sheet_answer_cells(answer) > 0)
        printf(", at row %u, column %u", sheet_answer_top(answer), sheet_answer_left(answer));
    putchar('\n');
}

/*
 * A stack of three sheets: as written, one that no single burst mends, and the first of the two scans. The second is
 * refused and stops no other; the data of the others are as they were drawn.
 */
static int read_sheets(void) {
    static const uint8_t rooms[SHEETS] = {0, 1, 0};
    uint8_t numbers[SHEETS * SHEET_STACK_NUMBERS], texts[SHEETS * DATA_LEN];
    size_t len = sheet_stack_bytes(plan, plan_len, SHEETS);
    uint8_t *stack = malloc(len);
    int good;
    if (stack == NULL) exit(1);
    memcpy(second, sheet, SHEET_LEN);
    turn(second, 2, 30);
    turn(second, 10, 30);
    sheet_stack_header(plan, plan_len, rooms, SHEETS, stack);
    memcpy(stack + sheet_stack_offset(plan, plan_len, SHEETS, 0), sheet, SHEET_LEN);
    memcpy(stack + sheet_stack_offset(plan, plan_len, SHEETS, 1), second, SHEET_LEN);
    memcpy(stack + sheet_stack_offset(plan, plan_len, SHEETS, 2), scan, SHEET_LEN);
    good = sheet_read_stack(plan, plan_len, stack, len, numbers, sizeof numbers, texts, sizeof texts) == SHEET_OK;
    printf("\na stack of %d sheets:\n", SHEETS);
    for (size_t i = 0; good && i < SHEETS; i++) show_numbers(numbers, rooms, i);
    good = good && memcmp(texts, data, DATA_LEN) == 0 && memcmp(texts + 2 * DATA_LEN, data, DATA_LEN) == 0;
    free(stack);
    return good;
}

enum { COLUMN_BYTES = (ROWS + 7) / 8, COLUMNS_LEN = COLUMNS * COLUMN_BYTES };

/*
 * A sheet as a scanner stores it that runs along the columns: with the burst of the first scan, read where it lies, and
 * turned by rows, for the calls that ask for that.
 */
static int read_by_columns(void) {
    uint8_t columns[COLUMNS_LEN];
    uint64_t answer;
    memcpy(second, sheet, SHEET_LEN);
    put_burst(second);
    if (sheet_to_columns(plan, plan_len, second, SHEET_LEN, columns, COLUMNS_LEN) != SHEET_OK) return 0;
    answer = sheet_read_by_column(plan, plan_len, columns, COLUMNS_LEN, back, DATA_LEN);
    if (sheet_answer_number(answer) != SHEET_OK || memcmp(back, data, DATA_LEN) != 0) return 0;
    printf("\na sheet by columns: %u cells mended, at row %u, column %u\n", sheet_answer_cells(answer),
           sheet_answer_top(answer), sheet_answer_left(answer));
    if (sheet_to_rows(plan, plan_len, columns, COLUMNS_LEN, second, SHEET_LEN) != SHEET_OK) return 0;
    return memcmp(second, sheet, SHEET_LEN) == 0;
}

enum { FEW_CELLS = 2, FEW_RV = 15, FEW_V_LOW = 0xdd, FEW_RH = 10, FEW_H_LOW = 0x2d };

/* Fluff touches few cells: a plan for bursts of at most two, in the same rectangle, has fewer check cells. */
static int read_fluff(void) {
    size_t len = sheet_plan_bytes(ROWS, COLUMNS, HEIGHT, WIDTH, FEW_RV, FEW_RH), text_len;
    uint8_t *few = malloc(len), text[SHEET_LEN] = {'f', 'l', 'u', 'f', 'f'}, read[SHEET_LEN];
    uint64_t answer;
    if (few == NULL) exit(1);
    answer = sheet_plan_make(ROWS, COLUMNS, HEIGHT, WIDTH, FEW_CELLS, FEW_RV, FEW_V_LOW, FEW_RH, FEW_H_LOW, few, len);
    if (answer != SHEET_OK) exit(1);
    text_len = sheet_plan_data_bytes(few, len);
    if (sheet_write(few, len, text, text_len, second, SHEET_LEN) != SHEET_OK) exit(1);
    turn(second, 5, 12);
    turn(second, 7, 14);
    answer = sheet_read(few, len, second, SHEET_LEN, read, text_len);
    printf("\na plan for fluff of at most %d cells has %d check cells, not %d: %u cells mended, at row %u, column %u\n",
           FEW_CELLS, FEW_RV + FEW_RH, CHECKS, sheet_answer_cells(answer), sheet_answer_top(answer),
           sheet_answer_left(answer));
    free(few);
    return sheet_answer_number(answer) == SHEET_OK && memcmp(read, text, text_len) == 0;
}

int main(void) {
    uint64_t answer = make_plan();
    if (sheet_answer_number(answer) != SHEET_OK) {
        printf("plan turned back: %u at %u, %u\n", sheet_answer_number(answer), sheet_answer_p(answer),
               sheet_answer_q(answer));
        return 1;
    }
    find_checks();
    draw();
    if (sheet_write(plan, plan_len, data, DATA_LEN, sheet, SHEET_LEN) != SHEET_OK) return 1;
    show_checks();
    show("\nwritten:", sheet, 0);

    memcpy(scan, sheet, SHEET_LEN);
    put_burst(scan);
    show("\nscanned, with a burst:", scan, 0);
    show_sums();

    answer = sheet_read(plan, plan_len, scan, SHEET_LEN, back, DATA_LEN);
    if (sheet_answer_number(answer) != SHEET_OK) return 1;
    show("\nread:", scan, answer);
    show_sums();
    printf("\n%u cells mended, at row %u, column %u, height %u, width %u\n", sheet_answer_cells(answer),
           sheet_answer_top(answer), sheet_answer_left(answer), sheet_answer_height(answer),
           sheet_answer_width(answer));
    if (memcmp(scan, sheet, SHEET_LEN) != 0 || memcmp(back, data, DATA_LEN) != 0) return 1;
    printf("the sheet and its data are as written\n");
    if (!read_by_trial(answer)) return 1;
    printf("by trial, pattern after pattern, it is read as the same\n");
    if (!put_back(answer)) return 1;
    printf("with pattern %u put back it is the film as scanned\n", sheet_answer_pattern(answer));

    if (!alter_stitch(7, 16)) return 1;
    show("\nthe stitch at row 7, column 16 altered, and with it check cells:", scan, 0);
    printf("data bit %lu of %lu is altered, and the sheet is as written afresh\n", (unsigned long)position[7][16],
           (unsigned long)sheet_plan_data_bits(plan, plan_len));

    if (!read_two_scans()) return 1;
    printf("both scans give the altered data\n");

    if (!read_sheets()) return 1;
    printf("the sheets that are taken give the altered data\n");

    if (!read_by_columns()) return 1;
    printf("turned by rows it is the sheet as written\n");

    if (!read_fluff()) return 1;
    printf("its data is as written\n");
    free(plan);
    return 0;
}
