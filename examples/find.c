/*
 * Finds polynomials for sheet_plan_make, by trying them in that call.
 *
 *     find N1 N2 B1 B2 [T [MOST]]
 *
 * For each table it walks the degrees upward, and in a degree all polynomials with constant term 1 in rising order,
 * until some serve for sheets of N1 rows and N2 columns and bursts of B1 by B2 cells: of at most T cells where T is 1
 * or 2, of any where it is 0 or not given. Then it looks for the pair with the fewest check cells that is made. With
 * MOST, no more than so many polynomials of a degree are tried.
 *
 * Standard output has a line for each degree that was walked, and one for the plan; standard error tells how far it has
 * come. The exit status is 0 where a plan was found, 1 where none was, 2 for bad arguments, 3 for an answer of the
 * library that can't be.
 *
 *     gcc -Iinclude examples/find.c target/staticlib/libsheet.a -o find && ./find 512 698 3 3 2
 */
#include "sheet.h"

#include <errno.h>
#include <stdio.h>
#include <stdlib.h>
#include <time.h>

enum { MOST_DEGREE = 32, MOST_CHECKS = 2 * MOST_DEGREE, MOST_ENTRIES = 4 * (512 + 698) };

/* Of a degree so many polynomials are shown, and so many are tried in pairs. */
enum { SHOWN = 4, KEPT = 16 };

/*
 * The table for fewer rows is the beginning of the table for more: who fails there fails at full size too. Most fail
 * early, and a call costs less on a small sheet. So the first trial has so many rows or columns, and the next so many
 * times more. (24 to 64 and 2 to 8 take about as long.)
 */
enum { FIRST_TRIAL = 32, GROWTH = 4 };

/* One degree of one table, as far as it was walked: of its first polynomials, those that serve. */
typedef struct {
    uint64_t tried;
    unsigned found;
    uint32_t low[KEPT];
} walk;

/* A line is a row in what is about V, and a column in what is about H. */
typedef struct {
    const char *name, *lines;
    uint32_t full, burst;                              /* lines of the sheet, lines of a burst */
    uint32_t least;                                    /* the degree to begin at */
    unsigned fails;                                    /* the number which tells that the table does not serve */
    uint64_t (*ask)(uint32_t lines, uint32_t degree, uint32_t low);
    walk walks[MOST_DEGREE + 1];                       /* by degree */
    uint32_t reach, reach_degree, reach_low;           /* of those that failed, the one that serves for most lines */
} table;

static uint32_t n1, n2, b1, b2, most_cells;
static uint64_t most = UINT64_MAX;
static uint8_t plan[SHEET_PLAN_HEADER_BYTES + 4 * (MOST_ENTRIES + MOST_CHECKS)];
static time_t began, told;

static uint64_t make(uint32_t rows, uint32_t columns, uint32_t rv, uint32_t v_low, uint32_t rh, uint32_t h_low) {
    size_t len = sheet_plan_bytes(rows, columns, b1, b2, rv, rh);
    return sheet_plan_make(rows, columns, b1, b2, most_cells, rv, v_low, rh, h_low, plan, len);
}

/* V alone: a sheet of one strip has no pair of strips, so any H passes. */
static uint64_t ask_v(uint32_t rows, uint32_t degree, uint32_t low) { return make(rows, b2, degree, low, 1, 1); }

/* H alone: on a sheet of one window V has b1 * b2 entries, which are 1, 2, 4, .. at this degree, so it passes. */
static uint64_t ask_h(uint32_t columns, uint32_t degree, uint32_t low) {
    return make(b1, columns, b1 * b2, 1, degree, low);
}

/* By what sheet.h says no call here gives such an answer. */
static void unexpected(const char *of, uint64_t answer) {
    fprintf(stderr, "find: unexpected answer of %s: %u at %u, %u\n", of, sheet_answer_number(answer),
            sheet_answer_p(answer), sheet_answer_q(answer));
    exit(3);
}

/*
 * Does the table serve for so many lines? Whether there are enough check cells is not asked here. Where a table of
 * powers fails, it does so at the first window or strip and another; all that begin before that other pass, so that
 * the table serves for the lines up to the last but one of it.
 */
static int serves_for(table *t, uint32_t lines, uint32_t degree, uint32_t low) {
    uint64_t answer = t->ask(lines, degree, low);
    unsigned number = sheet_answer_number(answer);
    uint32_t reach = sheet_answer_q(answer) + t->burst - 1;
    if (number == SHEET_OK || number == SHEET_PLAN_FEW_CELLS) return 1;
    if (number != t->fails || sheet_answer_p(answer) != 0) unexpected(t->name, answer);
    if (reach > t->reach) {
        t->reach = reach;
        t->reach_degree = degree;
        t->reach_low = low;
    }
    return 0;
}

static int serves(table *t, uint32_t degree, uint32_t low) {
    for (uint32_t lines = FIRST_TRIAL; lines < t->full; lines *= GROWTH)
        if (!serves_for(t, lines, degree, low)) return 0;
    return serves_for(t, t->full, degree, low);
}

/* The polynomials of a degree with constant term 1, and how many of them are tried. */
static uint64_t polynomials(uint32_t degree) { return (uint64_t)1 << (degree - 1); }
static uint64_t limit(uint32_t degree) { return polynomials(degree) < most ? polynomials(degree) : most; }

/* A line every two seconds. The clock is not asked after every polynomial. */
static void tell(const table *t, uint32_t degree, const walk *w) {
    time_t now;
    if (w->tried % 1024 != 0 || difftime(now = time(NULL), told) < 2) return;
    told = now;
    fprintf(stderr, "find: %s degree %u: %.1f%% of %llu tried, %u found, %.0f s\n", t->name, (unsigned)degree,
            100.0 * (double)w->tried / (double)limit(degree), (unsigned long long)limit(degree), w->found,
            difftime(now, began));
}

/* The k-th polynomial of a degree that serves: what is below the degree. 0 if there is none. Walks as far as needed. */
static uint32_t nth(table *t, uint32_t degree, unsigned k) {
    walk *w = &t->walks[degree];
    while (w->found <= k && w->tried < limit(degree)) {
        uint32_t low = (uint32_t)(2 * w->tried + 1);
        if (serves(t, degree, low)) w->low[w->found++] = low;
        w->tried++;
        tell(t, degree, w);
    }
    return k < w->found ? w->low[k] : 0;
}

/* The first polynomials of a degree. Where there are fewer, the line says among how many. */
static void show_degree(table *t, uint32_t degree) {
    const char *part = limit(degree) < polynomials(degree) ? " the first" : "";
    unsigned k = 0;
    printf("%s degree %u:", t->name, (unsigned)degree);
    for (; k < SHOWN && nth(t, degree, k) != 0; k++) printf(" 0x%x", (unsigned)nth(t, degree, k));
    if (k < SHOWN)
        printf(" %s of%s %llu", k == 0 ? "none" : "and no other", part, (unsigned long long)limit(degree));
    putchar('\n');
    fflush(stdout);
}

/* The least degree that has a polynomial which serves; 0 if none has. */
static uint32_t least_degree(table *t) {
    for (uint32_t degree = t->least; degree <= MOST_DEGREE; degree++) {
        show_degree(t, degree);
        if (nth(t, degree, 0) != 0) return degree;
    }
    printf("%s: none for %u %s; 0x%x of degree %u serves for %u, the most found\n", t->name, (unsigned)t->full,
           t->lines, (unsigned)t->reach_low, (unsigned)t->reach_degree, (unsigned)t->reach);
    return 0;
}

/* A pair at full size, where nothing can be wrong but too few check cells. What is made is tested too. */
static int made(uint32_t rv, uint32_t v_low, uint32_t rh, uint32_t h_low) {
    uint64_t answer;
    if (v_low == 0 || h_low == 0) return 0;
    answer = make(n1, n2, rv, v_low, rh, h_low);
    if (sheet_answer_number(answer) == SHEET_PLAN_FEW_CELLS) return 0;
    if (answer != SHEET_OK) unexpected("a pair", answer);
    answer = sheet_plan_test(plan, sheet_plan_bytes(n1, n2, b1, b2, rv, rh));
    if (answer != SHEET_OK) unexpected("the test of a made plan", answer);
    printf("plan: V degree %u 0x%x, H degree %u 0x%x: %u check cells, made and accepted\n", (unsigned)rv,
           (unsigned)v_low, (unsigned)rh, (unsigned)h_low, (unsigned)(rv + rh));
    return 1;
}

/* A pair of these degrees: the first of each, then those with the second of either, and so on. */
static int pair_made(table *v, uint32_t rv, table *h, uint32_t rh) {
    for (unsigned k = 0; k < KEPT; k++) {
        uint32_t v_low = nth(v, rv, k), h_low = nth(h, rh, k);
        if (v_low == 0 && h_low == 0) return 0;
        for (unsigned i = 0; i <= k; i++)
            if (made(rv, v_low, rh, nth(h, rh, i)) || made(rv, nth(v, rv, i), rh, h_low)) return 1;
    }
    return 0;
}

/* The pair with the fewest check cells: of the least degrees, else of higher ones, up to all cells of the sheet. */
static int plan_found(table *v, uint32_t least_rv, table *h, uint32_t least_rh) {
    for (uint32_t checks = least_rv + least_rh; checks <= MOST_CHECKS && checks <= n1 * n2; checks++)
        for (uint32_t rv = least_rv; rv <= MOST_DEGREE && rv + least_rh <= checks; rv++)
            if (checks - rv <= MOST_DEGREE && pair_made(v, rv, h, checks - rv)) return 1;
    return 0;
}

/*
 * Where to begin if bursts have any cells. Numbers are not independent where they are more than their digits, so a
 * degree is at least as many as must be independent: of two windows as far apart as can be, b2 for each of their rows;
 * of two such strips, b1 for each column of one that the other has not. Where bursts have few cells there is no such
 * least number, and the first degree is 1.
 */
static uint32_t begin_v(void) { return most_cells != 0 ? 1 : (n1 < 2 * b1 ? n1 : 2 * b1) * b2; }

static uint32_t begin_h(void) {
    if (most_cells != 0 || n2 == b2) return 1;
    return (n2 < 2 * b2 ? n2 - b2 : b2) * b1;
}

static void show_sizes(void) {
    printf("sheets of %u x %u, bursts of %u x %u", (unsigned)n1, (unsigned)n2, (unsigned)b1, (unsigned)b2);
    if (most_cells != 0) printf(" with at most %u cell%s", (unsigned)most_cells, most_cells == 1 ? "" : "s");
    putchar('\n');
}

static int search(void) {
    static table v = {.name = "V", .lines = "rows", .fails = SHEET_PLAN_ROWS, .ask = ask_v};
    static table h = {.name = "H", .lines = "columns", .fails = SHEET_PLAN_COLUMNS, .ask = ask_h};
    uint32_t least_rv, least_rh;
    v.full = n1, v.burst = b1, v.least = begin_v();
    h.full = n2, h.burst = b2, h.least = begin_h();
    show_sizes();
    least_rv = least_degree(&v);
    least_rh = least_degree(&h);
    if (least_rv != 0 && least_rh != 0 && plan_found(&v, least_rv, &h, least_rh)) return 0;
    printf("no plan found\n");
    return 1;
}

static int refuse(const char *why) {
    fprintf(stderr, "find: %s\n", why);
    fprintf(stderr, "use: find N1 N2 B1 B2 [T [MOST]], for sheets of N1 x N2 cells and bursts of B1 x B2\n");
    return 2;
}

/* A decimal number up to the largest that is allowed, and nothing behind it. */
static int number(const char *word, uint64_t largest, uint64_t *value) {
    char *end;
    if (*word < '0' || *word > '9') return 0;
    errno = 0;
    *value = strtoull(word, &end, 10);
    return errno == 0 && *end == '\0' && *value <= largest;
}

int main(int count, char **words) {
    uint32_t *const sizes[] = {&n1, &n2, &b1, &b2, &most_cells};
    uint64_t value;
    if (count < 5 || count > 7) return refuse("four numbers are needed, and two more may be given");
    for (int i = 0; i < 5 && i + 1 < count; i++) {
        if (!number(words[i + 1], UINT32_MAX, &value)) return refuse("a size or T is not a number of 32 bits");
        *sizes[i] = (uint32_t)value;
    }
    if (count == 7 && (!number(words[6], UINT64_MAX, &most) || most == 0))
        return refuse("MOST is not a number above 0");

    /* The call looks at the sizes and T before the plan's length, which is wrong here. */
    switch (sheet_answer_number(sheet_plan_make(n1, n2, b1, b2, most_cells, 1, 1, 1, 1, NULL, 0))) {
    case SHEET_PLAN_BURST: return refuse("B1 and B2 are 1 to 4");
    case SHEET_PLAN_SIZE: return refuse("N1 is B1 to 512, and N2 is B2 to 698");
    case SHEET_PLAN_MOST_CELLS: return refuse("T is 0, 1 or 2");
    default: break;
    }
    began = told = time(NULL);
    return search();
}
