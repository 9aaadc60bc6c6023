/*
 * sheet.h: pattern sheets that survive one burst.
 *
 * Sixteen calls on byte buffers: make a plan, make the house plan, test a plan, write a sheet, read a sheet, sum a run
 * of rows, alter one data bit of a sheet, read two scans of one film, find the row where two scans first differ, read a
 * stack of sheets, write a sheet by columns, read one, turn a sheet by rows into one by columns, turn one by columns
 * into one by rows, read a sheet by trial, and put a burst back. Each answers one 64-bit number, which the functions
 * below take apart. The bytes of plans, sheets, stacks and data are described in docs/FORMAT.md.
 *
 * Promise, proved for every accepted plan (docs/PROMISE.md): a sheet that sheet_write made, with cells of one rectangle
 * of the plan's b1 rows and b2 columns turned over, any of them where the plan's t is 0, at most t where it is 1 or 2,
 * is read back by sheet_read as it was written. Two scans of one such sheet, a burst on either or both, always give its
 * data by sheet_read_two; and each sheet of a stack is read as if it were alone. A sheet by columns is written, read
 * and mended as the one by rows that has the same cells, and turned from one layout into the other it loses nothing.
 * From the sheet that a read leaves and its answer, sheet_put_back restores the scan, bit for bit.
 *
 * Words. This header has one word for each thing; the knitter's word stands after it:
 *     sheet     the film: n1 rows by n2 columns of dark and light cells
 *     row       a course
 *     column    a needle
 *     t         a number of the plan: the most cells of a burst, 1 or 2; or 0: any cells of the rectangle
 *     burst     a blot: cells turned over inside one rectangle of b1 rows and b2 columns, at most t of them where t is
 *               not 0; it may be empty
 *     pattern   the cells of a burst, as a number: row r and column s of the smallest rectangle have bit r * width + s
 *     window    b1 consecutive rows                    strip    b2 consecutive columns
 *     plan      the tables under which sheets are written and read
 *     accepted  of a plan: sheet_plan_test answers SHEET_OK
 *     run       consecutive rows, from one number up to but not including another: a run of courses
 *     sums      of a sheet or a run: the exclusive-or of the V entries, and that of the H entries, of its dark cells
 *     belongs   of a sheet to its plan: both its sums are 0, as those of every written sheet are
 *     position  the number of a data bit, from 0 on: a stitch of the drawing, counted as the carriage goes
 *     scan      a sheet as one head read it from the film: two scans of one film may each have a burst
 *     stack     0 to 64 sheets in one buffer, under one plan, behind a header that tells where each begins
 *     room      0 or 1, told of each sheet of a stack: what becomes of one room's sheets tells nothing of the other's
 *     layout    how the cells of a sheet lie in its bytes: by rows or by columns
 *     turned    of a sheet: in the other layout, with the same cells
 *
 * Layouts. A sheet by rows has one row after the other, each in n2 / 8 bytes, rounded up: column 0 is the lowest bit of
 * a row's first byte. A sheet by columns has one column after the other, each in n1 / 8 bytes, rounded up: row 0 is the
 * lowest bit of a column's first byte. The unused high bits of each last byte are 0. Sheets are by columns where a
 * call's name or its text says so: in sheet_write_by_column and sheet_read_by_column, in the target of
 * sheet_to_columns, and in the source of sheet_to_rows. All other calls keep to sheets by rows, the sums of runs,
 * alterations, two scans, stacks and putting back among them: for these a sheet by columns is turned first. The data
 * has one order, whatever the layout.
 *
 * Which t to take. Oil or a scratch may turn over any cells of the rectangle: t is 0, as in the house plan. Fluff
 * touches few cells: with t of 1 or 2 a burst has at most so many, anywhere in the rectangle, and a plan needs fewer
 * check cells. For 3 by 3 on 512 by 698 cells docs/PLANS.md has a plan with 36 check cells for t of 0, with 25 for t
 * of 2 and with 20 for t of 1; for 4 by 4 it has none of this size for t of 0, one with 26 for t of 2, and with 20 for
 * t of 1. Take 1 or 2 only where bursts have no more cells: of others nothing is promised. sheet_read may then answer
 * 14, or take the scan for that of another sheet and give other data.
 *
 * The machine. libsheet.a is for x86-64 Linux, 64-bit: the C calling convention of System V, and a size_t of 8 bytes,
 * which is checked below. Of the C library it needs memcpy and memset, and nothing else.
 *
 * What a caller owes: each length is the true length of its buffer, and a buffer that a call writes overlaps no other
 * buffer of that call. Where a length is 0, its pointer may be anything, null too: it is not followed. Nothing else is
 * owed: any bytes and any numbers may be handed in. The calls use no heap and no globals, keep no pointer, and may run
 * in several threads at once. How much they need of a thread's stack, which is memory and no stack of sheets, is told
 * below.
 *
 * Every call makes all its checks before it writes; of a stack those of one sheet are made before anything is written
 * of that sheet. A call that turns something back changes no byte of any buffer.
 *
 * The smallest use (see examples/host.c for a whole one):
 *
 *     uint64_t a = sheet_read(plan, plan_len, sheet, sheet_len, data, data_len);
 *     if (sheet_answer_number(a) != SHEET_OK) ...   the sheet is turned back, with a number and two places
 */
#ifndef SHEET_H
#define SHEET_H

#include <stddef.h>
#include <stdint.h>

#ifdef __cplusplus
extern "C" {
#endif

/* A length is passed in one 64-bit register. Where this line does not compile, the machine is another. */
typedef char sheet_size_t_has_8_bytes[sizeof(size_t) == 8 ? 1 : -1];

enum {
    SHEET_PLAN_HEADER_BYTES = 22,     /* the header of a plan: eleven numbers of 16 bits */
    SHEET_HOUSE_PLAN_BYTES = 14686,   /* the house plan: the length that sheet_house_plan asks for */
    SHEET_SUMS_BYTES = 8,             /* the two sums of a run: the length that sheet_sums asks for */
    SHEET_STACK_SHEETS = 64,          /* the most sheets of a stack */
    SHEET_STACK_NUMBERS = 18          /* bytes of the numbers of one sheet of a stack: nine of 16 bits */
};

/* Bytes of a thread's stack that are enough for a call. */
enum {
    SHEET_PLAN_MAKE_STACK = 98304,    /* sheet_plan_make, and sheet_house_plan */
    SHEET_PLAN_TEST_STACK = 65536,    /* sheet_plan_test */
    SHEET_WRITE_READ_STACK = 65536,   /* sheet_write, sheet_read, and sheet_read_by_trial */
    SHEET_SUMS_STACK = 65536,         /* sheet_sums */
    SHEET_ALTER_STACK = 65536,        /* sheet_alter */
    SHEET_READ_TWO_STACK = 65536,     /* sheet_read_two */
    SHEET_DIFFERENCE_STACK = 65536,   /* sheet_first_difference */
    SHEET_READ_STACK_STACK = 65536,   /* sheet_read_stack */
    SHEET_BY_COLUMN_STACK = 65536,    /* sheet_write_by_column, and sheet_read_by_column */
    SHEET_TURN_STACK = 65536,         /* sheet_to_columns, and sheet_to_rows */
    SHEET_PUT_BACK_STACK = 65536      /* sheet_put_back */
};

/*
 * The numbers of an answer, and what its places p and q tell. 13 and 14 are told of each sheet of a stack by itself. 23
 * is a check of plans: where a call makes checks 1 to 10, or 1 to a later one, it is among them, after 4 and before 5.
 */
enum {
    SHEET_OK = 0,             /* taken; places 0, 0 */
    SHEET_PLAN_SHORT = 1,     /* the plan is shorter than its header; 0, 0 */
    SHEET_PLAN_BURST = 2,     /* b1 or b2 is 0 or over 4; 0, 0 */
    SHEET_PLAN_SIZE = 3,      /* n1 < b1, n1 > 512, n2 < b2 or n2 > 698; 0, 0 */
    SHEET_PLAN_WIDTH = 4,     /* rv or rh is 0 or over 32; 0, 0 */
    SHEET_PLAN_LENGTH = 5,    /* an offset, the length field or the true length differs from the rule; 0, 0 */
    SHEET_PLAN_ENTRY = 6,     /* a table entry is too large; 0 for V or 1 for H, index */
    SHEET_PLAN_CHECK = 7,     /* a check cell is off the sheet or out of order; index, 0 */
    SHEET_PLAN_ROWS = 8,      /* the condition on rows fails; the two window starts */
    SHEET_PLAN_COLUMNS = 9,   /* the condition on columns fails; the two strip starts */
    SHEET_PLAN_DEPENDENT = 10, /* a check cell depends on earlier ones; index, 0 */
    SHEET_SHEET_LENGTH = 11,  /* the buffer of a sheet, or of a scan, has another length than its layout asks; 0, 0 */
    SHEET_DATA_LENGTH = 12,   /* the data buffer, of a stack that of all its sheets, has another length; 0, 0 */
    SHEET_UNUSED_BIT = 13,    /* an unused bit is 1, of data written, or of a sheet, scan or source handed in; byte
                                 index, 0; of a sheet of a stack the index is that in the sheet */
    SHEET_NOT_MENDABLE = 14,  /* no single burst brings both sums to 0, of two scans those of neither; 0, 0 */
    SHEET_PLAN_POLYNOMIAL = 15, /* a polynomial has constant term 0, or a coefficient at or above its degree; 0, 0 */
    SHEET_PLAN_FEW_CELLS = 16, /* fewer than rv + rh check cells could be taken; 0, 0 */
    SHEET_POSITION = 17,      /* the position is k or more; 0, 0 */
    SHEET_NOT_BELONGING = 18, /* the sheet to alter does not belong to its plan; 0, 0 */
    SHEET_DATA_DIFFER = 19,   /* both scans can be mended, and their data differ; 0, 0 */
    SHEET_STACK_FORM = 20,    /* the header of a stack, or its length, breaks the rules; 0, 0 */
    SHEET_NUMBERS_LENGTH = 21, /* the buffer of a stack's numbers has another length; 0, 0 */
    SHEET_NOT_A_BURST = 22,   /* the answer to put back is not that of a burst of the plan; 0, 0 */
    SHEET_PLAN_MOST_CELLS = 23, /* t is over 2; 0, 0 */
    SHEET_SUMS_LENGTH = 24    /* the buffer of the sums has another length; 0, 0 */
};

/*
 * Makes a plan from its sizes, its t and two binary polynomials: checks 2, 3, 4, 23, 5, 15, 8, 9 and 16 in this order,
 * then every byte of the plan, whatever it held. Takes any numbers. A made plan is accepted.
 * The polynomial of V is z^rv plus the powers below it that v_low tells, bit i for z^i; that of H likewise, by rh and
 * h_low. Entry k of a table is z^k modulo its polynomial. Check cells are taken in sheet order, each if its joint entry
 * is no exclusive-or of those taken. plan_len is sheet_plan_bytes, and check 5 is about nothing else.
 * Whatever the polynomials, no plan with t of 0 is made, or accepted, with rv below 2 * b1 * b2 where n1 is at least
 * 2 * b1, or with rh below b1 * b2 where n2 is at least 2 * b2. With t of 1 or 2 both may be less. docs/PLANS.md has
 * polynomials for each size of burst and each t. A t of b1 * b2 or more asks the same of the tables as 0 does.
 */
uint64_t sheet_plan_make(uint32_t n1, uint32_t n2, uint32_t b1, uint32_t b2, uint32_t t, uint32_t rv, uint32_t v_low,
                         uint32_t rh, uint32_t h_low, uint8_t *plan, size_t plan_len);

/*
 * Makes the house plan, for sheets of 512 rows and 698 columns and bursts of 3 by 3 cells, with t of 0, so of any of
 * these cells: every byte of it, whatever the buffer held. Gives SHEET_OK; or SHEET_PLAN_LENGTH where plan_len is not
 * SHEET_HOUSE_PLAN_BYTES, and then no byte changes. There is no other refusal. The house polynomials are those of
 * degree 22 with 0x39f0d below it for V, and of degree 14 with 0x8f7 for H: sheet_plan_make makes the same bytes of
 * 512, 698, 3, 3, 0, 22, 0x39f0d, 14 and 0x8f7.
 */
uint64_t sheet_house_plan(uint8_t *plan, size_t plan_len);

/*
 * Tests a plan: checks 1, 2, 3, 4, 23, 5, 6, 7, 8, 9 and 10 in this order.
 * Takes any bytes. Gives SHEET_OK, or the first check that fails with its places. Writes nothing.
 * What must not be depends on t. Independent means that no nonempty set has exclusive-or 0.
 * Check 8, of two windows, which may be the same. With t of 0: the V entries of the rows in either window, each taken
 * once, are not independent. With t of 1 or 2: two different sets of at most t V entries, one in each window, have the
 * same exclusive-or. Entries are told apart by where they stand, not by value; the empty set is one of the sets; and
 * the two may share entries.
 * Check 9, of two strips. Each remainder modulo b2 that stands on different columns in them, with each r below b1, has
 * one member: the exclusive-or of the two H entries for that r. With t of 0: the members are not independent. With t of
 * 1 or 2: a nonempty set of at most t members has exclusive-or 0.
 */
uint64_t sheet_plan_test(const uint8_t *plan, size_t plan_len);

/*
 * Writes the sheet that carries the data: checks 1 to 13, then every byte of the sheet, whatever it held.
 * sheet_len is sheet_plan_sheet_bytes, data_len sheet_plan_data_bytes. Leaves plan and data alone.
 * Data fills the cells that are not check cells, row by row: in even rows from column 0 up, in odd rows from the
 * highest column down. Bit d of the data is bit d % 8 of byte d / 8. Reading gives the data in the same order.
 */
uint64_t sheet_write(const uint8_t *plan, size_t plan_len, const uint8_t *data, size_t data_len, uint8_t *sheet,
                     size_t sheet_len);

/*
 * Reads a sheet: checks 1 to 14, then mends the sheet in place and writes every byte of its data, whatever that held.
 * The answer tells how many cells were turned over, the smallest rectangle that holds them, and which cells of that
 * they are, as a pattern: six zeros if none were. sheet_put_back turns them over again.
 * SHEET_NOT_MENDABLE is given exactly where no single burst, the empty one included, brings both sums to 0. A burst of
 * a plan with t of 1 or 2 has at most t cells: never are more mended.
 */
uint64_t sheet_read(const uint8_t *plan, size_t plan_len, uint8_t *sheet, size_t sheet_len, uint8_t *data,
                    size_t data_len);

/*
 * Sums a run of rows, from row first up to but not including row past: checks 1 to 11, 13 and 24, then every byte of
 * the sums, whatever they held: the V sum of the run's dark cells, then their H sum, 32 bits each, low byte first.
 * first and past may be any numbers. Rows past the sheet add nothing, and a run with past at or below first is empty:
 * its sums are 0 and 0. sums_len is SHEET_SUMS_BYTES. Leaves plan and sheet alone.
 * Runs join: where a <= b <= c, the sums of a to b and those of b to c, exclusive-or'ed, are those of a to c. The run
 * from 0 to n1 has the sums of the whole sheet: both are 0 exactly where sheet_read has nothing to mend.
 */
uint64_t sheet_sums(const uint8_t *plan, size_t plan_len, const uint8_t *sheet, size_t sheet_len, uint32_t first,
                    uint32_t past, uint8_t *sums, size_t sums_len);

/*
 * Alters one data bit of a sheet: checks 1 to 11, 13, 17 and 18, then turns over the cell that holds data bit position,
 * and those check cells that bring both sums back to 0. No other cell changes. Leaves plan alone.
 * position may be any number; those below sheet_plan_data_bits are taken. Data bits are counted as in sheet_write. The
 * sheet has to belong to its plan, and is not mended first: sheet_read does that.
 * What is left is the sheet that sheet_write makes from the altered data. So it is after any run of alterations, in any
 * order; and the same one made twice restores the sheet.
 */
uint64_t sheet_alter(const uint8_t *plan, size_t plan_len, uint8_t *sheet, size_t sheet_len, uint32_t position);

/*
 * Reads two scans of one film: checks 1 to 11 for the first scan, 11 for the second, 12, 13 for the first, 13 for the
 * second, 14 and 19, then every byte of the data, whatever that held. Leaves plan and both scans alone: neither is
 * mended in place. first_len and second_len are sheet_plan_sheet_bytes, data_len sheet_plan_data_bytes. Which scan
 * failed check 11 or 13 is not told.
 * Where both scans can be mended and their data agree, or only one can be mended, that data is given. Scans whose
 * bursts lie on check cells differ, and their data do not. SHEET_NOT_MENDABLE is given exactly where neither can be
 * mended, and SHEET_DATA_DIFFER where both can and their data differ: they are no scans of one written sheet, or a scan
 * has more than one burst. The answer has a number and two places alone: no cells and no rectangle are told.
 * Two scans of one written sheet, a burst on either or both, always give its data. The scans may be the same buffer, or
 * overlap each other, since both are only read; data overlaps neither.
 */
uint64_t sheet_read_two(const uint8_t *plan, size_t plan_len, const uint8_t *first, size_t first_len,
                        const uint8_t *second, size_t second_len, uint8_t *data, size_t data_len);

/*
 * Finds the row where two scans first differ, in any of its cells: bits 0 to 31 of what is told are the place in the
 * second scan where that row begins, bits 32 to 63 its length, the bytes of one row. Tells 0 where no row differs, and
 * where one of checks 1 to 11 and 13 fails, of either scan: this call alone tells no number. Writes nothing. The scans
 * may be the same buffer, or overlap. sheet_scans_differ, below, gives the row as a part of the second scan.
 */
uint64_t sheet_first_difference(const uint8_t *plan, size_t plan_len, const uint8_t *first, size_t first_len,
                                const uint8_t *second, size_t second_len);

/*
 * Reads a stack of sheets: checks 1 to 10, once for all of them, 20, 21 and 12. Then each sheet is read as sheet_read
 * reads it alone: checks 13 and 14, then its numbers, and if it is taken, it is mended in the stack and its data
 * written. A sheet that is refused stops no other.
 * The stack begins with a header: the count of its sheets, 0 to SHEET_STACK_SHEETS, 16 bits; then for each sheet its
 * room, 0 or 1, 16 bits, and its offset from the stack's first byte, 32 bits. All are low byte first. The sheets follow
 * in that order without gaps: sheet i begins at sheet_stack_offset, and stack_len is sheet_stack_bytes. Any other
 * header or length is turned back with 20. sheet_stack_header writes a good header. Leaves plan and header alone.
 * numbers_len is count times SHEET_STACK_NUMBERS, data_len count times sheet_plan_data_bytes; each sheet has its place
 * in both, in the order of the header. The numbers of a sheet are nine of 16 bits, low byte first: that of its refusal,
 * or 0; p and q; and the cells, top, left, height, width and pattern that sheet_read tells. All are written, whatever
 * they held: six zeros after a refusal. sheet_stack_answer makes one answer of them.
 * A refused sheet keeps its bytes, and the data buffer what it held at that sheet's place. The call's own answer has a
 * number and two places alone: SHEET_OK, whatever became of the sheets, unless the whole stack is turned back; then no
 * byte changes. A stack of no sheets is taken: two bytes, both 0, with numbers and data of length 0.
 * Rooms are apart. Take two stacks with the same plan, header and lengths, and the same bytes in one room's sheets and
 * in its places of numbers and data: both end with the same bytes there, whatever the other room's hold.
 */
uint64_t sheet_read_stack(const uint8_t *plan, size_t plan_len, uint8_t *stack, size_t stack_len, uint8_t *numbers,
                          size_t numbers_len, uint8_t *data, size_t data_len);

/*
 * Writes the sheet by columns that carries the data: checks 1 to 13, then every byte of the sheet, whatever it held.
 * sheet_len is sheet_plan_column_bytes, data_len sheet_plan_data_bytes. Leaves plan and data alone.
 * What is left is the sheet that sheet_write makes of the data, turned. The data fills the same cells in the same
 * order: row by row, in even rows from column 0 up, in odd rows from the highest column down.
 */
uint64_t sheet_write_by_column(const uint8_t *plan, size_t plan_len, const uint8_t *data, size_t data_len,
                               uint8_t *sheet, size_t sheet_len);

/*
 * Reads a sheet by columns: checks 1 to 14, then mends the sheet in place and writes every byte of its data, whatever
 * that held. sheet_len is sheet_plan_column_bytes; the place of check 13 is a byte of the sheet as it lies, by columns.
 * For a sheet of the right form the answer and the data are those that sheet_read gives of that sheet turned, and what
 * is left is what sheet_read leaves, turned: the rectangle is told in rows and columns as ever.
 */
uint64_t sheet_read_by_column(const uint8_t *plan, size_t plan_len, uint8_t *sheet, size_t sheet_len, uint8_t *data,
                              size_t data_len);

/*
 * Turns a sheet by rows into one by columns, cell for cell: checks 1 to 11 for the source, 11 for the target and 13 for
 * the source, then every byte of the target, whatever it held. source_len is sheet_plan_sheet_bytes, target_len
 * sheet_plan_column_bytes. Leaves plan and source alone. The answer has a number and two places alone; which buffer
 * failed check 11 is not told, and the place of check 13 is a byte of the source.
 * Any sheet of the right form is taken, also one that does not belong to its plan, and nothing is mended. sheet_to_rows
 * makes the source again of the target, byte for byte.
 */
uint64_t sheet_to_columns(const uint8_t *plan, size_t plan_len, const uint8_t *source, size_t source_len,
                          uint8_t *target, size_t target_len);

/*
 * Turns a sheet by columns into one by rows: the same the other way round. source_len is sheet_plan_column_bytes,
 * target_len sheet_plan_sheet_bytes. sheet_to_columns makes the source again of the target, byte for byte.
 */
uint64_t sheet_to_rows(const uint8_t *plan, size_t plan_len, const uint8_t *source, size_t source_len, uint8_t *target,
                       size_t target_len);

/*
 * Reads a sheet by trial, to show small sheets with a reader that anyone can follow: each rectangle of b1 rows and b2
 * columns in sheet order, in each every pattern by its number, from 0 on, until both sums are 0; where t is not 0,
 * patterns of more than t cells are passed over. The answer and every byte that is left are those of sheet_read,
 * whatever is handed in. Its time grows with the rectangles on the sheet times the patterns of one, of any cells,
 * (n1 - b1 + 1) (n2 - b2 + 1) 2^(b1 b2), and is longest where the answer is 14. On a sheet of 8 by 8 cells these are
 * 18,432 for bursts of 3 by 3 and 1,638,400 for 4 by 4; under the house plan 181,739,520.
 */
uint64_t sheet_read_by_trial(const uint8_t *plan, size_t plan_len, uint8_t *sheet, size_t sheet_len, uint8_t *data,
                             size_t data_len);

/*
 * Puts a burst back, for the film as it was scanned: checks 1 to 11, 13 and 22, then turns over exactly the cells that
 * the answer of a read tells, and no other. Leaves plan alone. sheet_len is sheet_plan_sheet_bytes. From the sheet that
 * sheet_read left and its answer, every byte of the scan is restored; and the same answer put back twice is nothing.
 * answer may be any number. It is taken exactly if all its 64 bits are those that sheet_read answers for some burst of
 * the plan: 0, the empty one, changes nothing. Any other is turned back with SHEET_NOT_A_BURST: a refusal; a rectangle
 * that is larger than b1 by b2, leaves the sheet or is not the smallest for its pattern; a pattern with a bit beyond
 * the rectangle, or with another number of cells than is told; more than t cells, where t is not 0; no cells, but some
 * other field; or any other bit that is 1. The answer may also be one of sheet_read_by_trial, of sheet_stack_answer, or
 * of sheet_read_by_column, whose sheet is turned by rows first. The sheet need not be the one that was read, nor belong
 * to its plan, and nothing is mended. The call's own answer has a number and two places alone.
 */
uint64_t sheet_put_back(const uint8_t *plan, size_t plan_len, uint8_t *sheet, size_t sheet_len, uint64_t answer);

/*
 * An answer taken apart (docs/ANSWER.md). The places and the six numbers of a read share bits: p and q are 0 where the
 * number is 0, and the six where it is not.
 */
static inline unsigned sheet_answer_number(uint64_t answer) { return (unsigned)(answer & 31u); }

/* So many bits of an answer from one on, if its number is 0, as that of a read that mended; else 0. */
static inline unsigned sheet_answer_of_read(uint64_t answer, unsigned from, unsigned bits) {
    return sheet_answer_number(answer) == SHEET_OK ? (unsigned)(answer >> from & ((1u << bits) - 1)) : 0;
}

/* The same if its number is not 0, as that of a refusal. */
static inline unsigned sheet_answer_of_refusal(uint64_t answer, unsigned from, unsigned bits) {
    return sheet_answer_number(answer) == SHEET_OK ? 0 : (unsigned)(answer >> from & ((1u << bits) - 1));
}

static inline unsigned sheet_answer_p(uint64_t answer) { return sheet_answer_of_refusal(answer, 5, 16); }
static inline unsigned sheet_answer_q(uint64_t answer) { return sheet_answer_of_refusal(answer, 21, 12); }
static inline unsigned sheet_answer_cells(uint64_t answer) { return sheet_answer_of_read(answer, 5, 5); }
static inline unsigned sheet_answer_top(uint64_t answer) { return sheet_answer_of_read(answer, 10, 9); }
static inline unsigned sheet_answer_left(uint64_t answer) { return sheet_answer_of_read(answer, 19, 10); }
static inline unsigned sheet_answer_height(uint64_t answer) { return sheet_answer_of_read(answer, 29, 3); }
static inline unsigned sheet_answer_width(uint64_t answer) { return sheet_answer_of_read(answer, 32, 3); }
static inline unsigned sheet_answer_pattern(uint64_t answer) { return sheet_answer_of_read(answer, 35, 16); }

/* The 8 bytes of the sums taken apart: the V sum and the H sum. */
static inline uint32_t sheet_sums_v(const uint8_t *sums) {
    return sums[0] | (uint32_t)sums[1] << 8 | (uint32_t)sums[2] << 16 | (uint32_t)sums[3] << 24;
}

static inline uint32_t sheet_sums_h(const uint8_t *sums) { return sheet_sums_v(sums + 4); }

/* What sheet_first_difference tells, taken apart: both are 0 where it tells of no row. */
static inline size_t sheet_difference_place(uint64_t difference) { return (size_t)(difference & 0xffffffffu); }
static inline size_t sheet_difference_length(uint64_t difference) { return (size_t)(difference >> 32); }

/* Bytes of a buffer of the caller's: where they begin, and how many they are. An empty part has length 0. */
typedef struct {
    const uint8_t *start;
    size_t length;
} sheet_part;

/*
 * The row where two scans first differ, as it lies in the second scan, or an empty part: no row differs, or one of
 * checks 1 to 11 and 13 fails. An empty part starts where the second scan does, which may be null if its length is 0.
 * The part is the caller's own bytes: it lasts as long as the second scan does.
 */
static inline sheet_part sheet_scans_differ(const uint8_t *plan, size_t plan_len, const uint8_t *first,
                                            size_t first_len, const uint8_t *second, size_t second_len) {
    uint64_t difference = sheet_first_difference(plan, plan_len, first, first_len, second, second_len);
    sheet_part part = {second, sheet_difference_length(difference)};
    if (part.length != 0) part.start += sheet_difference_place(difference);
    return part;
}

/*
 * The bytes of a plan of these sizes, with any t: the length that sheet_plan_make asks for. Any numbers may be handed
 * in: for absurd ones it wraps, and the call then answers 2, 3 or 4 whatever the length.
 */
static inline size_t sheet_plan_bytes(uint32_t n1, uint32_t n2, uint32_t b1, uint32_t b2, uint32_t rv, uint32_t rh) {
    size_t entries = (size_t)n1 * b2 + (size_t)n2 * b1;
    return SHEET_PLAN_HEADER_BYTES + 4 * (entries + rv + rh);
}

/* A 16-bit number of a plan's header, 0 where the plan has none. */
static inline size_t sheet_plan_field(const uint8_t *plan, size_t plan_len, size_t at) {
    return plan_len < SHEET_PLAN_HEADER_BYTES ? 0 : (size_t)plan[at] + 256u * (size_t)plan[at + 1];
}

/*
 * The sizes that an accepted plan asks for: bytes of a sheet by rows, and of one by columns; k, the number of its data
 * bits; and bytes of its data. Any bytes may be handed in.
 */
static inline size_t sheet_plan_sheet_bytes(const uint8_t *plan, size_t plan_len) {
    return sheet_plan_field(plan, plan_len, 0) * ((sheet_plan_field(plan, plan_len, 2) + 7) / 8);
}

static inline size_t sheet_plan_column_bytes(const uint8_t *plan, size_t plan_len) {
    return sheet_plan_field(plan, plan_len, 2) * ((sheet_plan_field(plan, plan_len, 0) + 7) / 8);
}

static inline size_t sheet_plan_data_bits(const uint8_t *plan, size_t plan_len) {
    size_t cells = sheet_plan_field(plan, plan_len, 0) * sheet_plan_field(plan, plan_len, 2);
    size_t checks = sheet_plan_field(plan, plan_len, 8) + sheet_plan_field(plan, plan_len, 10);
    return cells < checks ? 0 : cells - checks;
}

static inline size_t sheet_plan_data_bytes(const uint8_t *plan, size_t plan_len) {
    return (sheet_plan_data_bits(plan, plan_len) + 7) / 8;
}

/*
 * Where a sheet begins in a stack of this count, counted from the stack's first byte; sheets are numbered from 0. Any
 * bytes and any numbers may be handed in: for absurd ones it wraps.
 */
static inline size_t sheet_stack_offset(const uint8_t *plan, size_t plan_len, size_t count, size_t sheet) {
    return 2 + 6 * count + sheet * sheet_plan_sheet_bytes(plan, plan_len);
}

/* The bytes of a stack of this count: the length that sheet_read_stack asks for. */
static inline size_t sheet_stack_bytes(const uint8_t *plan, size_t plan_len, size_t count) {
    return sheet_stack_offset(plan, plan_len, count, count);
}

/* Writes a number to so many bytes, low byte first. */
static inline void sheet_stack_put(uint8_t *at, size_t bytes, size_t number) {
    for (size_t byte = 0; byte < bytes; byte++) at[byte] = (uint8_t)(number >> (8 * byte) & 255u);
}

/*
 * Writes the header of a stack of this count: its first 2 + 6 times count bytes, and no other. rooms has one byte for
 * each sheet, its room. Any bytes and any count may be handed in; sheet_read_stack turns back what it does not take.
 */
static inline void sheet_stack_header(const uint8_t *plan, size_t plan_len, const uint8_t *rooms, size_t count,
                                      uint8_t *stack) {
    sheet_stack_put(stack, 2, count);
    for (size_t sheet = 0; sheet < count; sheet++) {
        uint8_t *entry = stack + 2 + 6 * sheet;
        sheet_stack_put(entry, 2, rooms[sheet]);
        sheet_stack_put(entry + 2, 4, sheet_stack_offset(plan, plan_len, count, sheet));
    }
}

/*
 * The numbers of a sheet of a stack as the answer that sheet_read gives of it alone: the functions above take it apart.
 * numbers is the buffer of the whole stack, as sheet_read_stack left it. Of any other bytes some answer is made.
 */
static inline uint64_t sheet_stack_answer(const uint8_t *numbers, size_t sheet) {
    static const unsigned shifts[9] = {0, 5, 21, 5, 10, 19, 29, 32, 35};
    const uint8_t *of = numbers + SHEET_STACK_NUMBERS * sheet;
    uint64_t answer = 0;
    for (size_t at = 0; at < 9; at++) answer |= (of[2 * at] | (uint64_t)of[2 * at + 1] << 8) << shifts[at];
    return answer;
}

#ifdef __cplusplus
}
#endif

#endif
