/*
 * The verified trace recorder for RV64I: the C interface of libmagnetar_cpu.a.
 *
 * A program of RV64I words is expanded into rows (magnetar_expand). A machine
 * is a cursor: registers, RAM and a few numbers (magnetar_start). Calls run
 * cycles on it and write a record of 17 words for each (magnetar_segment,
 * magnetar_padding). magnetar_execute does all of a run in one call. An index
 * says which record of a log was the latest to write each register and RAM word
 * (magnetar_index_build, magnetar_index_add). A report is a line of figures over
 * many runs (magnetar_report). A dispatcher grants slices of one budget of cycles
 * to sixteen callers in turn (magnetar_dispatcher_start, magnetar_dispatcher_add,
 * magnetar_dispatcher_turn).
 *
 * Rules for pointers:
 * - A slice is a pointer and a length, counted in elements. All the elements
 *   counted must be there.
 * - No pointer is null, and each is aligned for its type, also where the length
 *   is 0; nothing is read or written through it then. malloc(0) may give null,
 *   and so may data() of an empty std::vector, also after reserve(): where there
 *   is nothing to lend, give the address of a variable of that type.
 * - Behind every cursor pointer are MAGNETAR_CURSOR_WORDS words, behind every
 *   dispatcher pointer MAGNETAR_DISPATCHER_WORDS; behind count, record_count, live
 *   of magnetar_execute, length of magnetar_report, caller and slice of
 *   magnetar_dispatcher_turn is one.
 * - What a call writes overlaps nothing else that it is lent: caller and slice are
 *   two words, and none of the dispatcher's. Places that it only reads may
 *   overlap.
 * - What is only written needs no content before the call.
 *
 * Rules for answers, but for magnetar_is_expansion, magnetar_same and
 * magnetar_cursor_words, which answer as they say:
 * - MAGNETAR_ACCEPTED, or the number of a refusal. If several refusals are met,
 *   the answer is the one that the call's comment names first. That is the lowest
 *   number, but in the calls of an index and in magnetar_report.
 * - A refused call has changed nothing behind any pointer.
 * - An accepted call changes only what its comment names. What a buffer holds past
 *   that is left as it was.
 *
 * Sums, products and comparisons are exact: no length or number makes a test
 * wrap around. The library keeps nothing from one call to the next.
 */
#ifndef MAGNETAR_CPU_H
#define MAGNETAR_CPU_H

#include <stddef.h>
#include <stdint.h>

/* Makes compilers warn of an answer that is not used: it may be a refusal. */
#if (defined(__cplusplus) && __cplusplus >= 201703L) || \
    (defined(__STDC_VERSION__) && __STDC_VERSION__ >= 202311L)
#define MAGNETAR_MUST_USE [[nodiscard]]
#elif defined(__GNUC__)
#define MAGNETAR_MUST_USE __attribute__((warn_unused_result))
#else
#define MAGNETAR_MUST_USE
#endif

#ifdef __cplusplus
extern "C" {
#endif

/* ---- answers */

#define MAGNETAR_ACCEPTED 0
/* There are no program words, or no rows. */
#define MAGNETAR_NO_ROWS 1
/* There are more than MAGNETAR_MAX_PROGRAM_WORDS words, or MAGNETAR_MAX_ROWS rows. */
#define MAGNETAR_TOO_MANY_ROWS 2
/* The rows are not the expansion of a program. */
#define MAGNETAR_NO_EXPANSION 3
/* micro_pc or next_fetch is not below the row count. */
#define MAGNETAR_OUTSIDE_ROWS 4
/*
 * cycles + length is over MAGNETAR_MAX_TOTAL_CYCLES, or max_cycles over
 * MAGNETAR_MAX_EXECUTE_CYCLES.
 */
#define MAGNETAR_TOO_MANY_CYCLES 5
/*
 * The same number, of an index: `before` + the records of the log is over
 * MAGNETAR_MAX_RECORDS.
 */
#define MAGNETAR_TOO_MANY_RECORDS 5
/* A buffer is too short for what goes into it. */
#define MAGNETAR_SHORT 6
/* A log is no whole number of records. */
#define MAGNETAR_PARTIAL 7
/*
 * A record has a register of MAGNETAR_REGS or more, or a RAM word of
 * MAGNETAR_RAM_WORDS or more.
 */
#define MAGNETAR_OUT_OF_RANGE 8
/*
 * The lists of a report are of unequal length, or have no runs or more than
 * MAGNETAR_MAX_RUNS.
 */
#define MAGNETAR_BAD_RUNS 9
/* A count in a list of a report is over MAGNETAR_MAX_COUNT. */
#define MAGNETAR_BAD_COUNT 10
/*
 * The caller of an add is MAGNETAR_CALLERS or above, or the circle position of the
 * dispatcher is.
 */
#define MAGNETAR_NO_CALLER 11
/* The sum that the caller of an add wants would be over MAGNETAR_MAX_WANTED. */
#define MAGNETAR_TOO_MUCH_WANTED 12

/* ---- limits */

#define MAGNETAR_MAX_PROGRAM_WORDS 1048576
/* As many as the longest program has, if all its words are register shifts. */
#define MAGNETAR_MAX_ROWS 6291456
/* Of a cursor's cycles and a segment's length together: 2^62. */
#define MAGNETAR_MAX_TOTAL_CYCLES ((uint64_t)1 << 62)
/* Of max_cycles of magnetar_execute: 2^32. */
#define MAGNETAR_MAX_EXECUTE_CYCLES ((uint64_t)1 << 32)
/* Of the records that an index counts, `before` and those of the log: 2^62. */
#define MAGNETAR_MAX_RECORDS ((uint64_t)1 << 62)
/* Of the runs of a report. */
#define MAGNETAR_MAX_RUNS 65536
/* Of each count in the lists of a report: 2^32. */
#define MAGNETAR_MAX_COUNT ((uint64_t)1 << 32)
/* Of the cycles that a turn of a dispatcher grants. */
#define MAGNETAR_MAX_SLICE 4096
/* Of the cycles that a caller wants after an add: 2^32. */
#define MAGNETAR_MAX_WANTED ((uint64_t)1 << 32)
/* The most rows that one program word gives. */
#define MAGNETAR_ROWS_PER_WORD 6

/* ---- the image of a cursor: what stands at which word */

#define MAGNETAR_CURSOR_WORDS 325
#define MAGNETAR_REGS 64
#define MAGNETAR_RAM_WORDS 256

/* The first register. Register 0 holds what the stages of a register shift leave. */
#define MAGNETAR_CURSOR_REGS 0
/* The first word of RAM. */
#define MAGNETAR_CURSOR_RAM 64
/* The row of the next live cycle. */
#define MAGNETAR_CURSOR_MICRO_PC 320
/* How many live cycles there were. */
#define MAGNETAR_CURSOR_CYCLES 321
/* 0 is a live machine, any other word a halted one; accepted calls write 0 or 1. */
#define MAGNETAR_CURSOR_HALTED 322
/* Register 10 as it was when the machine halted; 0 from the start until then. */
#define MAGNETAR_CURSOR_OUTPUT 323
/* The row of the next padding cycle: next_pc of the last record. */
#define MAGNETAR_CURSOR_NEXT_FETCH 324

/* ---- a record: what stands at which word; docs/LIBRARY.md has it in full */

#define MAGNETAR_RECORD_WORDS 17

/* The row of the cycle. */
#define MAGNETAR_RECORD_MICRO_PC 0
/* The registers that the row names, before the cycle. */
#define MAGNETAR_RECORD_RS1_VAL 1
#define MAGNETAR_RECORD_RS2_VAL 2
/*
 * What is written, what the register held (of a jump that writes its link, that
 * link), and which register it is; 32 stands for none and for x0.
 */
#define MAGNETAR_RECORD_RD_VAL 3
#define MAGNETAR_RECORD_RD_OLD 4
#define MAGNETAR_RECORD_RD 5
/* The RAM word accessed, 0 if none is, and what it held. */
#define MAGNETAR_RECORD_RAM_ADDR 6
#define MAGNETAR_RECORD_RAM_WORD 7
/* Of a store: what the RAM word held, what it holds then, and rs2. */
#define MAGNETAR_RECORD_RAM_OLD 8
#define MAGNETAR_RECORD_RAM_NEW 9
#define MAGNETAR_RECORD_STORE_SRC 10
/* The row after the cycle. */
#define MAGNETAR_RECORD_NEXT_PC 11
/* Operands and output of the ALU: of a load or store the base, the offset and the address. */
#define MAGNETAR_RECORD_ALU_A 12
#define MAGNETAR_RECORD_ALU_B 13
#define MAGNETAR_RECORD_ALU_OUT 14
/* The value of a shift of one row (all but those of opcode 0x33), else 0. */
#define MAGNETAR_RECORD_SHIFT_OUT 15
/* byte_offset, store_width and the flags. */
#define MAGNETAR_RECORD_PACKED 16

/* Word 16 taken apart. */
#define MAGNETAR_BYTE_OFFSET(word) ((word) & 0xff)
#define MAGNETAR_STORE_WIDTH(word) ((word) >> 8 & 0xff)

/* The flags, as bits of word 16. */
#define MAGNETAR_FLAG_WE 0x00010000
#define MAGNETAR_FLAG_BRANCH_TAKEN 0x00020000
#define MAGNETAR_FLAG_IS_ARITH 0x00040000
#define MAGNETAR_FLAG_IS_LOGIC 0x00080000
#define MAGNETAR_FLAG_IS_SUB_OP 0x00100000
#define MAGNETAR_FLAG_IS_SHIFT 0x00200000
#define MAGNETAR_FLAG_IS_LOAD 0x00400000
#define MAGNETAR_FLAG_IS_STORE 0x00800000
#define MAGNETAR_FLAG_LD_BYTE 0x01000000
#define MAGNETAR_FLAG_LD_HALF 0x02000000
#define MAGNETAR_FLAG_LD_WORD 0x04000000
/* The cycle that halts, and every padding cycle. */
#define MAGNETAR_FLAG_HALTED_LATCH 0x08000000

/* ---- the last-writer index: what stands at which place */

/* Register x has place x, RAM word w place MAGNETAR_REGS + w. */
#define MAGNETAR_INDEX_PLACES 320
/* What a place holds that no record wrote. Any other number is a position, also 0. */
#define MAGNETAR_NONE UINT64_MAX

/* ---- the run report */

/* The bytes of the longest line, with its line feed. */
#define MAGNETAR_REPORT_BYTES 51

/* ---- a dispatcher: what stands at which word */

#define MAGNETAR_DISPATCHER_WORDS 18
/* The callers are 0 to 15. */
#define MAGNETAR_CALLERS 16

/* The cycles that caller 0 wants; those of caller c stand c words on. */
#define MAGNETAR_DISPATCHER_WANTED 0
/* The circle position: the caller at which the next turn's search starts. */
#define MAGNETAR_DISPATCHER_POSITION 16
/* The cycles of the budget that are left. */
#define MAGNETAR_DISPATCHER_BUDGET 17

/* ---- functions */

/*
 * Expands a program. A word gives one row, a register shift (opcode 0x33 with
 * funct3 1 or 5) six; a row is the word plus 2^32 times its stage, 0 to 5.
 *
 * Refused: 1 if program_len is 0; 2 if it is over MAGNETAR_MAX_PROGRAM_WORDS;
 * 6 if rows_len is below the count of rows or starts_len below program_len.
 *
 * Written: the rows, from rows[0] on; for each program word the position of its
 * first row, starts[0] to starts[program_len - 1]; the count of rows, *count.
 * MAGNETAR_ROWS_PER_WORD * program_len rows always suffice.
 */
MAGNETAR_MUST_USE
uint64_t magnetar_expand(const uint32_t *program, size_t program_len,
                         uint64_t *rows, size_t rows_len,
                         uint64_t *starts, size_t starts_len,
                         uint64_t *count);

/*
 * 1 if the rows are the expansion of a program of any length, else 0. No rows
 * are that of no words: 1. Nothing is refused, nothing is written.
 */
MAGNETAR_MUST_USE
uint64_t magnetar_is_expansion(const uint64_t *rows, size_t rows_len);

/*
 * Writes a fresh cursor, all its words: RAM holds the first 256 words of the
 * input and 0 after them, all else is 0. Further input is ignored. Nothing is
 * refused.
 */
void magnetar_start(const uint64_t *input, size_t input_len,
                    uint64_t cursor[MAGNETAR_CURSOR_WORDS]);

/*
 * Runs `length` cycles: live ones until the machine halts, padding after that.
 *
 * Refused: 1 if rows_len is 0; 2 if it is over MAGNETAR_MAX_ROWS; 3 if the rows
 * are not the expansion of a program; 4 if the cursor's micro_pc or next_fetch
 * is not below rows_len; 5 if its cycles + length is over
 * MAGNETAR_MAX_TOTAL_CYCLES, also on a halted machine; 6 if records_len is below
 * 17 * length.
 *
 * Written: the records, 17 * length words from records[0] on; the cursor after
 * the cycles, whose halted word becomes 0 or 1 also where length is 0.
 *
 * An accepted call of m + n cycles gives the records and the cursor of a call of
 * m cycles followed by one of n.
 */
MAGNETAR_MUST_USE
uint64_t magnetar_segment(const uint64_t *rows, size_t rows_len,
                          uint64_t cursor[MAGNETAR_CURSOR_WORDS],
                          uint64_t length,
                          uint64_t *records, size_t records_len);

/*
 * Runs `length` padding cycles at row next_fetch, also on a live machine. Each
 * writes the cursor's output to the register that the row names (32 for 0);
 * the five numbers of the cursor stay, but the halted word becomes 0 or 1. So
 * pad a machine that has halted, or a copy of the cursor: a live machine goes on
 * with the register overwritten, to another result.
 *
 * Refused: 1, 2, 3, 4 and 6 as magnetar_segment does; there is no 5, for cycles
 * does not grow.
 *
 * Written: the records, 17 * length words from records[0] on; the cursor after
 * the cycles.
 */
MAGNETAR_MUST_USE
uint64_t magnetar_padding(const uint64_t *rows, size_t rows_len,
                          uint64_t cursor[MAGNETAR_CURSOR_WORDS],
                          uint64_t length,
                          uint64_t *records, size_t records_len);

/*
 * A whole run: from the fresh cursor of the input, live cycles until the
 * machine halts, at most max_cycles of them, then padding up to a number of
 * records that is a power of two. Once a run has halted, a larger max_cycles
 * changes nothing.
 *
 * Refused: 1 if rows_len is 0; 2 if it is over MAGNETAR_MAX_ROWS; 3 if the rows
 * are not the expansion of a program; 5 if max_cycles is over
 * MAGNETAR_MAX_EXECUTE_CYCLES; 6 if records_len is below 17 * p, where p is the
 * smallest power of two that is at least max_cycles and 1, even if the run
 * would halt earlier.
 *
 * Written: the count of live cycles, *live; the count of records,
 * *record_count, the smallest power of two that is at least *live and 1; the
 * records, 17 * *record_count words from records[0] on; the cursor after the
 * padding, all its words; what it held before does not matter. If the run has
 * halted, it can be lent to further calls. If not, padding may have overwritten
 * a register: do not go on from it.
 */
MAGNETAR_MUST_USE
uint64_t magnetar_execute(const uint64_t *rows, size_t rows_len,
                          const uint64_t *input, size_t input_len,
                          uint64_t max_cycles,
                          uint64_t *records, size_t records_len,
                          uint64_t cursor[MAGNETAR_CURSOR_WORDS],
                          uint64_t *live, uint64_t *record_count);

/*
 * 1 if two cursors are the same checkpoint, else 0: every word but cycles
 * agrees. Any two halted words that are not 0 agree. Nothing is refused,
 * nothing is written.
 *
 * Two that are the same go on alike. Every list of segment and padding calls
 * made on both, with the same rows, lengths and room for records, in which
 * neither gets MAGNETAR_TOO_MANY_CYCLES, which looks at cycles, returns the same
 * numbers, writes equal records, and leaves cursors that are the same.
 */
MAGNETAR_MUST_USE
uint64_t magnetar_same(const uint64_t a[MAGNETAR_CURSOR_WORDS],
                       const uint64_t b[MAGNETAR_CURSOR_WORDS]);

/*
 * The library's own MAGNETAR_CURSOR_WORDS. Compare it once before the first
 * call: a library of another version may have a longer cursor, and would write
 * past an array of this header's length. The same length does not mean the
 * same answers: a library before 0.2.0 gives 0 for slt and slti, and
 * magnetar_same of one before 0.3.0 answers 1 where register 0 or next_fetch
 * differs. Nor does it tell MAGNETAR_DISPATCHER_WORDS: no function does.
 */
MAGNETAR_MUST_USE
uint64_t magnetar_cursor_words(void);

/* ---- functions of the last-writer index */

/*
 * The index of a log has for each of 64 registers and 256 RAM words the position,
 * from 0, of the latest record that wrote it. Every record writes the register in
 * its word 5; only a store (MAGNETAR_FLAG_IS_STORE) writes RAM, the word in its
 * word 6. Nothing else of a log is looked at: not whether it is the recorder's.
 *
 * Take a list of segment and padding calls from a fresh cursor, each with the same
 * rows and the cursor that the one before left, and the index of their joined log,
 * of at most MAGNETAR_MAX_RECORDS records:
 * - Register x of the last cursor, 1 to 63, is word 3 of the record at its place's
 *   position, and 0 where the place holds MAGNETAR_NONE.
 * - A RAM word whose place holds a position is word 9 of the record there. One
 *   whose place holds MAGNETAR_NONE was never stored to: it is as it was at the
 *   start, the input's word or 0, which the index does not tell.
 * - The place of register 0 says nothing of it: the stages of a register shift
 *   write it, and no record says so.
 * Of a log that begins at another cursor the 0 above does not hold: the register is
 * what it was there.
 */

/*
 * Writes the index of a log, all MAGNETAR_INDEX_PLACES places, whatever they held.
 * The index of no records, to which others can be added, is that of an empty log.
 *
 * Refused, in this order: 7 if log_len is no multiple of MAGNETAR_RECORD_WORDS; 8
 * if any record, be it a store or not, has MAGNETAR_REGS or more in word 5, or
 * MAGNETAR_RAM_WORDS or more in word 6; 6 if index_len is below
 * MAGNETAR_INDEX_PLACES. No log in memory has enough records for 5.
 *
 * Written: the index, index[0] to index[MAGNETAR_INDEX_PLACES - 1].
 */
MAGNETAR_MUST_USE
uint64_t magnetar_index_build(const uint64_t *log, size_t log_len,
                              uint64_t *index, size_t index_len);

/*
 * Adds a log to the index of the `before` records before it, which becomes that of
 * the joined log. A place that the log writes gets `before` plus the position in
 * the log; any other keeps what it holds, whatever that is. So `before` must be
 * how many records the index is of, which it does not hold itself, and memory of
 * zeros is no index: begin with magnetar_index_build.
 *
 * Refused, in this order: 7 and 8 as magnetar_index_build does; 5 if `before` + the
 * records of the log is over MAGNETAR_MAX_RECORDS; 6 if index_len is below
 * MAGNETAR_INDEX_PLACES.
 *
 * Written: the index, index[0] to index[MAGNETAR_INDEX_PLACES - 1]. It is read too,
 * and like all that is written it overlaps nothing else lent: not the log.
 */
MAGNETAR_MUST_USE
uint64_t magnetar_index_add(const uint64_t *log, size_t log_len, uint64_t before,
                            uint64_t *index, size_t index_len);

/* ---- function of the run report */

/*
 * Writes a line of four figures over many runs, of which `live` holds the live counts
 * and `records` the record counts: how many runs, the sum of `live`, the sum of
 * `records`, and the mean of `live` in hundredths. They are decimal whole numbers
 * without leading zeros, parted by commas; a line feed ends the line, and no zero byte
 * follows. Of 1, 2, 2 and 2, 2, 2 it is "3,5,6,167\n", whose 167 stands for 1.67.
 *
 * The mean is 100 times the sum of `live`, divided by the runs, to the nearest whole
 * number, a half going up: one live cycle in eight runs is 12.5 hundredths and gives
 * 13. The other figures are exact. That runs had these counts is not tested.
 *
 * Refused, in this order: 9 if live_len is not records_len, is 0 or is over
 * MAGNETAR_MAX_RUNS; 10 if any count in either list is over MAGNETAR_MAX_COUNT (none
 * that magnetar_execute writes is); 6 if line_len is below the bytes of this line.
 * MAGNETAR_REPORT_BYTES always suffice.
 *
 * Written: the line, from line[0] on; how many bytes it has, *length.
 */
MAGNETAR_MUST_USE
uint64_t magnetar_report(const uint64_t *live, size_t live_len,
                         const uint64_t *records, size_t records_len,
                         uint8_t *line, size_t line_len, uint64_t *length);

/* ---- functions of the dispatcher */

/*
 * Callers 0 to 15 each add cycles that they want, and each turn grants a slice of
 * one budget, shared by all, to the next of them that wants any, in circle order. A
 * dispatcher is plain words and knows no machine: that a slice is run, by a
 * magnetar_segment of that length on the caller's cursor, is its user's part.
 *
 * Take a list of adds and turns, refused ones included, from a fresh dispatcher of
 * any budget, each with the words that the one before left, which nothing else
 * writes:
 * - The slices granted and the budget left are together the opening budget.
 * - The slices of a caller and what it still wants are together its accepted adds.
 * - A caller that wants any is granted a slice within 16 turns, if before the last
 *   of them there is budget left.
 * - The position stays below MAGNETAR_CALLERS, and no caller wants more than
 *   MAGNETAR_MAX_WANTED.
 *
 * Run the slices of one caller, in order, as magnetar_segment calls of those lengths:
 * the first on a fresh cursor, each further one on the cursor that the one before
 * left, all with the same rows. If none is refused and the slices are together at
 * most MAGNETAR_MAX_TOTAL_CYCLES, the joined log and the last cursor depend on that
 * sum alone, not on how it was cut into slices.
 */

/*
 * Writes a fresh dispatcher, all its words: the budget; nobody wants any; the
 * circle starts at caller 0. Nothing is refused.
 */
void magnetar_dispatcher_start(uint64_t budget,
                               uint64_t dispatcher[MAGNETAR_DISPATCHER_WORDS]);

/*
 * The caller wants `cycles` more than it did.
 *
 * Refused, in this order: 11 if caller or circle position is MAGNETAR_CALLERS or
 * above; 12 if what the caller wants + cycles is over MAGNETAR_MAX_WANTED, also
 * where cycles is 0.
 *
 * Written: what the caller wants,
 * dispatcher[MAGNETAR_DISPATCHER_WANTED + caller].
 */
MAGNETAR_MUST_USE
uint64_t magnetar_dispatcher_add(uint64_t dispatcher[MAGNETAR_DISPATCHER_WORDS],
                                 uint64_t caller, uint64_t cycles);

/*
 * Grants a slice to the next caller that wants any, from the circle position on and
 * after caller 15 from caller 0 on. The slice is the least of MAGNETAR_MAX_SLICE,
 * what the caller wants and the budget. What the caller wants and the budget fall by
 * it, and the position goes to the caller after this one.
 *
 * If the budget is 0 or nobody wants any, nothing is granted: the answer is
 * MAGNETAR_ACCEPTED, *caller becomes MAGNETAR_CALLERS and *slice 0, and no word of
 * the dispatcher changes. So compare *caller with MAGNETAR_CALLERS before it is
 * used as the place of anything.
 *
 * No call gives a slice back. If the magnetar_segment call for it is refused, make
 * that call again with what suffices, or go on from a copy of the dispatcher that
 * was made before the turn.
 *
 * Refused: 11 if the circle position is MAGNETAR_CALLERS or above, also where there
 * is nothing to grant. What a caller wants is not tested here: any number will do.
 *
 * Written: the caller that is granted the slice, *caller; its cycles, *slice; what
 * the caller wants, the position and the budget.
 */
MAGNETAR_MUST_USE
uint64_t magnetar_dispatcher_turn(uint64_t dispatcher[MAGNETAR_DISPATCHER_WORDS],
                                  uint64_t *caller, uint64_t *slice);

#ifdef __cplusplus
}
#endif

#endif
