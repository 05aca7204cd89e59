/*
 * The header's names: flags, the words that the rule leaves 0, the words of a cursor and of a dispatcher, the places of an
 * index, and the bytes of a report.
 */
#include "cases.h"
#include "rule.h"
#include <inttypes.h>
#include <stdio.h>

#define LOAD (MAGNETAR_FLAG_WE | MAGNETAR_FLAG_IS_ARITH | MAGNETAR_FLAG_IS_LOAD)

static const struct name {
    const char *text;
    uint64_t row, shift_out, byte_offset, store_width, flags;
} cases[] = {
    {"lbu x1, 3(x0)", 0x00304083, 0, 3, 0, LOAD | MAGNETAR_FLAG_LD_BYTE},
    {"lhu x1, 2(x0)", 0x00205083, 0, 2, 0, LOAD | MAGNETAR_FLAG_LD_HALF},
    {"ld x1, 0(x0)", 0x00003083, 0, 0, 0, LOAD | MAGNETAR_FLAG_LD_WORD},
    {"sb x1, 5(x0)", 0x001002a3, 0, 5, 1, MAGNETAR_FLAG_IS_STORE},
    {"sub x1, x2, x3", 0x403100b3, 0, 0, 0, MAGNETAR_FLAG_WE | MAGNETAR_FLAG_IS_ARITH | MAGNETAR_FLAG_IS_SUB_OP},
    {"xor x1, x2, x3", 0x003140b3, 0, 0, 0, MAGNETAR_FLAG_WE | MAGNETAR_FLAG_IS_LOGIC},
    {"slli x1, x2, 1", 0x00111093, 2004, 0, 0, MAGNETAR_FLAG_WE | MAGNETAR_FLAG_IS_SHIFT},
    {"beq x0, x0, 0", 0x00000063, 0, 0, 0,
     MAGNETAR_FLAG_BRANCH_TAKEN | MAGNETAR_FLAG_IS_ARITH | MAGNETAR_FLAG_IS_SUB_OP},
    {"ecall", ECALL, 0, 0, 0, MAGNETAR_FLAG_HALTED_LATCH},
};

static void name_case(const struct name *c)
{
    uint64_t image[MAGNETAR_CURSOR_WORDS], record[MAGNETAR_RECORD_WORDS] = {0};
    ready_image(image);
    begin(AMID_GUARDS, "magnetar_segment", c->text);
    check("answer", magnetar_segment(&c->row, 1, image, 1, record, MAGNETAR_RECORD_WORDS), MAGNETAR_ACCEPTED);
    uint64_t packed = record[MAGNETAR_RECORD_PACKED];
    check("shift_out", record[MAGNETAR_RECORD_SHIFT_OUT], c->shift_out);
    check("byte_offset", MAGNETAR_BYTE_OFFSET(packed), c->byte_offset);
    check("store_width", MAGNETAR_STORE_WIDTH(packed), c->store_width);
    check("flags", packed - packed % TWO(16), c->flags);
}

/* The line of the most runs, each with the largest counts. */
static uint64_t longest_report(void)
{
    uint64_t sum = MAGNETAR_MAX_RUNS * MAGNETAR_MAX_COUNT, mean = 100 * MAGNETAR_MAX_COUNT;
    return snprintf(NULL, 0, "%d,%" PRIu64 ",%" PRIu64 ",%" PRIu64 "\n", MAGNETAR_MAX_RUNS, sum, sum, mean);
}

void name_cases(void)
{
    for (size_t i = 0; i < sizeof cases / sizeof *cases; i++)
        name_case(&cases[i]);
    begin(AMID_GUARDS, "magnetar_cursor_words", "the header's words");
    check("answer", magnetar_cursor_words(), MAGNETAR_CURSOR_WORDS);
    check("the registers' end", MAGNETAR_CURSOR_REGS + MAGNETAR_REGS, MAGNETAR_CURSOR_RAM);
    check("RAM's end", MAGNETAR_CURSOR_RAM + MAGNETAR_RAM_WORDS, MAGNETAR_CURSOR_MICRO_PC);
    check("an index's end", MAGNETAR_REGS + MAGNETAR_RAM_WORDS, MAGNETAR_INDEX_PLACES);
    begin(AMID_GUARDS, "magnetar_report", "the header's bytes");
    check("the longest line", longest_report(), MAGNETAR_REPORT_BYTES);
    begin(AMID_GUARDS, "magnetar_dispatcher_start", "the header's words");
    check("the callers' end", MAGNETAR_DISPATCHER_WANTED + MAGNETAR_CALLERS, MAGNETAR_DISPATCHER_POSITION);
    check("the position's end", MAGNETAR_DISPATCHER_POSITION + 1, MAGNETAR_DISPATCHER_BUDGET);
    check("the budget's end", MAGNETAR_DISPATCHER_BUDGET + 1, MAGNETAR_DISPATCHER_WORDS);
}
