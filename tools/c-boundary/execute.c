/* magnetar_execute. */
#include "cases.h"
#include "rule.h"
#include <inttypes.h>
#include <stdio.h>

#define MOST_RECORDS 8
#define INPUT_WORDS 257
#define RULE .rows = rule, .rows_len = RULE_ROWS

struct execution {
    const char *text;
    const uint64_t *rows;
    size_t rows_len, input_len;
    int rows_are_input;
    uint64_t max_cycles;
    size_t room;
    uint64_t answer, live, count;
};

/* What the rule leaves, by hand. */
static void expect_run(const struct execution *c, const uint64_t *input, uint64_t *records, uint64_t *cursor)
{
    uint64_t image[MAGNETAR_CURSOR_WORDS], wanted[MOST_RECORDS * MAGNETAR_RECORD_WORDS];
    fresh_image(image, input, c->input_len);
    for (size_t i = 0; i < c->count; i++)
        rule_cycle(image, i < c->live, wanted + MAGNETAR_RECORD_WORDS * i);
    expect(records, wanted, MAGNETAR_RECORD_WORDS * c->count);
    expect(cursor, image, MAGNETAR_CURSOR_WORDS);
}

static void execute_case(enum placement placement, const struct execution *c)
{
    char text[80];
    snprintf(text, sizeof text, "%s, max_cycles %" PRIu64 ", room %zu", c->text, c->max_cycles, c->room);
    uint64_t words[INPUT_WORDS];
    for (size_t i = 0; i < INPUT_WORDS; i++)
        words[i] = MOST - i;
    begin(placement, "magnetar_execute", text);
    const uint64_t *rows = lend_words("rows", c->rows, c->rows_len);
    /* What is only read may overlap. */
    const uint64_t *given = c->rows_are_input ? c->rows : words;
    const uint64_t *input = c->rows_are_input ? rows : lend_words("input", words, c->input_len);
    uint64_t *records = lend_room("records", NULL, c->room);
    uint64_t *cursor = lend_room("cursor", NULL, MAGNETAR_CURSOR_WORDS);
    uint64_t *live = lend_room("live", NULL, 1);
    uint64_t *count = lend_room("record_count", NULL, 1);
    if (c->answer == MAGNETAR_ACCEPTED) {
        expect_run(c, given, records, cursor);
        expect(live, &c->live, 1);
        expect(count, &c->count, 1);
    }
    end(magnetar_execute(rows, c->rows_len, input, c->input_len, c->max_cycles, records, c->room, cursor, live, count),
        c->answer);
}

static void run_executions(enum placement placement, const struct execution *cases, size_t n)
{
    for (size_t i = 0; i < n; i++)
        execute_case(placement, &cases[i]);
}

static void accepted(enum placement placement)
{
    static const struct execution cases[] = {
        {"no cycles", RULE, .max_cycles = 0, .room = 17, .live = 0, .count = 1},
        {"no cycles, more room", RULE, .max_cycles = 0, .room = 40, .live = 0, .count = 1},
        {"stopped", RULE, .max_cycles = 1, .room = 17, .live = 1, .count = 1},
        {"stopped", RULE, .max_cycles = 2, .room = 34, .live = 2, .count = 2},
        {"stopped, more room", RULE, .max_cycles = 2, .room = 35, .live = 2, .count = 2},
        {"halted at the last cycle", RULE, .max_cycles = 3, .room = 68, .live = 3, .count = 4},
        {"halted", RULE, .max_cycles = 4, .room = 68, .live = 3, .count = 4},
        {"halted, fewer records than room", RULE, .max_cycles = 5, .room = 136, .live = 3, .count = 4},
        {"halted, fewer records than room", RULE, .max_cycles = 8, .room = 137, .live = 3, .count = 4},
        {"an input word", RULE, .input_len = 1, .max_cycles = 3, .room = 68, .live = 3, .count = 4},
        {"two input words", RULE, .input_len = 2, .max_cycles = 3, .room = 68, .live = 3, .count = 4},
        {"256 input words", RULE, .input_len = 256, .max_cycles = 3, .room = 68, .live = 3, .count = 4},
        {"the rows as input", RULE, .rows_are_input = 1, .input_len = 3, .max_cycles = 3, .room = 68, .live = 3, .count = 4},
        {"257 input words", RULE, .input_len = 257, .max_cycles = 3, .room = 68, .live = 3, .count = 4},
    };
    run_executions(placement, cases, sizeof cases / sizeof *cases);
}

/* 6 counts the room for max_cycles, also where the rule halts earlier. */
static void refused(enum placement placement)
{
    static const struct execution cases[] = {
        {"empty records", RULE, .max_cycles = 0, .room = 0, .answer = 6},
        {"one short", RULE, .max_cycles = 0, .room = 16, .answer = 6},
        {"one short", RULE, .max_cycles = 1, .room = 16, .answer = 6},
        {"one short", RULE, .max_cycles = 2, .room = 33, .answer = 6},
        {"room for three", RULE, .max_cycles = 3, .room = 51, .answer = 6},
        {"one short", RULE, .max_cycles = 3, .room = 67, .answer = 6},
        {"room for the records", RULE, .max_cycles = 5, .room = 68, .answer = 6},
        {"one short", RULE, .max_cycles = 5, .room = 135, .answer = 6},
        {"2^32 cycles", RULE, .max_cycles = TWO(32), .room = 136, .answer = 6},
        {"2^32 + 1 cycles", RULE, .max_cycles = TWO(32) + 1, .room = 136, .answer = 5},
        {"2^32 + 1 cycles, empty records", RULE, .max_cycles = TWO(32) + 1, .room = 0, .answer = 5},
        {"2^62 cycles", RULE, .max_cycles = TWO(62), .room = 136, .answer = 5},
        {"2^63 + 1 cycles", RULE, .max_cycles = TWO(63) + 1, .room = 136, .answer = 5},
        {"words wrap", RULE, .max_cycles = WRAPS_WORDS, .room = 136, .answer = 5},
        {"2^64 - 1 cycles", RULE, .max_cycles = MOST, .room = 136, .answer = 5},
        {"3 is met", .rows = odd_rows, .rows_len = 1, .max_cycles = 1, .room = 17, .answer = 3},
        {"3, 5 and 6 are met", .rows = odd_rows, .rows_len = 1, .max_cycles = MOST, .room = 0, .answer = 3},
        {"1 is met", .rows = rule, .rows_len = 0, .max_cycles = 1, .room = 17, .answer = 1},
        {"1, 5 and 6 are met", .rows = rule, .rows_len = 0, .max_cycles = MOST, .room = 0, .answer = 1},
    };
    run_executions(placement, cases, sizeof cases / sizeof *cases);
}

/* A rule that never ends, jal x0, 0: three live cycles are padded to four. The last record is padding. */
static void endless(enum placement placement)
{
    static const uint64_t row[1] = {0x0000006f};
    const uint64_t three = 3, four = 4;
    uint64_t image[MAGNETAR_CURSOR_WORDS] = {0}, wanted[4 * MAGNETAR_RECORD_WORDS] = {0};
    for (size_t i = 0; i < 4; i++)
        wanted[MAGNETAR_RECORD_WORDS * i + MAGNETAR_RECORD_RD] = 32;
    wanted[MAGNETAR_RECORD_WORDS * 3 + MAGNETAR_RECORD_PACKED] = MAGNETAR_FLAG_HALTED_LATCH;
    image[MAGNETAR_CURSOR_CYCLES] = 3;
    begin(placement, "magnetar_execute", "a rule that never ends");
    const uint64_t *rows = lend_words("rows", row, 1);
    const uint64_t *input = lend_words("input", NULL, 0);
    uint64_t *records = lend_room("records", NULL, 4 * MAGNETAR_RECORD_WORDS);
    uint64_t *cursor = lend_room("cursor", NULL, MAGNETAR_CURSOR_WORDS);
    uint64_t *live = lend_room("live", NULL, 1);
    uint64_t *count = lend_room("record_count", NULL, 1);
    expect(records, wanted, 4 * MAGNETAR_RECORD_WORDS);
    expect(cursor, image, MAGNETAR_CURSOR_WORDS);
    expect(live, &three, 1);
    expect(count, &four, 1);
    end(magnetar_execute(rows, 1, input, 0, 3, records, 4 * MAGNETAR_RECORD_WORDS, cursor, live, count), 0);
}

void execute_cases(enum placement placement)
{
    accepted(placement);
    refused(placement);
    endless(placement);
}
