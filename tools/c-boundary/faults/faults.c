/*
 * Wrong libraries, which the boundary program must report. It is linked with
 * this file and with the linker's --wrap for each function, so that its calls
 * come here. The variable FAULT names what goes wrong; without it nothing does.
 */
#include "magnetar_cpu.h"
#include <stdlib.h>
#include <string.h>

/* Reads are not left out, though nothing uses what was read. */
static volatile uint64_t seen;

static int is_fault(const char *name)
{
    const char *fault = getenv("FAULT");
    return fault != NULL && strcmp(fault, name) == 0;
}

static void change(const char *name, uint64_t *word, int is_met)
{
    if (is_met && is_fault(name))
        *word = *word == 0;
}

/* The answer, or another if the fault is this one and `is_met`. */
static uint64_t other(const char *name, uint64_t answer, uint64_t wrong, int is_met)
{
    return is_met && is_fault(name) ? wrong : answer;
}

uint64_t __real_magnetar_expand(const uint32_t *, size_t, uint64_t *, size_t, uint64_t *, size_t, uint64_t *);
uint64_t __real_magnetar_is_expansion(const uint64_t *, size_t);
void __real_magnetar_start(const uint64_t *, size_t, uint64_t *);
uint64_t __real_magnetar_segment(const uint64_t *, size_t, uint64_t *, uint64_t, uint64_t *, size_t);
uint64_t __real_magnetar_padding(const uint64_t *, size_t, uint64_t *, uint64_t, uint64_t *, size_t);
uint64_t __real_magnetar_execute(const uint64_t *, size_t, const uint64_t *, size_t, uint64_t, uint64_t *, size_t,
                                 uint64_t *, uint64_t *, uint64_t *);
uint64_t __real_magnetar_same(const uint64_t *, const uint64_t *);
uint64_t __real_magnetar_cursor_words(void);
uint64_t __real_magnetar_index_build(const uint64_t *, size_t, uint64_t *, size_t);
uint64_t __real_magnetar_index_add(const uint64_t *, size_t, uint64_t, uint64_t *, size_t);
uint64_t __real_magnetar_report(const uint64_t *, size_t, const uint64_t *, size_t, uint8_t *, size_t, uint64_t *);
void __real_magnetar_dispatcher_start(uint64_t, uint64_t *);
uint64_t __real_magnetar_dispatcher_add(uint64_t *, uint64_t, uint64_t);
uint64_t __real_magnetar_dispatcher_turn(uint64_t *, uint64_t *, uint64_t *);

uint64_t __wrap_magnetar_expand(const uint32_t *program, size_t program_len, uint64_t *rows, size_t rows_len,
                                uint64_t *starts, size_t starts_len, uint64_t *count)
{
    if (is_fault("expand reads past the program") && program_len > 0)
        seen = program[program_len];
    if (is_fault("expand reads before the program") && program_len > 0)
        seen = program[-1];
    if (is_fault("expand reads an empty program") && program_len == 0)
        seen = program[0];
    uint64_t answer = __real_magnetar_expand(program, program_len, rows, rows_len, starts, starts_len, count);
    change("expand writes count on refusal", count, answer != 0);
    change("expand writes past count", count + 1, answer == 0);
    change("expand writes rows on refusal", rows, answer == MAGNETAR_SHORT && rows_len > 0);
    change("expand writes past the rows", rows + rows_len, answer == 0);
    change("expand writes rows past the count", rows + rows_len - 1, answer == 0 && rows_len > *count);
    change("expand writes before starts", starts - 1, answer == 0);
    change("expand writes starts past the words", starts + starts_len - 1, answer == 0 && starts_len > program_len);
    answer = other("expand takes more than the most words", answer, 0, answer == MAGNETAR_TOO_MANY_ROWS);
    return other("expand has 1 for a short buffer", answer, MAGNETAR_NO_ROWS, answer == MAGNETAR_SHORT);
}

uint64_t __wrap_magnetar_is_expansion(const uint64_t *rows, size_t rows_len)
{
    if (is_fault("is_expansion reads past the rows") && rows_len > 0)
        seen = rows[rows_len];
    return other("is_expansion takes no rows for none", __real_magnetar_is_expansion(rows, rows_len), 0, rows_len == 0);
}

void __wrap_magnetar_start(const uint64_t *input, size_t input_len, uint64_t *cursor)
{
    uint64_t next_fetch = cursor[MAGNETAR_CURSOR_NEXT_FETCH];
    if (is_fault("start reads past the input") && input_len > 0)
        seen = input[input_len];
    __real_magnetar_start(input, input_len, cursor);
    if (is_fault("start leaves next_fetch"))
        cursor[MAGNETAR_CURSOR_NEXT_FETCH] = next_fetch;
    change("start writes past the cursor", cursor + MAGNETAR_CURSOR_WORDS, 1);
    if (is_fault("start writes the input") && input_len > 0)
        *(volatile uint64_t *)input = input[0];
}

uint64_t __wrap_magnetar_segment(const uint64_t *rows, size_t rows_len, uint64_t *cursor, uint64_t length,
                                 uint64_t *records, size_t records_len)
{
    uint64_t halted = cursor[MAGNETAR_CURSOR_HALTED], sum = cursor[MAGNETAR_CURSOR_CYCLES] + length;
    if (is_fault("segment reads past the rows") && rows_len > 0)
        seen = rows[rows_len];
    if (is_fault("segment reads before the rows") && rows_len > 0)
        seen = rows[-1];
    if (is_fault("segment reads empty rows") && rows_len == 0)
        seen = rows[0];
    uint64_t answer = __real_magnetar_segment(rows, rows_len, cursor, length, records, records_len);
    if (is_fault("segment writes halted on refusal") && answer != 0)
        cursor[MAGNETAR_CURSOR_HALTED] = halted != 0;
    if (is_fault("segment keeps halted at length 0") && answer == 0 && length == 0)
        cursor[MAGNETAR_CURSOR_HALTED] = halted;
    change("segment writes the cursor on refusal", cursor, answer != 0);
    change("segment writes past the cursor", cursor + MAGNETAR_CURSOR_WORDS, answer == 0);
    change("segment writes past the records", records + records_len, answer == 0);
    change("segment writes before the records", records - 1, answer == 0 && length > 0);
    change("segment writes past its cycles", records + 17 * length, answer == 0 && records_len > 17 * length);
    change("segment writes records on refusal", records, answer == MAGNETAR_SHORT && records_len > 0);
    answer = other("segment takes more than the most rows", answer, 0, answer == MAGNETAR_TOO_MANY_ROWS);
    answer = other("segment has no 6", answer, 0, answer == MAGNETAR_SHORT);
    answer = other("segment has 6 before 5", answer, 6, answer == 5 && records_len / 17 < length);
    answer = other("segment's sum wraps", answer, 0, answer == 5 && sum <= MAGNETAR_MAX_TOTAL_CYCLES);
    answer = other("segment has no 5 on a halted machine", answer, 0, answer == 5 && halted != 0);
    return other("segment's words wrap", answer, 0, answer == 6 && 17 * length <= records_len);
}

uint64_t __wrap_magnetar_padding(const uint64_t *rows, size_t rows_len, uint64_t *cursor, uint64_t length,
                                 uint64_t *records, size_t records_len)
{
    uint64_t cycles = cursor[MAGNETAR_CURSOR_CYCLES];
    uint64_t answer = __real_magnetar_padding(rows, rows_len, cursor, length, records, records_len);
    change("padding counts cycles", cursor + MAGNETAR_CURSOR_CYCLES, answer == 0 && length > 0);
    change("padding moves micro_pc", cursor + MAGNETAR_CURSOR_MICRO_PC, answer == 0 && length > 0);
    change("padding writes past the records", records + records_len, answer == 0);
    answer = other("padding has 3 before 2 with more than the most rows", answer, 3, answer == MAGNETAR_TOO_MANY_ROWS);
    answer = other("padding's bytes wrap", answer, 0, answer == 6 && 136 * length <= 8 * records_len);
    return other("padding has a 5", answer, 5, answer == 0 && cycles > MAGNETAR_MAX_TOTAL_CYCLES);
}

uint64_t __wrap_magnetar_execute(const uint64_t *rows, size_t rows_len, const uint64_t *input, size_t input_len,
                                 uint64_t max_cycles, uint64_t *records, size_t records_len, uint64_t *cursor,
                                 uint64_t *live, uint64_t *record_count)
{
    if (is_fault("execute reads past the input") && input_len > 0)
        seen = input[input_len];
    uint64_t answer = __real_magnetar_execute(rows, rows_len, input, input_len, max_cycles, records, records_len, cursor,
                                              live, record_count);
    change("execute writes live on refusal", live, answer != 0);
    change("execute writes record_count on refusal", record_count, answer != 0);
    change("execute writes the cursor on refusal", cursor + MAGNETAR_CURSOR_OUTPUT, answer != 0);
    change("execute writes before live", live - 1, answer == 0);
    change("execute writes past record_count", record_count + 1, answer == 0);
    change("execute writes past the records", records + records_len, answer == 0);
    change("execute writes past its count", records + records_len - 1, answer == 0 && records_len > 17 * *record_count);
    change("execute writes live with more than the most rows", live, answer == MAGNETAR_TOO_MANY_ROWS);
    answer = other("execute has 6 before 5", answer, 6, answer == 5);
    return other("execute has no 6 where it halts", answer, 0, answer == 6 && records_len >= 68 && max_cycles > 3);
}

uint64_t __wrap_magnetar_same(const uint64_t *a, const uint64_t *b)
{
    uint64_t answer = __real_magnetar_same(a, b);
    answer = other("same leaves out register 0", answer, 1, a[0] != b[0]);
    answer = other("same counts cycles", answer, 0, a[MAGNETAR_CURSOR_CYCLES] != b[MAGNETAR_CURSOR_CYCLES]);
    answer = other("same leaves out next_fetch", answer, 1, a[MAGNETAR_CURSOR_NEXT_FETCH] != b[MAGNETAR_CURSOR_NEXT_FETCH]);
    answer = other("same compares halted words", answer, 0, a[MAGNETAR_CURSOR_HALTED] != b[MAGNETAR_CURSOR_HALTED]);
    answer = other("same leaves out the last RAM word", answer, 1, a[319] != b[319]);
    answer = other("same leaves out register 63", answer, 1, a[63] != b[63]);
    if (is_fault("same reads past an image"))
        seen = b[MAGNETAR_CURSOR_WORDS];
    return answer;
}

uint64_t __wrap_magnetar_cursor_words(void)
{
    return other("cursor_words is 324", __real_magnetar_cursor_words(), 324, 1);
}

uint64_t __wrap_magnetar_index_build(const uint64_t *log, size_t log_len, uint64_t *index, size_t index_len)
{
    if (is_fault("index_build reads past the log") && log_len > 0)
        seen = log[log_len];
    uint64_t answer = __real_magnetar_index_build(log, log_len, index, index_len);
    change("index_build writes on refusal", index, answer != 0 && index_len > 0);
    change("index_build writes past its places", index + MAGNETAR_INDEX_PLACES, answer == 0);
    return other("index_build has 6 before 8", answer, 6, answer == 8 && index_len < MAGNETAR_INDEX_PLACES);
}

uint64_t __wrap_magnetar_index_add(const uint64_t *log, size_t log_len, uint64_t before, uint64_t *index,
                                   size_t index_len)
{
    uint64_t answer = __real_magnetar_index_add(log, log_len, before, index, index_len);
    uint64_t sum = before + log_len / MAGNETAR_RECORD_WORDS;
    change("index_add writes before the index", index - 1, answer == 0);
    change("index_add writes a place that no record does", index + 2, answer == 0);
    answer = other("index_add has 5 before 8", answer, 5, answer == 8 && before > MAGNETAR_MAX_RECORDS);
    return other("index_add's sum wraps", answer, 0, answer == 5 && sum <= MAGNETAR_MAX_RECORDS);
}

/* Whether one of the counts is above the largest. */
static int is_above(const uint64_t *counts, size_t n)
{
    while (n > 0 && counts[n - 1] <= MAGNETAR_MAX_COUNT)
        n--;
    return n > 0;
}

/* Whether the mean ends in half a hundredth. */
static int is_half(const uint64_t *counts, size_t n)
{
    uint64_t sum = 0;
    for (size_t i = 0; i < n; i++)
        sum += counts[i];
    return 200 * sum % (2 * n) == n;
}

uint64_t __wrap_magnetar_report(const uint64_t *live, size_t live_len, const uint64_t *records, size_t records_len,
                                uint8_t *line, size_t line_len, uint64_t *length)
{
    if (is_fault("report reads past the records") && records_len > 0)
        seen = records[records_len];
    if (is_fault("report reads an empty list") && live_len == 0)
        seen = live[0];
    uint64_t answer = __real_magnetar_report(live, live_len, records, records_len, line, line_len, length);
    if (is_fault("report writes past its line") && answer == 0)
        line[*length] = 0;
    if (is_fault("report writes the line on refusal") && answer != 0 && line_len > 0)
        line[0] = '0';
    if (is_fault("report lets a half go down") && answer == 0 && is_half(live, live_len))
        line[*length - 2]--;
    if (is_fault("report does not count the line feed") && answer == 0)
        *length -= 1;
    change("report writes length on refusal", length, answer != 0);
    answer = other("report wants the longest line's bytes", answer, 6, answer == 0 && line_len < MAGNETAR_REPORT_BYTES);
    answer = other("report has 10 before 9", answer, 10, answer == 9 && is_above(live, live_len));
    answer = other("report has 6 before 10", answer, 6, answer == 10 && line_len == 0);
    answer = other("report has 10 for live counts only", answer, 0, answer == 10 && !is_above(live, live_len));
    answer = other("report refuses a count of 2^32", answer, 10, answer == 0 && live[0] == MAGNETAR_MAX_COUNT);
    answer = other("report refuses the most runs", answer, 9, answer == 0 && live_len == MAGNETAR_MAX_RUNS);
    return other("report takes more than the most runs", answer, 0, answer == 9 && live_len > MAGNETAR_MAX_RUNS);
}

void __wrap_magnetar_dispatcher_start(uint64_t budget, uint64_t *dispatcher)
{
    uint64_t position = dispatcher[MAGNETAR_DISPATCHER_POSITION];
    __real_magnetar_dispatcher_start(budget, dispatcher);
    if (is_fault("dispatcher_start leaves the position"))
        dispatcher[MAGNETAR_DISPATCHER_POSITION] = position;
    change("dispatcher_start writes past the dispatcher", dispatcher + MAGNETAR_DISPATCHER_WORDS, 1);
}

uint64_t __wrap_magnetar_dispatcher_add(uint64_t *dispatcher, uint64_t caller, uint64_t cycles)
{
    uint64_t wanted = caller < MAGNETAR_CALLERS ? dispatcher[caller] : 0;
    int is_over = wanted > MAGNETAR_MAX_WANTED || cycles > MAGNETAR_MAX_WANTED - wanted;
    if (is_fault("dispatcher_add reads what any caller wants"))
        seen = dispatcher[caller];
    uint64_t answer = __real_magnetar_dispatcher_add(dispatcher, caller, cycles);
    change("dispatcher_add writes before the dispatcher", dispatcher - 1, answer == 0);
    change("dispatcher_add writes what is wanted on refusal", dispatcher + caller % MAGNETAR_CALLERS, answer == 12);
    answer = other("dispatcher_add takes caller 16", answer, 0, answer == 11 && caller == MAGNETAR_CALLERS);
    answer = other("dispatcher_add takes any position", answer, 0, answer == 11 && caller < MAGNETAR_CALLERS && !is_over);
    answer = other("dispatcher_add has 12 before 11", answer, 12, answer == 11 && is_over);
    answer = other("dispatcher_add refuses a sum of 2^32", answer, 12, answer == 0 && wanted + cycles == MAGNETAR_MAX_WANTED);
    answer = other("dispatcher_add refuses no 0 cycles", answer, 0, answer == 12 && cycles == 0);
    return other("dispatcher_add's sum wraps", answer, 0, answer == 12 && wanted + cycles <= MAGNETAR_MAX_WANTED);
}

uint64_t __wrap_magnetar_dispatcher_turn(uint64_t *dispatcher, uint64_t *caller, uint64_t *slice)
{
    uint64_t position = dispatcher[MAGNETAR_DISPATCHER_POSITION], budget = dispatcher[MAGNETAR_DISPATCHER_BUDGET];
    uint64_t old = *slice;
    uint64_t answer = __real_magnetar_dispatcher_turn(dispatcher, caller, slice);
    int has_grant = answer == 0 && *slice > 0;
    if (is_fault("dispatcher_turn leaves slice where it grants nothing") && answer == 0 && !has_grant)
        *slice = old;
    if (is_fault("dispatcher_turn stays at the caller") && has_grant)
        dispatcher[MAGNETAR_DISPATCHER_POSITION] = *caller;
    if (is_fault("dispatcher_turn does not lower the budget") && has_grant)
        dispatcher[MAGNETAR_DISPATCHER_BUDGET] = budget;
    if (is_fault("dispatcher_turn moves where it grants nothing") && answer == 0 && !has_grant)
        dispatcher[MAGNETAR_DISPATCHER_POSITION] = (position + 1) % MAGNETAR_CALLERS;
    change("dispatcher_turn writes caller on refusal", caller, answer != 0);
    change("dispatcher_turn writes the dispatcher on refusal", dispatcher, answer != 0);
    change("dispatcher_turn writes past the dispatcher", dispatcher + MAGNETAR_DISPATCHER_WORDS, answer == 0);
    answer = other("dispatcher_turn takes position 16", answer, 0, answer == 11 && position == MAGNETAR_CALLERS);
    answer = other("dispatcher_turn has no 11 without a budget", answer, 0, answer == 11 && budget == 0);
    return other("dispatcher_turn has a 12", answer, 12, has_grant && dispatcher[*caller] > MAGNETAR_MAX_WANTED);
}
