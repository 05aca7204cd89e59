/*
 * A library of another version: its cursor and its dispatcher have one word more than
 * this one's. Calls that may write one of them write all its words.
 */
#include "magnetar_cpu.h"

#define WORDS (MAGNETAR_CURSOR_WORDS + 1)

static uint64_t write_words(uint64_t *to, size_t count)
{
    for (size_t word = 0; word < count; word++) {
        to[word] = UINT64_MAX - word;
    }
    return MAGNETAR_ACCEPTED;
}

static uint64_t write_all(uint64_t *cursor)
{
    return write_words(cursor, WORDS);
}

static uint64_t write_dispatcher(uint64_t *dispatcher)
{
    return write_words(dispatcher, MAGNETAR_DISPATCHER_WORDS + 1);
}

uint64_t magnetar_cursor_words(void)
{
    return WORDS;
}

void magnetar_start(const uint64_t *input, size_t input_len, uint64_t *cursor)
{
    (void)input, (void)input_len;
    write_all(cursor);
}

uint64_t magnetar_segment(const uint64_t *rows, size_t rows_len, uint64_t *cursor,
                          uint64_t length, uint64_t *records, size_t records_len)
{
    (void)rows, (void)rows_len, (void)length, (void)records, (void)records_len;
    return write_all(cursor);
}

uint64_t magnetar_padding(const uint64_t *rows, size_t rows_len, uint64_t *cursor,
                          uint64_t length, uint64_t *records, size_t records_len)
{
    return magnetar_segment(rows, rows_len, cursor, length, records, records_len);
}

uint64_t magnetar_execute(const uint64_t *rows, size_t rows_len,
                          const uint64_t *input, size_t input_len,
                          uint64_t max_cycles, uint64_t *records, size_t records_len,
                          uint64_t *cursor, uint64_t *live, uint64_t *record_count)
{
    (void)rows, (void)rows_len, (void)input, (void)input_len, (void)max_cycles;
    (void)records, (void)records_len;
    *live = *record_count = 1;
    return write_all(cursor);
}

uint64_t magnetar_same(const uint64_t *a, const uint64_t *b)
{
    for (size_t word = 0; word < WORDS; word++) {
        if (a[word] != b[word]) {
            return 0;
        }
    }
    return 1;
}

uint64_t magnetar_expand(const uint32_t *program, size_t program_len,
                         uint64_t *rows, size_t rows_len,
                         uint64_t *starts, size_t starts_len, uint64_t *count)
{
    (void)program, (void)program_len, (void)rows, (void)rows_len;
    (void)starts, (void)starts_len, (void)count;
    return MAGNETAR_NO_ROWS;
}

uint64_t magnetar_is_expansion(const uint64_t *rows, size_t rows_len)
{
    (void)rows, (void)rows_len;
    return 0;
}

uint64_t magnetar_index_build(const uint64_t *log, size_t log_len,
                              uint64_t *index, size_t index_len)
{
    (void)log, (void)log_len, (void)index, (void)index_len;
    return MAGNETAR_SHORT;
}

uint64_t magnetar_index_add(const uint64_t *log, size_t log_len, uint64_t before,
                            uint64_t *index, size_t index_len)
{
    (void)before;
    return magnetar_index_build(log, log_len, index, index_len);
}

uint64_t magnetar_report(const uint64_t *live, size_t live_len,
                         const uint64_t *records, size_t records_len,
                         uint8_t *line, size_t line_len, uint64_t *length)
{
    (void)live, (void)live_len, (void)records, (void)records_len;
    (void)line, (void)line_len, (void)length;
    return MAGNETAR_BAD_RUNS;
}

void magnetar_dispatcher_start(uint64_t budget, uint64_t *dispatcher)
{
    (void)budget;
    write_dispatcher(dispatcher);
}

uint64_t magnetar_dispatcher_add(uint64_t *dispatcher, uint64_t caller, uint64_t cycles)
{
    (void)caller, (void)cycles;
    return write_dispatcher(dispatcher);
}

uint64_t magnetar_dispatcher_turn(uint64_t *dispatcher, uint64_t *caller, uint64_t *slice)
{
    *caller = *slice = 1;
    return write_dispatcher(dispatcher);
}
