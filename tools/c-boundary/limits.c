/* The longest programs, the most rows, the most cycles and the most runs. */
#define _DEFAULT_SOURCE
#include "cases.h"
#include "rule.h"
#include <stdio.h>
#include <stdlib.h>
#include <string.h>
#include <sys/mman.h>
#include <unistd.h>

#define MAX_PROGRAM_WORDS MAGNETAR_MAX_PROGRAM_WORDS
#define MAX_ROWS MAGNETAR_MAX_ROWS
#define STAGES MAGNETAR_ROWS_PER_WORD
#define MARK UINT64_C(0x5a3c1e0000000000)

/* The end of new memory of so many bytes, where a page begins that cannot be touched. Null if there is none. */
static void *end_of_memory(size_t bytes)
{
    size_t page = (size_t)sysconf(_SC_PAGESIZE);
    bytes = (bytes + page - 1) / page * page;
    char *all = mmap(NULL, bytes + page, PROT_READ | PROT_WRITE, MAP_PRIVATE | MAP_ANONYMOUS | MAP_NORESERVE, -1, 0);
    if (all == MAP_FAILED || mprotect(all + bytes, page, PROT_NONE) != 0)
        return NULL;
    return all + bytes;
}

static void *needed(void *end)
{
    if (end != NULL)
        return end;
    fprintf(stderr, "the limits: not enough memory\n");
    exit(2);
}

static uint64_t stage(size_t row)
{
    return SLL + TWO(32) * (row % STAGES);
}

static void mark(uint64_t *words, size_t n)
{
    for (size_t i = 0; i < n; i++)
        words[i] = MARK + i;
}

/* Each word must be `first` plus its place times `step`; how many are not. */
static uint64_t others(const uint64_t *words, size_t n, uint64_t first, uint64_t step)
{
    uint64_t count = 0;
    for (size_t i = 0; i < n; i++)
        count += words[i] != first + step * i;
    return count;
}

static uint64_t wrong_stages(const uint64_t *rows, size_t n)
{
    uint64_t count = 0;
    for (size_t i = 0; i < n; i++)
        count += rows[i] != stage(i);
    return count;
}

/* A program of the most words, all register shifts, so with the most rows; then one row short, and one word more. */
static void longest_program(uint64_t *rows)
{
    uint32_t *program = (uint32_t *)needed(end_of_memory(4 * (MAX_PROGRAM_WORDS + 1))) - (MAX_PROGRAM_WORDS + 1);
    uint64_t *starts = (uint64_t *)needed(end_of_memory(8 * MAX_PROGRAM_WORDS)) - MAX_PROGRAM_WORDS;
    uint64_t count = MARK;
    for (size_t i = 0; i <= MAX_PROGRAM_WORDS; i++)
        program[i] = SLL;
    mark(rows, MAX_ROWS);
    mark(starts, MAX_PROGRAM_WORDS);
    begin(AT_LAST_WORD, "magnetar_expand", "the most words and one more");
    check("answer", magnetar_expand(program, MAX_PROGRAM_WORDS + 1, rows, MAX_ROWS, starts, MAX_PROGRAM_WORDS, &count),
          MAGNETAR_TOO_MANY_ROWS);
    begin(AT_LAST_WORD, "magnetar_expand", "the most words, rows one short");
    check("answer",
          magnetar_expand(program + 1, MAX_PROGRAM_WORDS, rows + 1, MAX_ROWS - 1, starts, MAX_PROGRAM_WORDS, &count), 6);
    check("rows that changed", others(rows, MAX_ROWS, MARK, 1), 0);
    check("starts that changed", others(starts, MAX_PROGRAM_WORDS, MARK, 1), 0);
    check("count", count, MARK);
    begin(AT_LAST_WORD, "magnetar_expand", "the most words");
    check("answer", magnetar_expand(program + 1, MAX_PROGRAM_WORDS, rows, MAX_ROWS, starts, MAX_PROGRAM_WORDS, &count), 0);
    check("wrong rows", wrong_stages(rows, MAX_ROWS), 0);
    check("wrong starts", others(starts, MAX_PROGRAM_WORDS, 0, STAGES), 0);
    check("count", count, MAX_ROWS);
}

/* A live cycle at the last row, after which the first is next. */
static void most_rows(const uint64_t *rows)
{
    uint64_t image[MAGNETAR_CURSOR_WORDS], records[2 * MAGNETAR_RECORD_WORDS], live, count;
    ready_image(image);
    image[MAGNETAR_CURSOR_MICRO_PC] = MAX_ROWS - 1;
    begin(AT_LAST_WORD, "magnetar_segment", "the most rows");
    check("answer", magnetar_segment(rows, MAX_ROWS, image, 1, records, 17), 0);
    check("record's micro_pc", records[MAGNETAR_RECORD_MICRO_PC], MAX_ROWS - 1);
    check("micro_pc", image[MAGNETAR_CURSOR_MICRO_PC], 0);
    image[MAGNETAR_CURSOR_NEXT_FETCH] = MAX_ROWS - 1;
    begin(AT_LAST_WORD, "magnetar_padding", "the most rows");
    check("answer", magnetar_padding(rows, MAX_ROWS, image, 1, records, 17), 0);
    check("record's micro_pc", records[MAGNETAR_RECORD_MICRO_PC], MAX_ROWS - 1);
    begin(AT_LAST_WORD, "magnetar_execute", "the most rows");
    check("answer", magnetar_execute(rows, MAX_ROWS, rows, 0, 2, records, 34, image, &live, &count), 0);
    check("live", live, 2);
    check("micro_pc", image[MAGNETAR_CURSOR_MICRO_PC], 2);
}

/* The other refusals that are met, as `text` says, have higher numbers. */
static void too_many_rows(const uint64_t *rows, const char *text, uint64_t micro_pc, uint64_t length, size_t room)
{
    uint64_t image[MAGNETAR_CURSOR_WORDS];
    ready_image(image);
    image[MAGNETAR_CURSOR_MICRO_PC] = micro_pc;
    image[MAGNETAR_CURSOR_HALTED] = 2;
    begin(AT_LAST_WORD, "magnetar_segment", text);
    uint64_t *cursor = lend_room("cursor", image, MAGNETAR_CURSOR_WORDS);
    uint64_t *records = lend_room("records", NULL, room);
    end(magnetar_segment(rows, MAX_ROWS + 1, cursor, length, records, room), MAGNETAR_TOO_MANY_ROWS);
    begin(AT_LAST_WORD, "magnetar_padding", text);
    cursor = lend_room("cursor", image, MAGNETAR_CURSOR_WORDS);
    records = lend_room("records", NULL, room);
    end(magnetar_padding(rows, MAX_ROWS + 1, cursor, length, records, room), MAGNETAR_TOO_MANY_ROWS);
    begin(AT_LAST_WORD, "magnetar_execute", text);
    cursor = lend_room("cursor", NULL, MAGNETAR_CURSOR_WORDS);
    records = lend_room("records", NULL, room);
    const uint64_t *input = lend_words("input", image, 1);
    uint64_t *live = lend_room("live", NULL, 1), *count = lend_room("record_count", NULL, 1);
    end(magnetar_execute(rows, MAX_ROWS + 1, input, 1, length, records, room, cursor, live, count),
        MAGNETAR_TOO_MANY_ROWS);
}

/* Records for 2^32 cycles are 544 GiB: lent as memory that is made when it is touched, and only four records are. */
static void most_cycles(void)
{
    size_t room = MAGNETAR_RECORD_WORDS * MAGNETAR_MAX_EXECUTE_CYCLES;
    uint64_t *end = end_of_memory(8 * room), image[MAGNETAR_CURSOR_WORDS], wanted[MAGNETAR_RECORD_WORDS];
    if (end == NULL) {
        printf("not run: magnetar_execute with 2^32 cycles, for which there are no addresses\n");
        return;
    }
    uint64_t *records = end - room, live = MARK, count = MARK;
    mark(image, MAGNETAR_CURSOR_WORDS);
    begin(AT_LAST_WORD, "magnetar_execute", "2^32 cycles, one word short");
    check("answer", magnetar_execute(rule, RULE_ROWS, rule, 0, TWO(32), records + 1, room - 1, image, &live, &count), 6);
    check("records that changed", others(records, 5 * MAGNETAR_RECORD_WORDS, 0, 0), 0);
    check("cursor's words that changed", others(image, MAGNETAR_CURSOR_WORDS, MARK, 1), 0);
    check("counts that changed", others(&live, 1, MARK, 0) + others(&count, 1, MARK, 0), 0);
    begin(AT_LAST_WORD, "magnetar_execute", "2^32 cycles");
    check("answer", magnetar_execute(rule, RULE_ROWS, rule, 0, TWO(32), records, room, image, &live, &count), 0);
    check("live", live, 3);
    check("record_count", count, 4);
    fresh_image(image, rule, 0);
    for (size_t i = 0; i < 4; i++) {
        rule_cycle(image, 1, wanted);
        check("record", memcmp(wanted, records + MAGNETAR_RECORD_WORDS * i, sizeof wanted) == 0, 1);
    }
    check("words past the records that changed", others(records + 68, 4096, 0, 0), 0);
}

static void report_case(const char *text, const uint64_t *counts, size_t runs, size_t room, uint64_t answer)
{
    uint64_t bytes = MAGNETAR_REPORT_BYTES;
    begin(AT_LAST_WORD, "magnetar_report", text);
    uint8_t *line = lend_bytes("line", room);
    uint64_t *length = lend_room("length", NULL, 1);
    if (answer == MAGNETAR_ACCEPTED) {
        expect(line, "65536,281474976710656,281474976710656,429496729600\n", bytes);
        expect(length, &bytes, 1);
    }
    end(magnetar_report(counts, runs, counts, runs, line, room, length), answer);
}

/* The largest counts of the most runs, so the longest line; and one run more. One list is lent as both. */
static void most_runs(void)
{
    size_t runs = MAGNETAR_MAX_RUNS + 1;
    uint64_t *counts = (uint64_t *)needed(end_of_memory(8 * runs)) - runs;
    for (size_t i = 0; i < runs; i++)
        counts[i] = MAGNETAR_MAX_COUNT;
    report_case("the most runs", counts + 1, MAGNETAR_MAX_RUNS, MAGNETAR_REPORT_BYTES, 0);
    report_case("the most runs, one byte short", counts + 1, MAGNETAR_MAX_RUNS, MAGNETAR_REPORT_BYTES - 1, 6);
    report_case("one run more than the most", counts, runs, MAGNETAR_REPORT_BYTES, 9);
    counts[0]++;
    report_case("9, 10 and 6 are met", counts, runs, 0, 9);
}

void limit_cases(void)
{
    /* Room for one row more than a call takes: the first place is for that row. */
    uint64_t *rows = (uint64_t *)needed(end_of_memory(8 * (MAX_ROWS + 1))) - (MAX_ROWS + 1);
    longest_program(rows + 1);
    most_rows(rows + 1);
    rows[0] = ADDI;
    begin(AT_LAST_WORD, "magnetar_is_expansion", "more rows than a call takes");
    check("answer", magnetar_is_expansion(rows, MAX_ROWS + 1), 1);
    too_many_rows(rows, "2 is met", 0, 1, 17);
    too_many_rows(rows, "2 and 4 to 6 are met", MOST, MOST, 0);
    rows[0] = odd_rows[0];
    too_many_rows(rows, "2 to 6 are met", MOST, MOST, 0);
    most_cycles();
    most_runs();
}
