/*
 * Records a billing rule in one call, then again in segments of a few cycles,
 * which must give the same records and the same checkpoint, and prints what the
 * program `trace` prints.
 *
 *     cc -std=c99 -O2 -Iinclude -o records examples/c/records.c target/staticlib/libmagnetar_cpu.a
 *     ./records examples/tariff.bin 64 1200 1350
 */
#include "magnetar_cpu.h"
#include <errno.h>
#include <inttypes.h>
#include <stdio.h>
#include <stdlib.h>
#include <string.h>

#define SEGMENT 4

/* Room for the longest rule, and a word more, so that a longer one is refused and not cut. */
static uint32_t program[MAGNETAR_MAX_PROGRAM_WORDS + 1];
static uint64_t rows[MAGNETAR_MAX_ROWS], starts[MAGNETAR_MAX_PROGRAM_WORDS];

struct run {
    uint64_t *input, *records;
    uint64_t input_len, row_count, max_cycles, live, count;
    uint64_t cursor[MAGNETAR_CURSOR_WORDS];
};

static void fail(const char *about, const char *what)
{
    fprintf(stderr, "records: %s: %s\n", about, what);
    exit(1);
}

/* Room for n words, and one more: the library wants no null pointer, not even for none. */
static uint64_t *words(uint64_t n)
{
    uint64_t *room = malloc(8 * (n + 1));
    if (room == NULL)
        fail("memory", "not enough");
    return room;
}

static uint64_t number(const char *text)
{
    char *end;
    errno = 0;
    uint64_t value = strtoull(text, &end, strncmp(text, "0x", 2) == 0 ? 16 : 10);
    if (text[0] < '0' || text[0] > '9' || *end != '\0' || errno != 0)
        fail(text, "no number of 64 bits, decimal or with 0x");
    return value;
}

/* Reads the words of a rule. They are little-endian, as is the machine the library is for. */
static size_t read_program(const char *path)
{
    FILE *file = fopen(path, "rb");
    size_t bytes = file == NULL ? 0 : fread(program, 1, sizeof program, file);
    if (file == NULL || ferror(file))
        fail(path, strerror(errno));
    fclose(file);
    if (bytes % 4 != 0)
        fail(path, "its length is not a multiple of 4");
    return bytes / 4;
}

/* Runs the rule in one call. Over the most cycles that is refused, whatever the room for records. */
static uint64_t execute(struct run *run)
{
    uint64_t room = MAGNETAR_RECORD_WORDS;
    while (run->max_cycles <= MAGNETAR_MAX_EXECUTE_CYCLES && room < MAGNETAR_RECORD_WORDS * run->max_cycles)
        room *= 2;
    run->records = words(room);
    return magnetar_execute(rows, run->row_count, run->input, run->input_len, run->max_cycles, run->records, room,
                            run->cursor, &run->live, &run->count);
}

/* Runs the rule again, with room for a few records only, and compares. */
static void run_in_segments(const struct run *run)
{
    uint64_t cursor[MAGNETAR_CURSOR_WORDS], part[SEGMENT * MAGNETAR_RECORD_WORDS], n;
    magnetar_start(run->input, run->input_len, cursor);
    for (uint64_t done = 0; done < run->count; done += n) {
        int is_live = cursor[MAGNETAR_CURSOR_HALTED] == 0 && done < run->max_cycles;
        uint64_t left = run->count - done, most = is_live ? run->max_cycles - done : left;
        n = most < SEGMENT ? most : SEGMENT;
        uint64_t answer = (is_live ? magnetar_segment : magnetar_padding)(
            rows, run->row_count, cursor, n, part, MAGNETAR_RECORD_WORDS * n);
        /* After a halt the segment goes on with padding, perhaps past the last record. */
        size_t size = 8 * MAGNETAR_RECORD_WORDS * (n < left ? n : left);
        if (answer != 0 || memcmp(part, run->records + MAGNETAR_RECORD_WORDS * done, size) != 0)
            fail("segments", "other records");
    }
    if (magnetar_same(cursor, run->cursor) != 1)
        fail("segments", "another checkpoint");
}

static void print(const struct run *run)
{
    printf("%" PRIu64 ",%" PRIu64 ",%" PRIu64 "\n", run->live, run->count, run->cursor[MAGNETAR_CURSOR_OUTPUT]);
    for (uint64_t i = 1; i <= MAGNETAR_RECORD_WORDS * run->count; i++)
        printf("%" PRIu64 "%c", run->records[i - 1], i % MAGNETAR_RECORD_WORDS == 0 ? '\n' : ',');
}

int main(int argc, char **argv)
{
    if (argc < 3)
        fail("usage", "records BINARY MAX_CYCLES [INPUT..]");
    if (magnetar_cursor_words() != MAGNETAR_CURSOR_WORDS)
        fail("magnetar_cpu.h", "not that of the library");
    struct run run = {.input_len = (uint64_t)argc - 3, .max_cycles = number(argv[2])};
    run.input = words(run.input_len);
    for (int i = 3; i < argc; i++)
        run.input[i - 3] = number(argv[i]);
    uint64_t answer = magnetar_expand(program, read_program(argv[1]), rows, MAGNETAR_MAX_ROWS, starts,
                                      MAGNETAR_MAX_PROGRAM_WORDS, &run.row_count);
    if (answer == MAGNETAR_ACCEPTED)
        answer = execute(&run);
    if (answer == MAGNETAR_ACCEPTED) {
        run_in_segments(&run);
        print(&run);
    } else {
        printf("refused,%" PRIu64 "\n", answer);
    }
    free(run.records);
    free(run.input);
    if (fflush(stdout) != 0 || ferror(stdout))
        fail("standard output", "not all written");
    return answer == MAGNETAR_ACCEPTED ? 0 : 1;
}
