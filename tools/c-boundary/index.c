/* magnetar_index_build and magnetar_index_add. */
#include "cases.h"
#include "rule.h"

#define PLACES MAGNETAR_INDEX_PLACES
#define MOST_PLACES (PLACES + 1)
#define RECORDS 5
#define LOG_WORDS (RECORDS * MAGNETAR_RECORD_WORDS)
#define WORD(record, word) ((record) * MAGNETAR_RECORD_WORDS + (word))
#define RD(record) WORD(record, MAGNETAR_RECORD_RD)
#define RAM_ADDR(record) WORD(record, MAGNETAR_RECORD_RAM_ADDR)

/* The log is that of make_log but, where `at` is not 0, for one word. */
struct indexing {
    const char *text;
    size_t log_len, at;
    uint64_t word, before;
    size_t places;
    uint64_t answer;
};

static void make_log(uint64_t *log)
{
    /* register, RAM word and flags of each record */
    static const uint64_t named[RECORDS][3] = {
        {1, 0, MAGNETAR_FLAG_IS_STORE},
        {63, 255, MAGNETAR_FLAG_IS_STORE},
        {1, 255, MAGNETAR_FLAG_IS_LOAD},
        {0, 7, ~(uint64_t)MAGNETAR_FLAG_IS_STORE},
        {32, 0, MAGNETAR_FLAG_IS_STORE},
    };
    for (size_t i = 0; i < LOG_WORDS; i++)
        log[i] = MOST - i;
    for (size_t i = 0; i < RECORDS; i++) {
        log[RD(i)] = named[i][0];
        log[RAM_ADDR(i)] = named[i][1];
        log[WORD(i, MAGNETAR_RECORD_PACKED)] = named[i][2];
    }
}

static void make_index(uint64_t *index)
{
    for (size_t i = 0; i < MOST_PLACES; i++)
        index[i] = 1000 + i;
}

static void clear_index(uint64_t *index)
{
    for (size_t i = 0; i < PLACES; i++)
        index[i] = MAGNETAR_NONE;
}

/* The places that the log writes, by hand. */
static void enter_log(uint64_t *index, uint64_t before)
{
    static const uint64_t latest[][2] = {{0, 3}, {1, 2}, {32, 4}, {63, 1}, {64, 4}, {319, 1}};
    for (size_t i = 0; i < sizeof latest / sizeof *latest; i++)
        index[latest[i][0]] = before + latest[i][1];
}

static void index_case(enum placement placement, const struct indexing *c, int is_add)
{
    uint64_t log[LOG_WORDS], index[MOST_PLACES];
    make_log(log);
    if (c->at > 0)
        log[c->at] = c->word;
    make_index(index);
    begin(placement, is_add ? "magnetar_index_add" : "magnetar_index_build", c->text);
    const uint64_t *lent_log = lend_words("log", log, c->log_len);
    uint64_t *lent = lend_room("index", index, c->places);
    if (c->answer == MAGNETAR_ACCEPTED) {
        if (!is_add)
            clear_index(index);
        if (c->log_len > 0)
            enter_log(index, is_add ? c->before : 0);
        expect(lent, index, PLACES);
    }
    end(is_add ? magnetar_index_add(lent_log, c->log_len, c->before, lent, c->places)
               : magnetar_index_build(lent_log, c->log_len, lent, c->places),
        c->answer);
}

/* Each case is an addition and a building, but that only an addition has a 5. */
static void run_indexing(enum placement placement, const struct indexing *cases, size_t n)
{
    for (size_t i = 0; i < n; i++) {
        index_case(placement, &cases[i], 1);
        if (cases[i].answer != MAGNETAR_TOO_MANY_RECORDS)
            index_case(placement, &cases[i], 0);
    }
}

#define LOG .log_len = LOG_WORDS
#define FULL .places = PLACES

static void accepted(enum placement placement)
{
    static const struct indexing cases[] = {
        {"a full index", LOG, FULL},
        {"a longer index", LOG, .places = PLACES + 1},
        {"no records", FULL},
        {"records before", LOG, FULL, .before = 1000},
        {"2^62 records", LOG, FULL, .before = TWO(62) - RECORDS},
        {"no records after 2^62", FULL, .before = TWO(62)},
    };
    run_indexing(placement, cases, sizeof cases / sizeof *cases);
}

static void refused(enum placement placement)
{
    static const struct indexing cases[] = {
        {"one word", .log_len = 1, FULL, .answer = 7},
        {"a record one short", .log_len = 16, FULL, .answer = 7},
        {"a record and a word", .log_len = 18, FULL, .answer = 7},
        {"five records one short", .log_len = LOG_WORDS - 1, FULL, .answer = 7},
        {"register 64", LOG, RD(4), 64, FULL, .answer = 8},
        {"register 2^64 - 1", LOG, RD(0), MOST, FULL, .answer = 8},
        {"register 2^32", LOG, RD(2), TWO(32), FULL, .answer = 8},
        {"RAM word 256 of a store", LOG, RAM_ADDR(4), 256, FULL, .answer = 8},
        {"RAM word 256 of a load", LOG, RAM_ADDR(2), 256, FULL, .answer = 8},
        {"RAM word 2^32 of neither", LOG, RAM_ADDR(3), TWO(32), FULL, .answer = 8},
        {"RAM word 2^64 - 1", LOG, RAM_ADDR(0), MOST, FULL, .answer = 8},
        {"2^62 + 1 records", LOG, FULL, .before = TWO(62) + 1 - RECORDS, .answer = 5},
        {"no records after 2^62 + 1", FULL, .before = TWO(62) + 1, .answer = 5},
        {"records that wrap to 0", LOG, FULL, .before = MOST - RECORDS + 1, .answer = 5},
        {"2^64 - 1 records before", LOG, FULL, .before = MOST, .answer = 5},
        {"an index one short", LOG, .places = PLACES - 1, .answer = 6},
        {"no places", LOG, .answer = 6},
        {"no records and no places", .answer = 6},
        {"5 and 6 are met", LOG, .places = PLACES - 1, .before = MOST, .answer = 5},
        {"8, 5 and 6 are met", LOG, RD(4), 64, .places = PLACES - 1, .before = MOST, .answer = 8},
        {"7, 8, 5 and 6 are met", .log_len = LOG_WORDS - 1, RD(0), 64, .places = PLACES - 1, .before = MOST, .answer = 7},
    };
    run_indexing(placement, cases, sizeof cases / sizeof *cases);
}

/* The index of the first record, to which the others are added, is that of the log. */
static void joined(enum placement placement)
{
    uint64_t log[LOG_WORDS], index[MOST_PLACES];
    make_log(log);
    make_index(index);
    begin(placement, "magnetar_index_add", "after magnetar_index_build");
    const uint64_t *lent_log = lend_words("log", log, LOG_WORDS);
    uint64_t *lent = lend_room("index", index, PLACES);
    clear_index(index);
    enter_log(index, 0);
    expect(lent, index, PLACES);
    check("answer of magnetar_index_build", magnetar_index_build(lent_log, WORD(1, 0), lent, PLACES), 0);
    end(magnetar_index_add(lent_log + WORD(1, 0), LOG_WORDS - WORD(1, 0), 1, lent, PLACES), 0);
}

void index_cases(enum placement placement)
{
    accepted(placement);
    refused(placement);
    joined(placement);
}
