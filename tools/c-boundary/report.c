/* magnetar_report. */
#include "cases.h"
#include "rule.h"
#include <stdio.h>
#include <string.h>

#define MOST_RUNS 8
#define ROOM MAGNETAR_REPORT_BYTES
#define COUNT MAGNETAR_MAX_COUNT

struct reporting {
    const char *text;
    size_t live_len, records_len;
    uint64_t live[MOST_RUNS], records[MOST_RUNS];
    const char *line;
};

/* Of a refused call no line is looked at. */
static void report_case(enum placement placement, const struct reporting *c, size_t room, uint64_t answer)
{
    char text[100];
    snprintf(text, sizeof text, "%s, room for %zu bytes", c->text, room);
    begin(placement, "magnetar_report", text);
    const uint64_t *live = lend_words("live", c->live, c->live_len);
    const uint64_t *records = lend_words("records", c->records, c->records_len);
    uint8_t *line = lend_bytes("line", room);
    uint64_t *length = lend_room("length", NULL, 1);
    if (answer == MAGNETAR_ACCEPTED) {
        uint64_t bytes = strlen(c->line);
        expect(line, c->line, bytes);
        expect(length, &bytes, 1);
    }
    end(magnetar_report(live, c->live_len, records, c->records_len, line, room, length), answer);
}

/* Each line goes into a buffer that is exactly full or longer, and not into one that is a byte short or has none. */
static void accepted(enum placement placement)
{
    static const struct reporting cases[] = {
        {"half a hundredth", 8, 8, {0, 1}, {2, 0, 9}, "8,1,11,13\n"},
        {"another half", 8, 8, {0, 0, 0, 0, 0, 0, 0, 3}, {4}, "8,3,4,38\n"},
        {"above a half", 3, 3, {1, 2, 2}, {2, 2, 2}, "3,5,6,167\n"},
        {"below a half", 3, 3, {1}, {1, 1, 1}, "3,1,3,33\n"},
        {"a run of nothing", 1, 1, {0}, {0}, "1,0,0,0\n"},
        {"the largest counts", 2, 2, {COUNT, COUNT - 1}, {COUNT, COUNT}, "2,8589934591,8589934592,429496729550\n"},
    };
    for (size_t i = 0; i < sizeof cases / sizeof *cases; i++) {
        size_t full = strlen(cases[i].line);
        report_case(placement, &cases[i], full, 0);
        report_case(placement, &cases[i], full + 1, 0);
        report_case(placement, &cases[i], 2 * ROOM, 0);
        report_case(placement, &cases[i], full - 1, 6);
        report_case(placement, &cases[i], 0, 6);
    }
}

/* Each with room for any line, and with none, where 6 is met too. */
static void refused(enum placement placement)
{
    static const struct reporting runs[] = {
        {"no runs", .live_len = 0},
        {"no live counts", .records_len = 3},
        {"no record counts", .live_len = 3},
        {"a live count too many", .live_len = 3, .records_len = 2},
        {"a record count too many", .live_len = 2, .records_len = 3},
        {"9 and 10 are met", .live_len = 3, .records_len = 2, .live = {MOST}, .records = {MOST}},
    };
    static const struct reporting counts[] = {
        {"2^32 + 1 live cycles", 3, 3, {0, 0, COUNT + 1}, {0}, NULL},
        {"2^32 + 1 records", 3, 3, {0}, {0, 0, COUNT + 1}, NULL},
        {"2^64 - 1 live cycles", 2, 2, {MOST, 1}, {0}, NULL},
        {"2^64 - 1 records", 2, 2, {0}, {1, MOST}, NULL},
        {"2^32 + 1 of both", 1, 1, {COUNT + 1}, {COUNT + 1}, NULL},
    };
    for (size_t room = 0; room <= ROOM; room += ROOM) {
        for (size_t i = 0; i < sizeof runs / sizeof *runs; i++)
            report_case(placement, &runs[i], room, MAGNETAR_BAD_RUNS);
        for (size_t i = 0; i < sizeof counts / sizeof *counts; i++)
            report_case(placement, &counts[i], room, MAGNETAR_BAD_COUNT);
    }
}

void report_cases(enum placement placement)
{
    accepted(placement);
    refused(placement);
}
