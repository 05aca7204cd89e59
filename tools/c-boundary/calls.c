/* magnetar_start, magnetar_segment and magnetar_padding. */
#include "cases.h"
#include "rule.h"
#include <inttypes.h>
#include <stdio.h>

#define MOST_CYCLES 6
#define RULE .rows = rule, .rows_len = RULE_ROWS
#define PAD .is_padding = 1, RULE

/* A call on the image of ready_image, with these numbers in it. */
struct call {
    const char *text;
    int is_padding;
    const uint64_t *rows;
    size_t rows_len;
    uint64_t micro_pc, cycles, halted, output, next_fetch;
    uint64_t length;
    size_t room;
    uint64_t answer;
};

static void call_case(enum placement placement, const struct call *c)
{
    uint64_t image[MAGNETAR_CURSOR_WORDS], records[MOST_CYCLES * MAGNETAR_RECORD_WORDS];
    ready_image(image);
    image[MAGNETAR_CURSOR_MICRO_PC] = c->micro_pc;
    image[MAGNETAR_CURSOR_CYCLES] = c->cycles;
    image[MAGNETAR_CURSOR_HALTED] = c->halted;
    image[MAGNETAR_CURSOR_OUTPUT] = c->output;
    image[MAGNETAR_CURSOR_NEXT_FETCH] = c->next_fetch;
    char text[80];
    snprintf(text, sizeof text, "%s, length %" PRIu64 ", room %zu", c->text, c->length, c->room);
    begin(placement, c->is_padding ? "magnetar_padding" : "magnetar_segment", text);
    const uint64_t *lent_rows = lend_words("rows", c->rows, c->rows_len);
    uint64_t *cursor = lend_room("cursor", image, MAGNETAR_CURSOR_WORDS);
    uint64_t *lent_records = lend_room("records", NULL, c->room);
    if (c->answer == MAGNETAR_ACCEPTED) {
        image[MAGNETAR_CURSOR_HALTED] = c->halted != 0;
        for (size_t i = 0; i < c->length; i++)
            rule_cycle(image, !c->is_padding, records + MAGNETAR_RECORD_WORDS * i);
        expect(lent_records, records, MAGNETAR_RECORD_WORDS * c->length);
        expect(cursor, image, MAGNETAR_CURSOR_WORDS);
    }
    end((c->is_padding ? magnetar_padding : magnetar_segment)(
            lent_rows, c->rows_len, cursor, c->length, lent_records, c->room), c->answer);
}

static void run_calls(enum placement placement, const struct call *calls, size_t n)
{
    for (size_t i = 0; i < n; i++)
        call_case(placement, &calls[i]);
}

/* Buffers that are exactly full, longer, and one word short; a live machine, then a halted one. */
static void lengths(enum placement placement)
{
    for (int kind = 0; kind < 4; kind++) {
        for (size_t length = 0; length <= MOST_CYCLES; length++) {
            struct call c = {.is_padding = kind & 1, RULE, .halted = kind >> 1, .output = 77, .length = length};
            c.text = c.halted ? "halted" : "live";
            c.room = MAGNETAR_RECORD_WORDS * length;
            call_case(placement, &c);
            c.room += 5;
            call_case(placement, &c);
            if (length == 0)
                continue;
            c.room -= 6;
            c.answer = MAGNETAR_SHORT;
            call_case(placement, &c);
        }
    }
}

/* Every halted word but 0 is a halted machine, also one whose lower half is 0. */
static void halted_words(enum placement placement)
{
    static const uint64_t words[] = {1, 2, 256, TWO(32), TWO(63), MOST};
    for (size_t i = 0; i < 2 * sizeof words / sizeof *words; i++) {
        struct call c = {"halted words", i & 1, RULE, .halted = words[i / 2], .output = 77, .next_fetch = 2};
        call_case(placement, &c);
        c.length = 1;
        c.room = 17;
        call_case(placement, &c);
        c.room = 16;
        c.answer = MAGNETAR_SHORT;
        call_case(placement, &c);
        c.rows_len = 0;
        c.answer = MAGNETAR_NO_ROWS;
        call_case(placement, &c);
    }
}

static void accepted(enum placement placement)
{
    static const struct call cases[] = {
        {"micro_pc the last row", RULE, .micro_pc = 2, .length = 2, .room = 34},
        {"micro_pc and next_fetch the last row", RULE, .micro_pc = 2, .next_fetch = 2, .length = 2, .room = 34},
        {"next_fetch the last row", PAD, .next_fetch = 2, .output = 9, .length = 2, .room = 34},
        {"next_fetch the row between", PAD, .micro_pc = 2, .next_fetch = 1, .output = 9, .length = 2, .room = 34},
        {"cycles and length 2^62", RULE, .cycles = TWO(62) - 3, .length = 3, .room = 51},
        {"cycles 2^62", RULE, .cycles = TWO(62)},
        {"cycles 2^62, halted", RULE, .cycles = TWO(62), .halted = 1},
        {"cycles 2^62", PAD, .cycles = TWO(62), .length = 1, .room = 17},
        {"cycles 2^64 - 1", PAD, .cycles = MOST, .length = 1, .room = 17},
        {"cycles 2^64 - 1", PAD, .cycles = MOST},
        {"output 2^64 - 1, halted", RULE, .halted = 1, .output = MOST, .length = 2, .room = 34},
        {"output 2^64 - 1, live", RULE, .output = MOST, .length = 2, .room = 34},
        {"output 2^64 - 1", PAD, .output = MOST, .length = 2, .room = 34},
    };
    run_calls(placement, cases, sizeof cases / sizeof *cases);
}

/* A number is refused, and then the same with each refusal of a higher number met too. */
static void refused_in_order(enum placement placement, int is_padding)
{
    struct call c = {.is_padding = is_padding, RULE, .halted = 2, .length = 1, .room = 16, .answer = MAGNETAR_SHORT};
    c.text = "6 is met";
    call_case(placement, &c);
    c.text = "5 and 6 are met";
    c.cycles = TWO(62);
    c.answer = is_padding ? MAGNETAR_SHORT : MAGNETAR_TOO_MANY_CYCLES;
    call_case(placement, &c);
    c.text = "4 to 6 are met";
    c.next_fetch = RULE_ROWS;
    c.answer = MAGNETAR_OUTSIDE_ROWS;
    call_case(placement, &c);
    c.text = "3 to 6 are met";
    c.rows = odd_rows;
    c.rows_len = 1;
    c.answer = MAGNETAR_NO_EXPANSION;
    call_case(placement, &c);
    c.text = "1 and 4 to 6 are met";
    c.rows_len = 0;
    c.answer = MAGNETAR_NO_ROWS;
    call_case(placement, &c);
    c.text = "the same, no room at all";
    c.room = 0;
    call_case(placement, &c);
}

static void refused_places(enum placement placement)
{
    static const uint64_t places[] = {RULE_ROWS, TWO(32), TWO(32) + 1, TWO(61), TWO(63), MOST};
    for (size_t i = 0; i < 4 * sizeof places / sizeof *places; i++) {
        struct call c = {"micro_pc past the rows", i & 1, RULE, .length = 1, .room = 17, .answer = MAGNETAR_OUTSIDE_ROWS};
        c.micro_pc = places[i / 4];
        if (i & 2) {
            c.text = "next_fetch past the rows";
            c.next_fetch = c.micro_pc;
            c.micro_pc = 0;
        }
        call_case(placement, &c);
        c.halted = MOST;
        c.length = 0;
        call_case(placement, &c);
    }
}

/* Sums of cycles and length around 2^62 and past 2^64. */
static void refused_sums(enum placement placement)
{
    static const struct call cases[] = {
        {"cycles and length 2^62 + 1", RULE, .cycles = TWO(62) - 2, .length = 3, .room = 51, .answer = 5},
        {"cycles 2^62 + 1", RULE, .cycles = TWO(62) + 1, .answer = 5},
        {"cycles 2^62 + 1, halted", RULE, .cycles = TWO(62) + 1, .halted = MOST, .answer = 5},
        {"cycles 2^64 - 1", RULE, .cycles = MOST, .answer = 5},
        {"cycles 2^64 - 1", RULE, .cycles = MOST, .length = 1, .room = 17, .answer = 5},
        {"cycles 2^64 - 1, halted", RULE, .cycles = MOST, .length = 2, .halted = 1, .room = 34, .answer = 5},
        {"cycles 2^63", RULE, .cycles = TWO(63), .length = TWO(63), .answer = 5},
        {"cycles 2", RULE, .cycles = 2, .length = MOST, .room = 17, .answer = 5},
        {"cycles 0", RULE, .length = MOST, .room = 17, .answer = 5},
        {"cycles 0", RULE, .length = TWO(62) + 1, .room = 17, .answer = 5},
    };
    run_calls(placement, cases, sizeof cases / sizeof *cases);
}

/* Lengths whose words or bytes are few modulo 2^64. */
static void refused_lengths(enum placement placement)
{
    static const uint64_t lengths[] = {TWO(61), TWO(62), WRAPS_WORDS, WRAPS_BYTES, TWO(62) + 1, TWO(63), MOST};
    static const size_t rooms[] = {0, 16, 17, 34};
    for (size_t i = 0; i < sizeof lengths / sizeof *lengths; i++) {
        for (size_t k = 0; k < sizeof rooms / sizeof *rooms; k++) {
            struct call c = {"long", RULE, .length = lengths[i], .room = rooms[k]};
            c.answer = c.length > MAGNETAR_MAX_TOTAL_CYCLES ? MAGNETAR_TOO_MANY_CYCLES : MAGNETAR_SHORT;
            call_case(placement, &c);
            c.is_padding = 1;
            c.answer = MAGNETAR_SHORT;
            call_case(placement, &c);
        }
    }
}

static void start_cases(enum placement placement)
{
    static const size_t lengths[] = {0, 1, 2, 255, 256, 257, 300};
    uint64_t input[300], image[MAGNETAR_CURSOR_WORDS];
    for (size_t i = 0; i < 300; i++)
        input[i] = MOST - i;
    for (size_t i = 0; i < sizeof lengths / sizeof *lengths; i++) {
        char text[40];
        snprintf(text, sizeof text, "an input of %zu words", lengths[i]);
        begin(placement, "magnetar_start", text);
        const uint64_t *lent = lend_words("input", input, lengths[i]);
        uint64_t *cursor = lend_room("cursor", NULL, MAGNETAR_CURSOR_WORDS);
        fresh_image(image, input, lengths[i]);
        expect(cursor, image, MAGNETAR_CURSOR_WORDS);
        magnetar_start(lent, lengths[i], cursor);
        check_lent();
    }
}

void call_cases(enum placement placement)
{
    start_cases(placement);
    lengths(placement);
    halted_words(placement);
    accepted(placement);
    refused_in_order(placement, 0);
    refused_in_order(placement, 1);
    refused_places(placement);
    refused_sums(placement);
    refused_lengths(placement);
}
