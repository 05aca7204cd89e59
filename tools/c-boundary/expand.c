/* magnetar_expand and magnetar_is_expansion. */
#include "cases.h"
#include "rule.h"

#define STAGE(k) (SLL + TWO(32) * (k))

/* Its words are cut to those that a case lends. */
static const uint32_t program[] = {SLL, ADDI, SLL};
static const uint64_t rows[] = {STAGE(0), STAGE(1), STAGE(2), STAGE(3), STAGE(4), STAGE(5), ADDI,
                                STAGE(0), STAGE(1), STAGE(2), STAGE(3), STAGE(4), STAGE(5)};
static const uint64_t starts[] = {0, 6, 7};
/* The count of rows of the first words. */
static const uint64_t counts[] = {0, 6, 7, 13};

struct expansion {
    const char *text;
    size_t words, rows, starts;
    uint64_t answer;
};

static void expand_case(enum placement placement, const struct expansion *c)
{
    begin(placement, "magnetar_expand", c->text);
    const uint32_t *lent_program = lend_program(program, c->words);
    uint64_t *lent_rows = lend_room("rows", NULL, c->rows);
    uint64_t *lent_starts = lend_room("starts", NULL, c->starts);
    uint64_t *count = lend_room("count", NULL, 1);
    if (c->answer == MAGNETAR_ACCEPTED) {
        expect(lent_rows, rows, counts[c->words]);
        expect(lent_starts, starts, c->words);
        expect(count, &counts[c->words], 1);
    }
    end(magnetar_expand(lent_program, c->words, lent_rows, c->rows, lent_starts, c->starts, count), c->answer);
}

static void is_expansion_case(enum placement placement, const char *text, const uint64_t *words, size_t n, uint64_t answer)
{
    begin(placement, "magnetar_is_expansion", text);
    const uint64_t *lent = lend_words("rows", words, n);
    end(magnetar_is_expansion(lent, n), answer);
}

void expand_cases(enum placement placement)
{
    static const struct expansion cases[] = {
        {"one word, full buffers", 1, 6, 1, 0},
        {"two words, full buffers", 2, 7, 2, 0},
        {"three words, full buffers", 3, 13, 3, 0},
        {"buffers longer than needed", 2, 12, 9, 0},
        {"rows one short", 3, 12, 3, 6},
        {"starts one short", 3, 13, 2, 6},
        {"both one short", 3, 12, 2, 6},
        {"empty rows", 1, 0, 1, 6},
        {"empty starts", 1, 6, 0, 6},
        {"empty rows and starts", 1, 0, 0, 6},
        {"empty program", 0, 6, 1, 1},
        {"empty program and rows", 0, 0, 1, 1},
        {"empty program and starts", 0, 6, 0, 1},
        {"all empty", 0, 0, 0, 1},
    };
    for (size_t i = 0; i < sizeof cases / sizeof *cases; i++)
        expand_case(placement, &cases[i]);
    is_expansion_case(placement, "no rows", rows, 0, 1);
    is_expansion_case(placement, "two shifts and a word between", rows, 13, 1);
    is_expansion_case(placement, "a shift that is cut off", rows, 12, 0);
    is_expansion_case(placement, "one stage alone", rows, 1, 0);
    is_expansion_case(placement, "from stage 1 on", rows + 1, 6, 0);
    is_expansion_case(placement, "the rule", rule, RULE_ROWS, 1);
    is_expansion_case(placement, "no first stage", odd_rows, 1, 0);
    is_expansion_case(placement, "a word of 64 bits", &(const uint64_t){MOST}, 1, 0);
}
