/* magnetar_dispatcher_start, magnetar_dispatcher_add and magnetar_dispatcher_turn. */
#include "cases.h"
#include "rule.h"
#include <inttypes.h>
#include <stdio.h>

#define CALLERS MAGNETAR_CALLERS
#define WORDS MAGNETAR_DISPATCHER_WORDS
#define POSITION MAGNETAR_DISPATCHER_POSITION
#define BUDGET MAGNETAR_DISPATCHER_BUDGET
#define WANTED MAGNETAR_MAX_WANTED

static void start_cases(enum placement placement)
{
    static const uint64_t budgets[] = {0, 1, TWO(32), MOST};
    for (size_t i = 0; i < sizeof budgets / sizeof *budgets; i++) {
        uint64_t words[WORDS] = {[BUDGET] = budgets[i]};
        char text[40];
        snprintf(text, sizeof text, "a budget of %" PRIu64, budgets[i]);
        begin(placement, "magnetar_dispatcher_start", text);
        uint64_t *dispatcher = lend_room("dispatcher", NULL, WORDS);
        expect(dispatcher, words, WORDS);
        magnetar_dispatcher_start(budgets[i], dispatcher);
        check_lent();
    }
}

/* `wanted` is what the caller wants before, if there is such a caller; no two others want the same. */
struct add {
    const char *text;
    uint64_t caller, cycles, wanted, position, answer;
};

static void add_case(enum placement placement, const struct add *c)
{
    uint64_t words[WORDS];
    for (size_t i = 0; i < CALLERS; i++)
        words[i] = i == c->caller ? c->wanted : 1000 + i;
    words[POSITION] = c->position;
    words[BUDGET] = 0;
    begin(placement, "magnetar_dispatcher_add", c->text);
    uint64_t *dispatcher = lend_room("dispatcher", words, WORDS);
    if (c->answer == MAGNETAR_ACCEPTED) {
        words[c->caller] += c->cycles;
        expect(dispatcher, words, WORDS);
    }
    end(magnetar_dispatcher_add(dispatcher, c->caller, c->cycles), c->answer);
}

static void add_cases(enum placement placement)
{
    static const struct add cases[] = {
        {"the first caller", 0, 5, 0, 3, 0},
        {"the last caller and position", 15, 5, 7, 15, 0},
        {"no cycles", 8, 0, 7, 0, 0},
        {"2^32 cycles", 8, WANTED, 0, 0, 0},
        {"a sum of 2^32", 8, 1, WANTED - 1, 0, 0},
        {"no cycles to 2^32", 8, 0, WANTED, 0, 0},
        {"caller 16", 16, 0, 0, 0, 11},
        {"caller 17", 17, 5, 0, 0, 11},
        {"caller 2^32", TWO(32), 5, 0, 0, 11},
        {"caller 2^61, whose bytes wrap", TWO(61), 5, 0, 0, 11},
        {"caller 2^64 - 1", MOST, 5, 0, 0, 11},
        {"position 16", 3, 5, 0, 16, 11},
        {"position 2^32", 3, 0, 0, TWO(32), 11},
        {"position 2^64 - 1", 3, 5, 0, MOST, 11},
        {"both are 16", 16, 5, 0, 16, 11},
        {"a sum of 2^32 + 1", 8, 1, WANTED, 0, 12},
        {"2^32 + 1 cycles", 8, WANTED + 1, 0, 0, 12},
        {"no cycles to 2^32 + 1", 8, 0, WANTED + 1, 0, 12},
        {"no cycles to 2^64 - 1", 0, 0, MOST, 0, 12},
        {"a sum of 2^64", 0, 1, MOST, 0, 12},
        {"2^64 - 1 cycles", 15, MOST, 1, 0, 12},
        {"a sum that wraps to 2^32", 15, TWO(63) + TWO(32), TWO(63), 0, 12},
        {"the position is 16, and 12 is met", 8, 1, WANTED, 16, 11},
        {"the caller is 16, and many cycles", 16, MOST, 0, 0, 11},
    };
    for (size_t i = 0; i < sizeof cases / sizeof *cases; i++)
        add_case(placement, &cases[i]);
}

struct turn {
    const char *text;
    uint64_t position, budget, wanted[CALLERS];
    uint64_t caller, slice, answer;
};

static void turn_case(enum placement placement, const struct turn *c)
{
    uint64_t words[WORDS];
    for (size_t i = 0; i < CALLERS; i++)
        words[i] = c->wanted[i];
    words[POSITION] = c->position;
    words[BUDGET] = c->budget;
    begin(placement, "magnetar_dispatcher_turn", c->text);
    uint64_t *dispatcher = lend_room("dispatcher", words, WORDS);
    uint64_t *caller = lend_room("caller", NULL, 1), *slice = lend_room("slice", NULL, 1);
    if (c->answer == MAGNETAR_ACCEPTED) {
        expect(caller, &c->caller, 1);
        expect(slice, &c->slice, 1);
    }
    if (c->slice > 0) {
        words[c->caller] -= c->slice;
        words[POSITION] = c->caller == 15 ? 0 : c->caller + 1;
        words[BUDGET] -= c->slice;
        expect(dispatcher, words, WORDS);
    }
    end(magnetar_dispatcher_turn(dispatcher, caller, slice), c->answer);
}

#define NOTHING .caller = 16

static void turn_cases(enum placement placement)
{
    static const struct turn cases[] = {
        {"1 wanted", 0, 9000, {1}, 0, 1, 0},
        {"4095 wanted", 1, 9000, {[1] = 4095}, 1, 4095, 0},
        {"4096 wanted", 1, 9000, {[1] = 4096}, 1, 4096, 0},
        {"4097 wanted", 1, 9000, {[1] = 4097}, 1, 4096, 0},
        {"a budget of 1", 2, 1, {[2] = MOST, [3] = 5}, 2, 1, 0},
        {"a budget of 4095", 2, 4095, {[2] = MOST}, 2, 4095, 0},
        {"a budget of 4096", 2, 4096, {[2] = MOST}, 2, 4096, 0},
        {"a budget of 4097", 2, 4097, {[2] = WANTED + 1}, 2, 4096, 0},
        {"a budget of 2^32 + 1", 2, TWO(32) + 1, {[2] = TWO(32) + 1}, 2, 4096, 0},
        {"the most of both", 15, MOST, {MOST, [15] = MOST}, 15, 4096, 0},
        {"no budget", 15, 0, {1, MOST, [15] = 1}, NOTHING},
        {"nobody waiting", 9, MOST, {0}, NOTHING},
        {"no budget and nobody waiting", 0, 0, {0}, NOTHING},
        {"position 16", 16, 9000, {1}, .answer = 11},
        {"position 17", 17, 9000, {1}, .answer = 11},
        {"position 2^32", TWO(32), 9000, {1}, .answer = 11},
        {"position 2^64 - 16", MOST - 15, 9000, {1}, .answer = 11},
        {"position 2^64 - 1", MOST, 9000, {1}, .answer = 11},
        {"position 16, no budget", 16, 0, {1}, .answer = 11},
        {"position 16, nobody waiting", 16, 9000, {0}, .answer = 11},
    };
    for (size_t i = 0; i < sizeof cases / sizeof *cases; i++)
        turn_case(placement, &cases[i]);
}

/* From every position, all but the next few callers want any. */
static void circle(enum placement placement)
{
    for (size_t i = 0; i < CALLERS * CALLERS; i++) {
        size_t position = i / CALLERS, few = i % CALLERS;
        char text[80];
        snprintf(text, sizeof text, "position %zu, %zu callers who want none", position, few);
        struct turn c = {.text = text, .position = position, .budget = 9000, .slice = 7};
        c.caller = (position + few) % CALLERS;
        for (size_t k = few; k < CALLERS; k++)
            c.wanted[(position + k) % CALLERS] = 7 + k - few;
        turn_case(placement, &c);
    }
}

static void add(uint64_t *dispatcher, uint64_t caller, uint64_t cycles)
{
    check("answer of magnetar_dispatcher_add", magnetar_dispatcher_add(dispatcher, caller, cycles), 0);
}

/* Every turn until nobody waits, and then until there is no budget. */
static void list(enum placement placement)
{
    static const uint64_t grants[][2] = {{0, 4096}, {7, 1}, {15, 4096}, {0, 1}, {15, 904}, {16, 0}, {3, 902}, {16, 0}};
    static const uint64_t left[WORDS] = {[3] = 3194, [POSITION] = 4};
    begin(placement, "magnetar_dispatcher_turn", "after a start and adds");
    uint64_t *dispatcher = lend_room("dispatcher", NULL, WORDS);
    uint64_t *caller = lend_room("caller", NULL, 1), *slice = lend_room("slice", NULL, 1);
    magnetar_dispatcher_start(10000, dispatcher);
    add(dispatcher, 15, 4000);
    add(dispatcher, 7, 1);
    add(dispatcher, 0, 4097);
    add(dispatcher, 15, 1000);
    for (size_t i = 0; i < sizeof grants / sizeof *grants; i++) {
        if (i == 6)
            add(dispatcher, 3, 4096);
        check("answer", magnetar_dispatcher_turn(dispatcher, caller, slice), 0);
        check("caller", *caller, grants[i][0]);
        check("slice", *slice, grants[i][1]);
    }
    expect(dispatcher, left, WORDS);
    expect(caller, &(const uint64_t){16}, 1);
    expect(slice, &(const uint64_t){0}, 1);
    check_lent();
}

void dispatcher_cases(enum placement placement)
{
    start_cases(placement);
    add_cases(placement);
    turn_cases(placement);
    circle(placement);
    list(placement);
}
