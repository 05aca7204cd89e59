/* magnetar_same. */
#include "cases.h"
#include "rule.h"
#include <stdio.h>

/* Two images that are alike but for one word. */
static void same_case(enum placement placement, size_t at, uint64_t a, uint64_t b, uint64_t answer)
{
    char text[40];
    snprintf(text, sizeof text, "word %zu of two images", at);
    uint64_t image[MAGNETAR_CURSOR_WORDS];
    ready_image(image);
    begin(placement, "magnetar_same", text);
    image[at] = a;
    const uint64_t *lent_a = lend_words("a", image, MAGNETAR_CURSOR_WORDS);
    image[at] = b;
    const uint64_t *lent_b = lend_words("b", image, MAGNETAR_CURSOR_WORDS);
    end(magnetar_same(lent_a, lent_b), answer);
}

static int counts(size_t at)
{
    return at != MAGNETAR_CURSOR_CYCLES;
}

/*
 * What is only read may overlap. The images lie in one run of words, all 1 but
 * the word ODD, which is 2 and in the second image only.
 */
#define ODD 350
#define MOST_APART 187

static void overlapping(enum placement placement, size_t distance)
{
    char text[40];
    snprintf(text, sizeof text, "images %zu words apart", distance);
    uint64_t words[MAGNETAR_CURSOR_WORDS + MOST_APART];
    for (size_t i = 0; i < MAGNETAR_CURSOR_WORDS + MOST_APART; i++)
        words[i] = i == ODD ? 2 : 1;
    size_t at = ODD - distance;
    int differ = at < MAGNETAR_CURSOR_WORDS && at != MAGNETAR_CURSOR_HALTED && counts(at);
    begin(placement, "magnetar_same", text);
    const uint64_t *lent = lend_words("a and b", words, MAGNETAR_CURSOR_WORDS + distance);
    end(magnetar_same(lent, lent + distance), !differ);
}

void same_cases(enum placement placement)
{
    for (size_t distance = 0; distance <= MOST_APART; distance++)
        overlapping(placement, distance);
    for (size_t at = 0; at < MAGNETAR_CURSOR_WORDS; at++) {
        same_case(placement, at, 1, 1, 1);
        same_case(placement, at, 0, 1, !counts(at));
        same_case(placement, at, TWO(63), 0, !counts(at));
        same_case(placement, at, TWO(32), 0, !counts(at));
        /* Neither is 0: of halted words these agree. */
        same_case(placement, at, MOST, 1, !counts(at) || at == MAGNETAR_CURSOR_HALTED);
        same_case(placement, at, 256, TWO(63), !counts(at) || at == MAGNETAR_CURSOR_HALTED);
    }
}
