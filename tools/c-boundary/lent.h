/* Memory that is lent to a call, on pages of its own, and the checks of a case. */
#ifndef LENT_H
#define LENT_H

#include <stddef.h>
#include <stdint.h>

/* Where on its pages a buffer lies. Before the first and after the last is a page that cannot be touched. */
enum placement {
    AMID_GUARDS,
    AT_LAST_WORD,
    AT_FIRST_WORD,
    PLACEMENTS
};

/* Makes the pages. A touch of what is not lent then ends the program, with the name of the case. */
void prepare(void);

/* Begins a case: nothing is lent, and what is lent from here on lies so. */
void begin(enum placement placement, const char *call, const char *text);

/* Lends n elements that must not be written: their pages cannot be. */
const uint32_t *lend_program(const uint32_t *program, size_t n);
const uint64_t *lend_words(const char *name, const uint64_t *words, size_t n);

/* Lends n words with this content, or, where `words` is null, with a pattern. */
uint64_t *lend_room(const char *name, const uint64_t *words, size_t n);

/* Lends n bytes with a pattern. */
uint8_t *lend_bytes(const char *name, size_t n);

/* Of the elements lent, the first n must be these when the case ends; all others must be as they were. */
void expect(const void *lent, const void *content, size_t n);

/* One check. */
void check(const char *place, uint64_t found, uint64_t wanted);

/* A check of all that is lent: one for the pages of each buffer, lent words and guards alike. */
void check_lent(void);

/* Ends a case: the answer, and all that is lent. */
void end(uint64_t answer, uint64_t wanted);

/* Says how many checks there were: the exit status, 1 if one failed or if there were fewer than `least`. */
int report(unsigned long least);

#endif
