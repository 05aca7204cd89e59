/* A rule of three words, what it does by hand, and the numbers that the cases try. */
#ifndef RULE_H
#define RULE_H

#include "magnetar_cpu.h"

/* addi x10, x0, 5; sd x10, 8(x0); ecall; and a register shift, sll x3, x1, x2 */
#define ADDI 0x00500513
#define SD 0x00a03423
#define ECALL 0x00000073
#define SLL 0x002091b3

/* ADDI, SD and ECALL: its rows are its words. */
#define RULE_ROWS 3
extern const uint64_t rule[RULE_ROWS];

/* Rows that are no expansion: stage 1 of a register shift without its stage 0. */
extern const uint64_t odd_rows[1];

#define MOST UINT64_MAX
/* 17 times this is 16 modulo 2^64, and 136 times the next is below 136: lengths that pass a test that wraps. */
#define WRAPS_WORDS (UINT64_MAX / 17 + 1)
#define WRAPS_BYTES (UINT64_MAX / 136 + 1)
#define TWO(n) (UINT64_C(1) << (n))

/* A live machine at row 0. Register 0 and the numbers are 0; no two other words are the same. */
void ready_image(uint64_t *image);

/* The fresh image for an input. */
void fresh_image(uint64_t *image, const uint64_t *input, size_t input_len);

/* One cycle of the rule by hand: live if wanted and if the machine is, else padding. Register 0 must be 0. */
void rule_cycle(uint64_t *image, int is_live, uint64_t *record);

#endif
