#include "rule.h"
#include <string.h>

const uint64_t rule[RULE_ROWS] = {ADDI, SD, ECALL};
const uint64_t odd_rows[1] = {SLL + TWO(32)};

void ready_image(uint64_t *image)
{
    image[0] = 0;
    for (size_t i = 1; i < MAGNETAR_CURSOR_MICRO_PC; i++)
        image[i] = 1000 + i;
    for (size_t i = MAGNETAR_CURSOR_MICRO_PC; i < MAGNETAR_CURSOR_WORDS; i++)
        image[i] = 0;
}

void fresh_image(uint64_t *image, const uint64_t *input, size_t input_len)
{
    memset(image, 0, MAGNETAR_CURSOR_WORDS * sizeof *image);
    for (size_t i = 0; i < input_len && i < MAGNETAR_RAM_WORDS; i++)
        image[MAGNETAR_CURSOR_RAM + i] = input[i];
}

/* Each of these writes the words of its record that are not 0. */
static void addi(uint64_t *image, uint64_t *record)
{
    record[MAGNETAR_RECORD_RS2_VAL] = image[5];
    record[MAGNETAR_RECORD_RD_VAL] = 5;
    record[MAGNETAR_RECORD_RD_OLD] = image[10];
    record[MAGNETAR_RECORD_RD] = 10;
    record[MAGNETAR_RECORD_RAM_WORD] = image[MAGNETAR_CURSOR_RAM];
    record[MAGNETAR_RECORD_NEXT_PC] = 1;
    record[MAGNETAR_RECORD_ALU_B] = 5;
    record[MAGNETAR_RECORD_ALU_OUT] = 5;
    record[MAGNETAR_RECORD_PACKED] = MAGNETAR_FLAG_WE | MAGNETAR_FLAG_IS_ARITH;
    image[10] = 5;
}

static void sd(uint64_t *image, uint64_t *record)
{
    uint64_t *word = &image[MAGNETAR_CURSOR_RAM + 1];
    record[MAGNETAR_RECORD_MICRO_PC] = 1;
    record[MAGNETAR_RECORD_RS2_VAL] = image[10];
    record[MAGNETAR_RECORD_RD_VAL] = image[32];
    record[MAGNETAR_RECORD_RD_OLD] = image[32];
    record[MAGNETAR_RECORD_RD] = 32;
    record[MAGNETAR_RECORD_RAM_ADDR] = 1;
    record[MAGNETAR_RECORD_RAM_WORD] = *word;
    record[MAGNETAR_RECORD_RAM_OLD] = *word;
    record[MAGNETAR_RECORD_RAM_NEW] = image[10];
    record[MAGNETAR_RECORD_STORE_SRC] = image[10];
    record[MAGNETAR_RECORD_NEXT_PC] = 2;
    record[MAGNETAR_RECORD_ALU_B] = 8;
    record[MAGNETAR_RECORD_ALU_OUT] = 8;
    record[MAGNETAR_RECORD_PACKED] = 8 << 8 | MAGNETAR_FLAG_IS_STORE;
    *word = image[10];
}

static void ecall(uint64_t *image, uint64_t *record)
{
    record[MAGNETAR_RECORD_MICRO_PC] = 2;
    record[MAGNETAR_RECORD_RS1_VAL] = image[10];
    record[MAGNETAR_RECORD_RD_VAL] = image[10];
    record[MAGNETAR_RECORD_RD_OLD] = image[32];
    record[MAGNETAR_RECORD_RD] = 32;
    record[MAGNETAR_RECORD_RAM_WORD] = image[MAGNETAR_CURSOR_RAM];
    record[MAGNETAR_RECORD_NEXT_PC] = 2;
    record[MAGNETAR_RECORD_ALU_A] = image[10];
    record[MAGNETAR_RECORD_ALU_OUT] = image[10];
    record[MAGNETAR_RECORD_PACKED] = MAGNETAR_FLAG_HALTED_LATCH;
    image[32] = image[10];
    image[MAGNETAR_CURSOR_HALTED] = 1;
    image[MAGNETAR_CURSOR_OUTPUT] = image[10];
}

static void pad(uint64_t *image, uint64_t *record)
{
    /* rs1, rs2 and the destination of each row */
    static const size_t fields[RULE_ROWS][3] = {{0, 5, 10}, {0, 10, 32}, {10, 0, 32}};
    uint64_t row = image[MAGNETAR_CURSOR_NEXT_FETCH];
    const size_t *field = fields[row];
    record[MAGNETAR_RECORD_MICRO_PC] = row;
    record[MAGNETAR_RECORD_RS1_VAL] = image[field[0]];
    record[MAGNETAR_RECORD_RS2_VAL] = image[field[1]];
    record[MAGNETAR_RECORD_RD_VAL] = image[MAGNETAR_CURSOR_OUTPUT];
    record[MAGNETAR_RECORD_RD_OLD] = image[field[2]];
    record[MAGNETAR_RECORD_RD] = field[2];
    record[MAGNETAR_RECORD_RAM_WORD] = image[MAGNETAR_CURSOR_RAM];
    record[MAGNETAR_RECORD_NEXT_PC] = row;
    record[MAGNETAR_RECORD_PACKED] = MAGNETAR_FLAG_HALTED_LATCH;
    image[field[2]] = image[MAGNETAR_CURSOR_OUTPUT];
}

void rule_cycle(uint64_t *image, int is_live, uint64_t *record)
{
    static void (*const rows[RULE_ROWS])(uint64_t *, uint64_t *) = {addi, sd, ecall};
    memset(record, 0, MAGNETAR_RECORD_WORDS * sizeof *record);
    if (!is_live || image[MAGNETAR_CURSOR_HALTED] != 0) {
        pad(image, record);
        return;
    }
    rows[image[MAGNETAR_CURSOR_MICRO_PC]](image, record);
    image[MAGNETAR_CURSOR_MICRO_PC] = record[MAGNETAR_RECORD_NEXT_PC];
    image[MAGNETAR_CURSOR_NEXT_FETCH] = record[MAGNETAR_RECORD_NEXT_PC];
    image[MAGNETAR_CURSOR_CYCLES]++;
}
