# A tariff with two prices, as a billing rule. Input word 0 is the old meter reading, word 1 the new one, both in kWh.
# Each of the first 100 kWh costs 32 cents, each further one 24. The output is the sum in cents.
# It does not look whether the new reading is below the old one: the difference then wraps, and the output is no sum.
# Only instructions that the recorder executes as the manual says; docs/RULES.md has the list.
        ld      x5, 0(x0)       # old reading
        ld      x6, 8(x0)       # new reading
        sub     x7, x6, x5      # used
        addi    x8, x0, 100
        bgeu    x8, x7, first   # none above 100
        sub     x9, x7, x8      # above 100
        addi    x7, x8, 0
        slli    x10, x9, 4      # 24 = 16 + 8
        slli    x9, x9, 3
        add     x10, x10, x9
first:
        slli    x7, x7, 5       # 32
        add     x10, x10, x7
        ecall                   # the output is x10
