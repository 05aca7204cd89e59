# Executes cases one after another in qemu-riscv64. A case comes on standard input as a record of
# doublewords, and the same record goes to standard output as the case has left it:
#
#   0         where the RAM is; afterwards whether the end was reached by a branch that was taken
#   1 to 31   x1 to x31
#   32 to 36  the ten words of the slot, of which the case's words are the first
#   37 to 292 RAM
#
# x31 finds the record while the other registers are loaded and saved. Floating-point registers, which no
# case uses, keep what is needed across a case, so that all of x1 to x31 are the case's own.

        .equ    SLOT, 8 * 32
        .equ    SLOT_BYTES, 8 * 5
        .equ    RAM, SLOT + SLOT_BYTES
        .equ    RAM_BYTES, 2048
        .equ    RECORD, RAM + RAM_BYTES
        .equ    PAGE, 4096
        .equ    READ, 63
        .equ    WRITE, 64
        .equ    EXIT, 93
        .equ    MMAP, 222

# copy FROM, TO, BYTES: doublewords; changes t0, t1, t2 and t3
        .macro  copy from, to, bytes
        mv      t0, \from
        mv      t1, \to
        li      t2, \bytes
        add     t2, t2, t0
1:      ld      t3, 0(t0)
        sd      t3, 0(t1)
        addi    t0, t0, 8
        addi    t1, t1, 8
        bne     t0, t2, 1b
        .endm

# The page of RAM at address 0, so that x0 can be a base.
        .section .low, "aw", @nobits
        .space  PAGE

        .section .record, "aw", @nobits
        .balign 8
record: .space  RECORD
# What lies behind RAM is zero in every case.
zeros:  .space  PAGE - RAM_BYTES

# Writable, because every case writes its words into the slot.
        .section .harness, "awx", @progbits
        .globl  _start
_start:
# HIGH, a page of RAM at a large address, is defined on the assembler's command line.
        li      a0, HIGH
        li      a1, PAGE
        li      a2, 3                   # to read and write
        li      a3, 0x32                # private, at this address, of no file
        li      a4, -1
        li      a5, 0
        li      a7, MMAP
        ecall
        li      t0, HIGH
        bne     a0, t0, fail

next:
        li      a0, 0
        la      a1, record
        li      a2, RECORD
        li      a7, READ
        ecall
        beqz    a0, done
        li      t0, RECORD
        bne     a0, t0, fail
        la      s0, record
        ld      s1, 0(s0)
        addi    s2, s0, RAM
        copy    s2, s1, RAM_BYTES
        la      s2, zeros
        li      t0, RAM_BYTES
        add     s1, s1, t0
        copy    s2, s1, PAGE - RAM_BYTES
        addi    s2, s0, SLOT
        la      s1, slot
        copy    s2, s1, SLOT_BYTES
        fence.i
        mv      x31, s0
        fmv.d.x f1, x31
        .irp    n, 1,2,3,4,5,6,7,8,9,10,11,12,13,14,15,16,17,18,19,20,21,22,23,24,25,26,27,28,29,30
        ld      x\n, 8 * \n(x31)
        .endr
        ld      x31, 8 * 31(x31)
        j       slot

# Wherever a branch of the slot goes, forward or backward, it finds a jump to `taken`.
        .rept   1024
        j       taken
        .endr
slot:   .space  SLOT_BYTES
# What the slot's filling jumps to: the first behind the words, the second elsewhere.
        j       untaken
        .rept   1024
        j       taken
        .endr

untaken:
        fmv.d.x f0, x31
        li      x31, 0
        j       save
taken:
        fmv.d.x f0, x31
        li      x31, 1
save:
        fmv.d.x f2, x31
        fmv.x.d x31, f1
        .irp    n, 1,2,3,4,5,6,7,8,9,10,11,12,13,14,15,16,17,18,19,20,21,22,23,24,25,26,27,28,29,30
        sd      x\n, 8 * \n(x31)
        .endr
        fmv.x.d x1, f0
        sd      x1, 8 * 31(x31)
        mv      s0, x31
        ld      s1, 0(s0)
        addi    s2, s0, RAM
        copy    s1, s2, RAM_BYTES
        fmv.x.d t0, f2
        sd      t0, 0(s0)
        li      a0, 1
        mv      a1, s0
        li      a2, RECORD
        li      a7, WRITE
        ecall
        li      t0, RECORD
        beq     a0, t0, next
fail:
        li      a0, 1
        j       exit
done:
        li      a0, 0
exit:
        li      a7, EXIT
        ecall
