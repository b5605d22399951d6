/* Harts write the lines 00 to 19, one at a time, under a lock that is taken by AMOSWAP. The lines come in order, whichever hart writes
   them: nobody reads or writes the line without the lock. */

        .globl  _start
_start: la      s0, lock
        la      s1, text
        li      s2, 1
        li      s3, '2'                 /* the tens digit of the first line that isn't written */
        li      s4, '9'

turn:   amoswap.w.aq    t0, s2, (s0)    /* wait for the lock */
        bnez    t0, turn

        lbu     t1, 0(s1)
        beq     t1, s3, free
        li      a0, 1
        mv      a1, s1
        li      a2, 3
        li      a7, 64
        ecall
        lbu     t2, 1(s1)               /* the next line */
        bne     t2, s4, ones
        addi    t1, t1, 1
        sb      t1, 0(s1)
        li      t2, '0' - 1
ones:   addi    t2, t2, 1
        sb      t2, 1(s1)

free:   amoswap.w.rl    zero, zero, (s0)
        bne     t1, s3, turn

        li      a0, 0
        li      a7, 93
        ecall

        .data
        .balign 4
lock:   .word   0
text:   .ascii  "00\n"
