/* Harts draw the numbers 0 to 49 by AMOADD and gather, by AMOs, of 5 n + 3 for each of them the sum, the exclusive or, the largest and the
   smallest. The hart that says last that its number is in writes all four. They depend neither on how many harts there are nor on their
   order. */

        .set    COUNT, 50

        .globl  _start
_start: la      s0, cells
        li      s1, COUNT
        li      s2, 1

draw:   amoadd.w        t0, s2, (s0)    /* a number, unless none is left */
        bge     t0, s1, rest
        slli    t1, t0, 2
        add     t0, t0, t1
        addi    t0, t0, 3
        addi    s3, s0, 8
        amoadd.w        zero, t0, (s3)
        addi    s3, s0, 12
        amoxor.w        zero, t0, (s3)
        addi    s3, s0, 16
        amomax.w        zero, t0, (s3)
        addi    s3, s0, 20
        amominu.w       zero, t0, (s3)
        addi    s3, s0, 4               /* it is in */
        amoadd.w.aqrl   t1, s2, (s3)
        addi    t1, t1, 1
        bne     t1, s1, draw

        addi    s4, s0, 8               /* the last one: write four cells */
        addi    s5, s0, 24
write:  lw      t0, (s4)
        la      a1, text + 8
        la      t2, text
digit:  andi    t1, t0, 15
        la      t3, digits
        add     t1, t3, t1
        lbu     t1, (t1)
        addi    a1, a1, -1
        sb      t1, (a1)
        srli    t0, t0, 4
        bne     a1, t2, digit
        li      a0, 1
        li      a2, 9
        li      a7, 64
        ecall
        addi    s4, s4, 4
        bne     s4, s5, write

rest:   li      a0, 0
        li      a7, 93
        ecall

digits: .ascii  "0123456789abcdef"

        .data
        .balign 4
cells:  .word   0, 0, 0, 0, 0, -1
text:   .ascii  "........\n"
