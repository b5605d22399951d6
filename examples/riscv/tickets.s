/* Harts take the tickets 0 to 49 by LR and SC, and each marks the ones that it took. The hart that takes the last ticket waits until
   all are marked, and writes whether each was taken once. What is written depends neither on how many harts there are nor on their order. */

        .set    COUNT, 50

        .globl  _start
_start: la      s0, next
        la      s1, marks
        li      s2, COUNT

take:   lr.w    t0, (s0)                /* a ticket, unless none is left */
        bge     t0, s2, rest
        addi    t1, t0, 1
        sc.w    t2, t1, (s0)
        bnez    t2, take

        add     t3, s1, t0              /* one mark more on it */
        lbu     t4, (t3)
        addi    t4, t4, 1
        sb      t4, (t3)
        bne     t1, s2, take

        la      a1, once                /* the last one: look at all marks */
        li      a2, 27
        li      t1, 1
        mv      t0, s1
        add     t2, s1, s2
wait:   lbu     t4, (t0)
        beqz    t4, wait
        beq     t4, t1, good
        la      a1, twice
        li      a2, 25
good:   addi    t0, t0, 1
        bne     t0, t2, wait

        li      a0, 1
        li      a7, 64
        ecall
rest:   li      a0, 0
        li      a7, 93
        ecall

once:   .ascii  "each ticket was taken once\n"
twice:  .ascii  "a ticket was taken twice\n"

        .bss
        .balign 4
next:   .space  4
marks:  .space  COUNT
