/* A program that checks itself, in the way of the riscv-tests: each line of the tables works out one instruction and compares. gp counts
   the lines; the number of the first one that is wrong is written, and the status is 1. */

#define XLEN __riscv_xlen

        .set    LEAST, -1 << (XLEN - 1)
        .set    MOST, ~LEAST
        .set    number, 0

        .macro  line                    /* another line */
        .set    number, number + 1
        li      gp, number
        .endm

        .macro  made wanted             /* what has to be in a2 */
        li      a3, \wanted
        bne     a2, a3, wrong
        .endm

        .macro  two instruction, a, b, wanted
        line
        li      a0, \a
        li      a1, \b
        \instruction a2, a0, a1
        made    \wanted
        .endm

        .macro  one instruction, a, constant, wanted
        line
        li      a0, \a
        \instruction a2, a0, \constant
        made    \wanted
        .endm

        .macro  upper constant, wanted
        line
        lui     a2, \constant
        made    \wanted
        .endm

        .macro  taken instruction, a, b
        line
        li      a0, \a
        li      a1, \b
        \instruction a0, a1, 1f
        j       wrong
1:
        .endm

        .macro  passed instruction, a, b
        line
        li      a0, \a
        li      a1, \b
        \instruction a0, a1, 1f
        j       2f
1:      j       wrong
2:
        .endm

        .macro  load instruction, offset, wanted
        line
        \instruction a2, \offset - 8(s0)
        made    \wanted
        .endm

        .macro  store instruction, offset, value, read, wanted
        line
        sw      zero, 0(s1)
        sw      zero, 4(s1)
        li      a0, \value
        \instruction a0, \offset(s1)
        \read   a2, 0(s1)
        made    \wanted
        .endm

        .macro  atomic instruction, left, a, wanted, write, read
        line
        li      a0, \left
        li      a1, \a
        \write  a0, 0(s1)
        \instruction a2, a1, (s1)
        made    \left
        \read   a2, 0(s1)
        made    \wanted
        .endm

        .globl  _start
_start: la      s0, bytes + 8
        la      s1, cell

        /* registers: each holds its own number, and x0 none */
        line
        .irp    r, 1, 2, 4, 5, 6, 7, 10, 11, 12, 13, 14, 15, 16, 17, 18, 19, 20, 21, 22, 23, 24, 25, 26, 27, 28, 29, 30, 31
        addi    x\r, x0, 3 * \r
        .endr
        addi    x0, x1, 1
        mv      x8, x0
        .irp    r, 1, 2, 4, 5, 6, 7, 10, 11, 12, 13, 14, 15, 16, 17, 18, 19, 20, 21, 22, 23, 24, 25, 26, 27, 28, 29, 30, 31
        addi    x9, x0, 3 * \r
        bne     x9, x\r, wrong
        .endr
        bnez    x8, wrong
        la      s0, bytes + 8
        la      s1, cell

        /* LUI, AUIPC, JAL, JALR */
        upper   0, 0
        upper   1, 0x1000
        upper   0x7ffff, 0x7ffff000
        upper   0x80000, -0x80000000
        upper   0xfffff, -0x1000
        line
        auipc   a0, 0
        auipc   a1, 1
        sub     a2, a1, a0
        made    0x1004
        line
1:      auipc   a0, 0
        jal     a1, 2f
        j       wrong
2:      sub     a2, a1, a0
        made    8
        line
        la      a0, 1f + 5
        jalr    a0, -4(a0)              /* to 1f: the lowest bit is cleared */
2:      j       wrong
1:      la      a1, 2b
        sub     a2, a0, a1
        made    0
        line
        j       2f
1:      j       3f
2:      j       1b
        j       wrong
3:

        /* branches */
        taken   beq, 5, 5
        taken   beq, -1, -1
        passed  beq, 5, 6
        passed  beq, LEAST, MOST
        taken   bne, 5, 6
        taken   bne, LEAST, MOST
        passed  bne, -1, -1
        taken   blt, 5, 6
        taken   blt, -1, 0
        taken   blt, LEAST, MOST
        passed  blt, 6, 6
        passed  blt, 0, -1
        taken   bge, 6, 6
        taken   bge, 0, -1
        taken   bge, MOST, LEAST
        passed  bge, 5, 6
        passed  bge, -1, 0
        taken   bltu, 5, 6
        taken   bltu, 0, -1
        taken   bltu, MOST, LEAST
        passed  bltu, -1, 0
        passed  bltu, 7, 7
        taken   bgeu, 7, 7
        taken   bgeu, -1, 0
        taken   bgeu, LEAST, MOST
        passed  bgeu, 0, -1
        passed  bgeu, 5, 6
        line
        li      a2, 0
1:      addi    a2, a2, 1
        li      a3, 3
        bltu    a2, a3, 1b
        made    3

        /* loads, at any alignment and with offsets of both signs */
        load    lb, 0, -128
        load    lb, 1, 127
        load    lb, 9, -2
        load    lbu, 0, 128
        load    lbu, 2, 255
        load    lh, 0, 0x7f80
        load    lh, 6, -0x7699
        load    lh, 7, -0x6777
        load    lhu, 6, 0x8967
        load    lhu, 7, 0x9889
        load    lw, 0, 0x01ff7f80
        load    lw, 4, -0x7698badd
        load    lw, 1, 0x2301ff7f
        load    lw, 6, -0x01677699
        line
        lw      zero, 0(s0)
        mv      a2, zero
        made    0

        /* stores: the bytes beside are left */
        store   sb, 1, 0x180, lw, 0x8000
        store   sb, 3, -1, lw, -0x1000000
        store   sh, 0, 0x12345678, lw, 0x5678
        store   sh, 1, 0x12345678, lw, 0x567800
        store   sw, 0, 0x12345678, lw, 0x12345678
        store   sw, 2, 0x12345678, lw, 0x56780000
        store   sw, 0, -2, lw, -2

        /* constants */
        one     addi, 3, 7, 10
        one     addi, LEAST, -1, MOST
        one     addi, 0, 2047, 2047
        one     addi, 0, -2048, -2048
        one     slti, 3, 7, 1
        one     slti, 7, 7, 0
        one     slti, -1, 0, 1
        one     slti, MOST, -1, 0
        one     slti, LEAST, -2048, 1
        one     sltiu, 3, 7, 1
        one     sltiu, -1, 7, 0
        one     sltiu, 7, -1, 1
        one     sltiu, -2048, -2048, 0
        one     xori, 0x0ff0, 0x70f, 0x08ff
        one     xori, 0x5a, -1, -0x5b
        one     ori, 0x0ff0, 0x70f, 0x0fff
        one     ori, 0x5a, -16, -6
        one     andi, 0x0ff0, 0x70f, 0x0700
        one     andi, -1, -16, -16
        one     slli, 33, 4, 528
        one     slli, 1, XLEN - 1, LEAST
        one     slli, -1, 0, -1
        one     srli, LEAST, XLEN - 1, 1
        one     srli, -1, 1, MOST
        one     srli, 528, 4, 33
        one     srai, LEAST, XLEN - 1, -1
        one     srai, -32, 3, -4
        one     srai, MOST, XLEN - 2, 1

        /* two registers */
        two     add, 3, 7, 10
        two     add, LEAST, -1, MOST
        two     add, MOST, 1, LEAST
        two     add, -1, 1, 0
        two     sub, 3, 7, -4
        two     sub, LEAST, 1, MOST
        two     sub, 0, LEAST, LEAST
        two     sub, MOST, -1, LEAST
        two     sll, 33, 4, 528
        two     sll, 1, XLEN - 1, LEAST
        two     sll, 3, XLEN + 1, 6
        two     sll, 3, -1, LEAST
        two     slt, 0, 0, 0
        two     slt, -1, 1, 1
        two     slt, LEAST, MOST, 1
        two     slt, MOST, LEAST, 0
        two     sltu, 0, 0, 0
        two     sltu, -1, 1, 0
        two     sltu, LEAST, MOST, 0
        two     sltu, MOST, LEAST, 1
        two     xor, 0x0ff0, 0x3c3c, 0x33cc
        two     xor, -1, 0x55, -0x56
        two     srl, LEAST, XLEN - 1, 1
        two     srl, -1, XLEN + 1, MOST
        two     srl, 528, 4, 33
        two     sra, LEAST, XLEN - 1, -1
        two     sra, -32, XLEN + 3, -4
        two     sra, MOST, XLEN - 2, 1
        two     or, 0x0ff0, 0x3c3c, 0x3ffc
        two     or, LEAST, 1, LEAST + 1
        two     and, 0x0ff0, 0x3c3c, 0x0c30
        two     and, LEAST, MOST, 0

        /* fences, which order what is ordered already */
        line
        fence
        fence   r, w
        fence.tso
        .word   0x0100000f              /* pause */

        /* a call that there isn't: -ENOSYS */
        line
        li      a7, 9999
        ecall
        mv      a2, a0
        made    -38

        /* M */
        two     mul, 7, -3, -21
        two     mul, MOST, MOST, 1
        two     mul, LEAST, 3, LEAST
        two     mulh, -1, -1, 0
        two     mulh, LEAST, LEAST, 1 << (XLEN - 2)
        two     mulh, MOST, LEAST, -1 << (XLEN - 2)
        two     mulh, 7, -3, -1
        two     mulhsu, -1, -1, -1
        two     mulhsu, LEAST, LEAST, -1 << (XLEN - 2)
        two     mulhsu, MOST, -1, MOST - 1
        two     mulhu, -1, -1, -2
        two     mulhu, LEAST, LEAST, 1 << (XLEN - 2)
        two     mulhu, MOST, 2, 0
        two     div, 20, 6, 3
        two     div, -20, 6, -3
        two     div, 20, -6, -3
        two     div, -20, -6, 3
        two     div, LEAST, -1, LEAST
        two     div, 5, 0, -1
        two     divu, 20, 6, 3
        two     divu, -1, 2, MOST
        two     divu, LEAST, -1, 0
        two     divu, 0, 0, -1
        two     rem, 20, 6, 2
        two     rem, -20, 6, -2
        two     rem, 20, -6, 2
        two     rem, -20, -6, -2
        two     rem, LEAST, -1, 0
        two     rem, -5, 0, -5
        two     remu, 20, 6, 2
        two     remu, -1, 2, 1
        two     remu, LEAST, -1, LEAST
        two     remu, -5, 0, -5

        /* A */
        atomic  amoswap.w, 5, -7, -7, sw, lw
        atomic  amoadd.w, 5, -7, -2, sw, lw
        atomic  amoadd.w.aqrl, 0x7fffffff, 1, -0x80000000, sw, lw
        atomic  amoxor.w, 0x0ff0, 0x3c3c, 0x33cc, sw, lw
        atomic  amoand.w, 0x0ff0, 0x3c3c, 0x0c30, sw, lw
        atomic  amoor.w, 0x0ff0, 0x3c3c, 0x3ffc, sw, lw
        atomic  amomin.w, 5, -7, -7, sw, lw
        atomic  amomax.w, 5, -7, 5, sw, lw
        atomic  amominu.w, 5, -7, 5, sw, lw
        atomic  amomaxu.w, 5, -7, -7, sw, lw
        line                            /* a reservation is used once */
        li      a0, -9
        li      a1, 12
        sw      a0, 0(s1)
        lr.w    a2, (s1)
        made    -9
        sc.w    a2, a1, (s1)
        made    0
        sc.w    a2, a0, (s1)
        snez    a2, a2
        made    1
        lw      a2, 0(s1)
        made    12

#if XLEN == 64
        /* what RV64 has beside */
        load    lwu, 4, 0x89674523
        load    ld, 0, -0x7698badcfe008080
        load    ld, 8, -0x67543210ffff0168
        store   sd, 0, -0x123456789abcdef, ld, -0x123456789abcdef
        store   sw, 4, -2, ld, -0x200000000
        store   sd, 3, -1, lw, -0x1000000
        one     slli, 3, 40, 0x30000000000
        one     srli, -1, 36, 0xfffffff
        one     srai, LEAST, 36, -0x8000000
        one     addiw, 0x7fffffff, 1, -0x80000000
        one     addiw, 0x1ffffffff, 0, -1
        one     addiw, -0x80000000, -1, 0x7fffffff
        one     slliw, 1, 31, -0x80000000
        one     slliw, 0x123456789, 4, 0x34567890
        one     srliw, -1, 4, 0x0fffffff
        one     srliw, -1, 0, -1
        one     sraiw, 0x180000000, 4, -0x08000000
        one     sraiw, 0x7fffffff, 31, 0
        two     addw, 0x7fffffff, 1, -0x80000000
        two     addw, 0x1ffffffff, 1, 0
        two     subw, 0, 0x80000000, -0x80000000
        two     subw, 5, 0x100000007, -2
        two     sllw, 1, 63, -0x80000000
        two     sllw, 0x123456789, 36, 0x34567890
        two     srlw, -1, 36, 0x0fffffff
        two     srlw, 0x180000000, 32, -0x80000000
        two     sraw, 0x180000000, 36, -0x08000000
        two     sraw, -32, 35, -4
        two     mulw, 0x10001, 0x10001, 0x20001
        two     mulw, 0x7fffffff, 2, -2
        two     divw, 0x180000000, -1, -0x80000000
        two     divw, -20, 6, -3
        two     divw, 5, 0x100000000, -1
        two     divuw, -1, 2, 0x7fffffff
        two     divuw, -1, 1, -1
        two     divuw, 5, 0x100000000, -1
        two     remw, 0x180000000, -1, 0
        two     remw, -20, 6, -2
        two     remw, 0x1fffffffb, 0, -5
        two     remuw, -1, 16, 15
        two     remuw, 0xfffffffb, 0, -5
        atomic  amoswap.d, LEAST, -7, -7, sd, ld
        atomic  amoadd.d, MOST, 1, LEAST, sd, ld
        atomic  amoxor.d, LEAST, MOST, -1, sd, ld
        atomic  amoand.d, LEAST, -7, LEAST, sd, ld
        atomic  amoor.d, LEAST, MOST, -1, sd, ld
        atomic  amomin.d, LEAST, MOST, LEAST, sd, ld
        atomic  amomax.d, LEAST, MOST, MOST, sd, ld
        atomic  amominu.d, LEAST, MOST, MOST, sd, ld
        atomic  amomaxu.d, LEAST, MOST, LEAST, sd, ld
        line
        li      a0, LEAST
        li      a1, 12
        sd      a0, 0(s1)
        lr.d    a2, (s1)
        made    LEAST
        sc.d    a2, a1, (s1)
        made    0
        sc.d    a2, a0, (s1)
        snez    a2, a2
        made    1
        ld      a2, 0(s1)
        made    12
#endif

        la      a1, good
        li      a2, 5
        li      s2, 0
        j       said

wrong:  la      a1, text + 6            /* gp in decimal */
        li      t0, 10
        addi    a1, a1, -1
        sb      t0, 0(a1)
1:      remu    t1, gp, t0
        addi    t1, t1, '0'
        addi    a1, a1, -1
        sb      t1, 0(a1)
        divu    gp, gp, t0
        bnez    gp, 1b
        la      a2, text + 6
        sub     a2, a2, a1
        li      s2, 1
said:   li      a0, 1
        li      a7, 64
        ecall
        mv      a0, s2
        li      a7, 93
        ecall

good:   .ascii  "good\n"

        .data
        .balign 8
bytes:  .byte   0x80, 0x7f, 0xff, 0x01, 0x23, 0x45, 0x67, 0x89
        .byte   0x98, 0xfe, 0x00, 0x00, 0xef, 0xcd, 0xab, 0x98
cell:   .space  16
text:   .space  8
