/* Where a C program begins: a stack, main, and exit with what main gives. */

        .section .start, "ax"
        .globl  _start
_start: la      sp, stack_end
        call    main
        li      a7, 93
        ecall

        .bss
        .balign 16
        .space  8192
stack_end:
