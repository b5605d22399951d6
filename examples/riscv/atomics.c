/* Each atomic instruction, on words and, where there are, on double words: what it gives and what it leaves in memory */
#include "system.h"

static volatile long numbers[] = {0, 1, -1, 0x7fffffff, -0x7fffffff - 1, 0x5a5a5a5a};
static volatile i32 word;
static volatile i64 wide __attribute__((aligned(8)));

/* All pairs of a number in memory and one in a register */
#define TRY(instruction, cell)                                                                              \
  do {                                                                                                      \
    u64 sum = 0;                                                                                            \
    for (int i = 0; i < COUNT(numbers); i++)                                                                \
      for (int j = 0; j < COUNT(numbers); j++) {                                                            \
        long old;                                                                                           \
        cell = numbers[i];                                                                                  \
        __asm__ volatile(instruction " %0, %2, (%1)" : "=r"(old) : "r"(&cell), "r"(numbers[j]) : "memory"); \
        sum = (sum * 31 + (u64)(i64)old) * 31 + (u64)(i64)cell;                                             \
      }                                                                                                     \
    hex(sum, 16);                                                                                           \
  } while (0)

#define TRY_ALL(width, cell)    \
  do {                          \
    TRY("amoswap" width, cell); \
    TRY("amoadd" width, cell);  \
    TRY("amoxor" width, cell);  \
    TRY("amoand" width, cell);  \
    TRY("amoor" width, cell);   \
    TRY("amomin" width, cell);  \
    TRY("amomax" width, cell);  \
    TRY("amominu" width, cell); \
    TRY("amomaxu" width, cell); \
  } while (0)

/* A reservation stands until it is used; without one nothing is written. */
#define TRY_RESERVED(width, cell)                                                                 \
  do {                                                                                            \
    long old, first, second;                                                                      \
    cell = 11;                                                                                    \
    __asm__ volatile("lr" width " %0, (%3)\n sc" width " %1, %4, (%3)\n sc" width " %2, %5, (%3)" \
                     : "=&r"(old), "=&r"(first), "=&r"(second)                                    \
                     : "r"(&cell), "r"(22l), "r"(33l)                                             \
                     : "memory");                                                                 \
    decimal((i32)old);                                                                            \
    decimal(first != 0);                                                                          \
    decimal(second != 0);                                                                         \
    decimal((i32)cell);                                                                           \
  } while (0)

int main(void) {
  TRY_ALL(".w", word);
  TRY_ALL(".w.aqrl", word);
  TRY_RESERVED(".w", word);
#if __riscv_xlen == 64
  TRY_ALL(".d", wide);
  TRY_RESERVED(".d", wide);
#endif
  return 0;
}
