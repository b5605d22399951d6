/* Products, quotients and remainders at their edges. Division by zero and its overflow, which C leaves open, are asked of the instructions. */
#include "system.h"

static volatile i32 numbers[] = {0, 1, -1, 2, -2, 7, -7, 2147483647, -2147483647 - 1, 0x55555555};

static u32 products(u32 sum, i32 a, i32 b) {
  sum = sum * 31 + (u32)a * (u32)b;
  sum = sum * 31 + (u32)(((i64)a * b) >> 32);
  sum = sum * 31 + (u32)(((u64)(u32)a * (u32)b) >> 32);
  return sum * 31 + (u32)(((i64)a * (u32)b) >> 32);
}

static u32 quotients(u32 sum, i32 a, i32 b) {
  sum = sum * 31 + (u32)(a / b);
  sum = sum * 31 + (u32)(a % b);
  sum = sum * 31 + (u32)a / (u32)b;
  return sum * 31 + (u32)a % (u32)b;
}

/* Writes what an instruction of M makes of two numbers. */
#define WRITE(instruction, a, b)                                                      \
  do {                                                                                \
    long made;                                                                        \
    __asm__(instruction " %0, %1, %2" : "=r"(made) : "r"((long)(a)), "r"((long)(b))); \
    hex((u64)made, 2 * (int)sizeof made);                                             \
  } while (0)

int main(void) {
  const long least = (long)(1ul << (8 * sizeof(long) - 1));
  u32 sum = 0;
  for (int i = 0; i < COUNT(numbers); i++)
    for (int j = 0; j < COUNT(numbers); j++) {
      i32 a = numbers[i], b = numbers[j];
      sum = products(sum, a, b);
      if (b != 0 && (a != -2147483647 - 1 || b != -1)) sum = quotients(sum, a, b);
    }
  hex(sum, 8);
  WRITE("div", 5, 0);
  WRITE("divu", 5, 0);
  WRITE("rem", 5, 0);
  WRITE("remu", -5, 0);
  WRITE("div", least, -1);
  WRITE("rem", least, -1);
#if __riscv_xlen == 64
  WRITE("divw", 5, 0);
  WRITE("divuw", 5, 0);
  WRITE("remw", 0x1fffffffbl, 0);
  WRITE("remuw", 0x1fffffffbl, 0);
  WRITE("divw", 0x80000000l, 0xffffffffl);
  WRITE("remw", 0x80000000l, 0xffffffffl);
#endif
  return 0;
}
