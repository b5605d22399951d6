/* Every comparison of every pair of numbers, signed and unsigned, as a branch and as a value */
#include "system.h"

static volatile i32 numbers[] = {0, 1, -1, 2147483647, -2147483647 - 1, 42, -42};

static u32 compared(u32 sum, i32 a, i32 b) {
  u32 x = (u32)a, y = (u32)b;
  if (a == b) sum = sum * 3 + 1;
  else sum = sum * 5 + 2;
  if (a < b) sum += 7;
  else sum *= 3;
  if (x < y) sum += 11;
  else sum *= 5;
  if (a >= b) sum ^= 13;
  if (x >= y) sum ^= 17;
  return sum * 7 + (u32)(a < b) + 2 * (u32)(x < y) + 4 * (u32)(a != b) + 8 * (u32)(a < 10) + 16 * (u32)(x < 10);
}

int main(void) {
  for (int i = 0; i < COUNT(numbers); i++) {
    u32 sum = 1;
    for (int j = 0; j < COUNT(numbers); j++) sum = compared(sum, numbers[i], numbers[j]);
    hex(sum, 8);
  }
  return 0;
}
