/* Shifts by constants and by registers, signed and unsigned, of 32 and of 64 bits */
#include "system.h"

static volatile u32 words[] = {0, 1, 0x80000000, 0x7fffffff, 0xffffffff, 0x12345678};
static volatile u32 amounts[] = {0, 1, 4, 15, 16, 31};

int main(void) {
  u32 sum = 0;
  u64 wide = 0;
  for (int i = 0; i < COUNT(words); i++)
    for (int j = 0; j < COUNT(amounts); j++) {
      u32 word = words[i], by = amounts[j];
      u64 both = (u64)word << 32 | (word ^ 0x5a5a5a5a);
      sum = sum * 33 + (word << by);
      sum = sum * 33 + (word >> by);
      sum = sum * 33 + (u32)((i32)word >> by);
      sum = sum * 33 + (word << 3) + (word >> 5) + (u32)((i32)word >> 9);
      wide = wide * 33 + (both << by);
      wide = wide * 33 + (both >> (by + 32));
      wide = wide * 33 + (u64)((i64)both >> (by + 7));
      wide = wide * 33 + (both << 35) + (both >> 37) + (u64)((i64)both >> 41);
    }
  hex(sum, 8);
  hex(wide, 16);
  return 0;
}
