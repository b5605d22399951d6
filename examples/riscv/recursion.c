/* Ackermann's function, the moves of Hanoi, and Fibonacci numbers, by calls */
#include "system.h"

#define CALLED __attribute__((noinline, noclone)) static

static u32 moves;

CALLED u32 ackermann(u32 m, u32 n) {
  if (m == 0) return n + 1;
  return n == 0 ? ackermann(m - 1, 1) : ackermann(m - 1, ackermann(m, n - 1));
}

CALLED void hanoi(int discs, int from, int to) {
  if (discs == 0) return;
  hanoi(discs - 1, from, 6 - from - to);
  moves = moves * 3 + (u32)(4 * from + to);
  hanoi(discs - 1, 6 - from - to, to);
}

CALLED u32 fibonacci(u32 n) { return n < 2 ? n : fibonacci(n - 1) + fibonacci(n - 2); }

int main(void) {
  decimal((i32)ackermann(2, 6));
  hanoi(8, 1, 3);
  hex(moves, 8);
  decimal((i32)fibonacci(15));
  return 0;
}
