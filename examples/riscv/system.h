/* What the C programs share: Linux's write by its number, and printing. */

typedef unsigned char u8;
typedef unsigned short u16;
typedef unsigned int u32;
typedef unsigned long long u64;
typedef int i32;
typedef long long i64;

/* How many things an array has */
#define COUNT(array) ((int)(sizeof(array) / sizeof *(array)))

/* Writes so many bytes to the console. */
static inline void put(const char *text, long length) {
  register long a0 __asm__("a0") = 1;
  register long a1 __asm__("a1") = (long)text;
  register long a2 __asm__("a2") = length;
  register long a7 __asm__("a7") = 64;
  __asm__ volatile("ecall" : "+r"(a0) : "r"(a1), "r"(a2), "r"(a7) : "memory");
}

/* Writes a text and a line feed. */
static inline void line(const char *text) {
  long length = 0;
  while (text[length]) length++;
  put(text, length);
  put("\n", 1);
}

/* Writes so many hexadecimal digits of a number and a line feed. */
static inline void hex(u64 value, int digits) {
  char text[17];
  text[digits] = '\n';
  for (int at = digits; at-- > 0; value >>= 4) text[at] = "0123456789abcdef"[value & 15];
  put(text, digits + 1);
}

/* Writes a number in decimal and a line feed. */
static inline void decimal(i32 value) {
  char text[12];
  int at = 11;
  u32 left = value < 0 ? 0 - (u32)value : (u32)value;
  text[at] = '\n';
  do text[--at] = (char)('0' + left % 10);
  while (left /= 10);
  if (value < 0) text[--at] = '-';
  put(text + at, 12 - at);
}

/* gcc makes calls of these two itself. */
void *memcpy(void *to, const void *from, unsigned long count) {
  volatile u8 *t = to;
  const u8 *f = from;
  while (count--) *t++ = *f++;
  return to;
}

void *memset(void *to, int value, unsigned long count) {
  volatile u8 *t = to;
  while (count--) *t++ = (u8)value;
  return to;
}
