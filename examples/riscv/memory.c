/* Bytes, halves and words, signed and unsigned, at every offset of a buffer: loads and stores need not be aligned. */
#include "system.h"

static u8 buffer[64];

/* A load and a store of any alignment, by one instruction */
#define LOAD(name, instruction, type)                                                   \
  static type name(const u8 *address) {                                                 \
    long value;                                                                         \
    __asm__ volatile(instruction " %0, 0(%1)" : "=r"(value) : "r"(address) : "memory"); \
    return (type)value;                                                                 \
  }
#define STORE(name, instruction, type)                                                        \
  static void name(u8 *address, type value) {                                                 \
    __asm__ volatile(instruction " %0, 0(%1)" : : "r"((long)value), "r"(address) : "memory"); \
  }

LOAD(load_byte, "lb", i32)
LOAD(load_unsigned_byte, "lbu", i32)
LOAD(load_half, "lh", i32)
LOAD(load_unsigned_half, "lhu", i32)
LOAD(load_word, "lw", i64)
STORE(store_byte, "sb", u32)
STORE(store_half, "sh", u32)
STORE(store_word, "sw", u32)
#if __riscv_xlen == 64
LOAD(load_unsigned_word, "lwu", i64)
LOAD(load_double, "ld", i64)
STORE(store_double, "sd", u64)
#endif

static void loads(void) {
  u64 sum = 0;
  for (int i = 0; i < 56; i++) {
    sum = sum * 31 + (u64)(i64)load_byte(buffer + i);
    sum = sum * 31 + (u64)(i64)load_unsigned_byte(buffer + i);
    sum = sum * 31 + (u64)(i64)load_half(buffer + i);
    sum = sum * 31 + (u64)(i64)load_unsigned_half(buffer + i);
    sum = sum * 31 + (u64)load_word(buffer + i);
#if __riscv_xlen == 64
    sum = sum * 31 + (u64)load_unsigned_word(buffer + i);
    sum = sum * 31 + (u64)load_double(buffer + i);
#endif
  }
  hex(sum, 16);
}

static void stores(void) {
  for (u32 i = 0; i < 5; i++) {
    store_byte(buffer + 11 * i, i + 250);
    store_half(buffer + 11 * i + 1, i * 4099);
    store_word(buffer + 11 * i + 3, i * 0x1234567);
#if __riscv_xlen == 64
    store_double(buffer + 9 * i + 5, i * 0x123456789abcdef);
#endif
  }
}

int main(void) {
  for (u32 i = 0; i < sizeof buffer; i++) buffer[i] = (u8)(i * 37 + 11);
  loads();
  stores();
  for (u32 i = 0; i < sizeof buffer; i += 4) hex((u32)load_word(buffer + i), 8);
  return 0;
}
