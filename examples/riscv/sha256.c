/* SHA-256 (FIPS 180-4) of four texts */
#include "system.h"

static const u32 constants[64] = {
    0x428a2f98, 0x71374491, 0xb5c0fbcf, 0xe9b5dba5, 0x3956c25b, 0x59f111f1, 0x923f82a4, 0xab1c5ed5,
    0xd807aa98, 0x12835b01, 0x243185be, 0x550c7dc3, 0x72be5d74, 0x80deb1fe, 0x9bdc06a7, 0xc19bf174,
    0xe49b69c1, 0xefbe4786, 0x0fc19dc6, 0x240ca1cc, 0x2de92c6f, 0x4a7484aa, 0x5cb0a9dc, 0x76f988da,
    0x983e5152, 0xa831c66d, 0xb00327c8, 0xbf597fc7, 0xc6e00bf3, 0xd5a79147, 0x06ca6351, 0x14292967,
    0x27b70a85, 0x2e1b2138, 0x4d2c6dfc, 0x53380d13, 0x650a7354, 0x766a0abb, 0x81c2c92e, 0x92722c85,
    0xa2bfe8a1, 0xa81a664b, 0xc24b8b70, 0xc76c51a3, 0xd192e819, 0xd6990624, 0xf40e3585, 0x106aa070,
    0x19a4c116, 0x1e376c08, 0x2748774c, 0x34b0bcb5, 0x391c0cb3, 0x4ed8aa4a, 0x5b9cca4f, 0x682e6ff3,
    0x748f82ee, 0x78a5636f, 0x84c87814, 0x8cc70208, 0x90befffa, 0xa4506ceb, 0xbef9a3f7, 0xc67178f2};

static u32 turn(u32 word, int by) { return word >> by | word << (32 - by); }

static void expand(u32 *words, const u8 *block) {
  for (int i = 0; i < 16; i++)
    words[i] = (u32)block[4 * i] << 24 | (u32)block[4 * i + 1] << 16 | (u32)block[4 * i + 2] << 8 | block[4 * i + 3];
  for (int i = 16; i < 64; i++) {
    u32 a = words[i - 15], b = words[i - 2];
    words[i] =
        words[i - 16] + (turn(a, 7) ^ turn(a, 18) ^ a >> 3) + words[i - 7] + (turn(b, 17) ^ turn(b, 19) ^ b >> 10);
  }
}

static void add_block(u32 *sums, const u8 *block) {
  u32 words[64], s[8];
  expand(words, block);
  for (int i = 0; i < 8; i++) s[i] = sums[i];
  for (int i = 0; i < 64; i++) {
    u32 choice = (s[4] & s[5]) ^ (~s[4] & s[6]);
    u32 majority = (s[0] & s[1]) ^ (s[0] & s[2]) ^ (s[1] & s[2]);
    u32 a = s[7] + (turn(s[4], 6) ^ turn(s[4], 11) ^ turn(s[4], 25)) + choice + constants[i] + words[i];
    u32 b = (turn(s[0], 2) ^ turn(s[0], 13) ^ turn(s[0], 22)) + majority;
    for (int j = 7; j > 0; j--) s[j] = s[j - 1];
    s[4] += a;
    s[0] = a + b;
  }
  for (int i = 0; i < 8; i++) sums[i] += s[i];
}

/* Writes the digest of a text that is written so many times. */
static void digest(const char *text, u32 times) {
  u32 sums[8] = {0x6a09e667, 0xbb67ae85, 0x3c6ef372, 0xa54ff53a, 0x510e527f, 0x9b05688c, 0x1f83d9ab, 0x5be0cd19};
  u8 block[64];
  u32 at = 0;
  u64 bits = 0;
  char digits[65];
  while (times--)
    for (const char *next = text; *next; next++, bits += 8) {
      block[at++] = (u8)*next;
      if (at == 64) add_block(sums, block), at = 0;
    }
  block[at++] = 0x80;
  if (at > 56) {
    while (at < 64) block[at++] = 0;
    add_block(sums, block);
    at = 0;
  }
  while (at < 56) block[at++] = 0;
  for (int i = 7; i >= 0; i--) block[at++] = (u8)(bits >> 8 * i);
  add_block(sums, block);
  for (int i = 0; i < 64; i++) digits[i] = "0123456789abcdef"[sums[i / 8] >> (28 - 4 * (i % 8)) & 15];
  digits[64] = 0;
  line(digits);
}

int main(void) {
  digest("", 1);
  digest("abc", 1);
  digest("abcdbcdecdefdefgefghfghighijhijkijkljklmklmnlmnomnopnopq", 1);
  digest("0123456789", 50);
  return 0;
}
