/* The header check of ITU-T I.432 as one would write it in C: a clean header is decided first, and the wrong bit is
   looked up by the syndrome. Apart from the octet 5 that both work out first, the two are the same. */
#include "check.h"

#include <string.h>

/* remainder[x]: of x times x^8; wrong_bit[s]: which of forty bits has this syndrome, 40 for none, 41 for more than one. */
static uint8_t remainder_of[256], wrong_bit[256];

void make_tables(void) {
  for (unsigned x = 0; x < 256; ++x) {
    unsigned rest = x;
    for (int k = 0; k < 8; ++k) rest = rest & 128 ? (rest << 1 ^ 0x107) : rest << 1;
    remainder_of[x] = (uint8_t)rest;
  }
  memset(wrong_bit, 41, sizeof wrong_bit);
  wrong_bit[0] = 40;
  unsigned syndrome = 1; /* of bit 39, the last; each bit before it is x times as much */
  for (int bit = 39; bit >= 0; --bit) {
    wrong_bit[syndrome] = (uint8_t)bit;
    syndrome = syndrome & 128 ? (syndrome << 1 ^ 0x107) : syndrome << 1;
  }
}

static inline unsigned octet_5_by_table(const uint8_t *cell) {
  unsigned rest = remainder_of[cell[0]];
  rest = remainder_of[rest ^ cell[1]];
  rest = remainder_of[rest ^ cell[2]];
  return remainder_of[rest ^ cell[3]] ^ 0x55u;
}

/* The quotient by 1 / (x^8 + x^2 + x + 1), as a product of three short sums; then its remainder. */
static inline unsigned octet_5_by_shifts(const uint8_t *cell) {
  uint32_t head;
  memcpy(&head, cell, 4);
  const uint64_t w = __builtin_bswap32(head);
  const uint64_t a = w ^ (w ^ w << 1 ^ w << 2) >> 8;
  const uint64_t b = a ^ (a ^ a << 2 ^ a << 4) >> 16;
  const uint64_t q = b ^ (b ^ b << 4) >> 28;
  return (unsigned)((q ^ q << 1 ^ q << 2) & 255) ^ 0x55u;
}

static inline enum outcome judge(const uint8_t *cell, unsigned octet_5, uint16_t *mode, uint8_t *header) {
  const unsigned syndrome = octet_5 ^ cell[4];
  if (syndrome == 0) return *mode = 0, as_it_came;
  const unsigned bit = *mode == 0 ? wrong_bit[syndrome] : 41;
  *mode = 1;
  if (bit > 39) return dropped;
  memcpy(header, cell, 5);
  header[bit / 8] = (uint8_t)(header[bit / 8] ^ 128 >> bit % 8);
  return mended;
}

__attribute__((noinline)) enum outcome check_by_table(const uint8_t *cell, uint16_t *mode, uint8_t *header) {
  return judge(cell, octet_5_by_table(cell), mode, header);
}

__attribute__((noinline)) enum outcome check_by_shifts(const uint8_t *cell, uint16_t *mode, uint8_t *header) {
  return judge(cell, octet_5_by_shifts(cell), mode, header);
}
