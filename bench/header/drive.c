/*
 * Drives the archive's slot or burst, raw or not, or one of two header checks in C, over the same cells; callgrind
 * counts the instructions within that function alone.
 *
 *   drive slot|burst|table|shifts RAW WRONG N V SLOTS
 *   drive verify
 *
 * Every slot brings a cell with its right octet 5, of a VC drawn with equal chances; all VCs are open at one cell in 8
 * slots with the greatest tolerance. With WRONG 1 every second cell has one wrong bit, at each of forty places in turn:
 * the header check mends it, and the clean cell after it leads back to correction. The sum printed is over all answers
 * and all memory: it is the same for each path.
 */
#include <stdio.h>
#include <stdlib.h>
#include <string.h>

#include "check.h"
#include "clurimoon.h"

enum { block = 64 };

static uint8_t cells[CLURIMOON_CELLS(1024)], arrivals[53 * block], sizes[block], departures[53 * block];
static uint16_t links[1024], calendar[2048], answers[6 * block];
static uint32_t vcs[CLURIMOON_VCS(1024)];
static uint64_t bits[CLURIMOON_BITS];
static uint32_t arrived[1024];
static clurimoon_record record;
static unsigned n, v, wrong, made;
static unsigned long long state = 1992, sum;

static unsigned drawn(unsigned bound) {
  state = state * 6364136223846793005u + 1442695040888963407u;
  return (unsigned)((state >> 33) % bound);
}

static void add(const void *data, size_t octets) {
  const uint8_t *octet = data;
  while (octets-- > 0) sum = (sum ^ *octet++) * 1099511628211u;
}

/* Octet 5 by long division, a bit at a time. */
static uint8_t octet_5(const uint8_t *cell) {
  unsigned rest = 0;
  for (unsigned k = 0; k < 40; ++k) {
    rest = rest << 1 | (k < 32 ? cell[k / 8] >> (7 - k % 8) & 1u : 0);
    if (rest & 256) rest ^= 0x107;
  }
  return (uint8_t)(rest ^ 0x55);
}
static void change_bit(uint8_t *cell, unsigned bit) { cell[bit / 8] = (uint8_t)(cell[bit / 8] ^ 128 >> bit % 8); }

static void prepare(void) {
  for (unsigned k = 0; k < block; ++k, ++made) {
    uint8_t *cell = arrivals + 53 * k;
    const unsigned vci = 1 + drawn(v - 1);
    for (unsigned octet = 0; octet < 53; ++octet) cell[octet] = (uint8_t)drawn(256);
    cell[0] &= 0xf0, cell[1] = (uint8_t)(vci >> 12), cell[2] = (uint8_t)(vci >> 4);
    cell[3] = (uint8_t)((vci & 15) << 4 | (cell[3] & 15)), cell[4] = octet_5(cell);
    if (wrong && made % 2 == 0) change_bit(cell, made / 2 % 40);
    sizes[k] = 53;
  }
}

#define MEMORY cells, 53 * (size_t)n, links, n, calendar, 2 * (size_t)n, vcs, CLURIMOON_VCS(v), bits, CLURIMOON_BITS, arrived, n

static void serve(void) {
  for (unsigned k = 0; k < block; ++k) {
    const clurimoon_served s = clurimoon_slot(record, MEMORY, arrivals + 53 * k, sizes[k]);
    record = s.record;
    const uint16_t numbers[6] = {s.answer.number, s.answer.verdict, s.answer.vci,
                                 s.answer.d,      s.answer.space,   s.answer.out_vci};
    memcpy(answers + 6 * k, numbers, sizeof numbers);
  }
}

static void serve_burst(void) {
  const clurimoon_burst_end e = clurimoon_burst(record, MEMORY, arrivals, sizeof arrivals, sizes, block,
                                                departures, sizeof departures, answers, 6 * block);
  if (e.number != 0) exit(1);
  record = e.record;
}

/* The header check in C alone: its answers are summed up, so that none of it can be left out. */
static void check_all(enum outcome (*check)(const uint8_t *, uint16_t *, uint8_t *)) {
  static uint16_t mode;
  for (unsigned k = 0; k < block; ++k) {
    uint8_t header[5] = {0};
    const unsigned outcome = check(arrivals + 53 * k, &mode, header);
    add(&outcome, sizeof outcome), add(header, 5);
  }
}

static void must(int holds, const char *what) {
  if (!holds) printf("verify: FAILED, %s\n", what), exit(1);
}
static void verify_one(uint8_t *cell, const uint8_t *clean, unsigned wrong_bits) {
  uint8_t by_table[5] = {0}, by_shifts[5] = {0};
  for (uint16_t mode = 0; mode < 2; ++mode) {
    uint16_t a = mode, b = mode;
    const enum outcome x = check_by_table(cell, &a, by_table), y = check_by_shifts(cell, &b, by_shifts);
    const enum outcome expected = wrong_bits == 0 ? as_it_came : wrong_bits == 1 && mode == 0 ? mended : dropped;
    must(x == expected && y == expected && a == (wrong_bits != 0) && b == a, "a header is taken otherwise");
    if (expected == mended) must(!memcmp(by_table, clean, 5) && !memcmp(by_shifts, clean, 5), "another bit is mended");
  }
}
/* Both checks in C against long division: clean headers, each single and each double error, both modes. */
static int verify(void) {
  unsigned long headers = 0;
  for (unsigned k = 0; k < 200; ++k) {
    uint8_t clean[5], cell[5];
    for (unsigned octet = 0; octet < 4; ++octet) clean[octet] = (uint8_t)drawn(256);
    clean[4] = octet_5(clean);
    memcpy(cell, clean, 5), verify_one(cell, clean, 0), ++headers;
    for (unsigned i = 0; i < 40; ++i) {
      change_bit(cell, i), verify_one(cell, clean, 1), ++headers;
      for (unsigned j = i + 1; j < 40; ++j) {
        change_bit(cell, j), verify_one(cell, clean, 2), ++headers;
        change_bit(cell, j);
      }
      change_bit(cell, i);
    }
  }
  printf("The two checks in C hold against long division on %lu headers\n", headers);
  return 0;
}

int main(int count, char **arguments) {
  make_tables();
  if (count == 2 && strcmp(arguments[1], "verify") == 0) return verify();
  if (count != 7) return fprintf(stderr, "drive slot|burst|table|shifts RAW WRONG N V SLOTS\n"), 2;
  const char *kind = arguments[1];
  const bool raw = atoi(arguments[2]) != 0;
  wrong = (unsigned)atoi(arguments[3]), n = (unsigned)atoi(arguments[4]), v = (unsigned)atoi(arguments[5]);
  const clurimoon_set set = clurimoon_setup((uint16_t)n, (uint16_t)v, raw, CLURIMOON_UNI, 1, 1, MEMORY);
  if (set.number != 0) return 1;
  record = set.record;
  for (unsigned vci = 1; vci < v; ++vci)
    if (clurimoon_open(record, vcs, CLURIMOON_VCS(v), 1, (uint16_t)vci, 4, 128, 128 + 16 * n - 1) != 0) return 1;
  for (long done = 0; done < atol(arguments[6]); done += block) {
    prepare();
    if (strcmp(kind, "burst") == 0) serve_burst();
    else if (strcmp(kind, "slot") == 0) serve();
    else check_all(strcmp(kind, "table") == 0 ? check_by_table : check_by_shifts);
    add(answers, sizeof answers);
  }
  add(cells, 53 * (size_t)n), add(links, 2 * (size_t)n), add(calendar, 4 * (size_t)n), add(vcs, 4 * CLURIMOON_VCS(v)), add(bits, 8 * CLURIMOON_BITS), add(arrived, 4 * (size_t)n);
  printf("%016llx\n", sum);
  return 0;
}
