/*
 * The same slots through the struct of clurimoon_policer.h and through the plain call, to be counted: a function for each.
 *
 *   drive plain|policer|plain_burst|policer_burst SLOTS
 */
#include <stdint.h>
#include <stdio.h>
#include <stdlib.h>
#include <string.h>

#include "clurimoon_policer.h"

enum { N = 76, V = 64, TRAFFIC = 1024, BURST = 64 };

static uint8_t cells[CLURIMOON_CELLS(N)];
static uint16_t links[CLURIMOON_LINKS(N)], calendar[CLURIMOON_CALENDAR(N)];
static uint32_t vcs[CLURIMOON_VCS(V)];
static uint32_t arrived[CLURIMOON_ARRIVED(N)];
static uint64_t bits[CLURIMOON_BITS], block[CLURIMOON_POLICER_WORDS(N, V)];
static clurimoon_record record;
static clurimoon_policer policer;
static uint8_t traffic[TRAFFIC][CLURIMOON_CELL], sizes[TRAFFIC];
static uint8_t departures[BURST * CLURIMOON_CELL];
static uint16_t numbers[6 * BURST];
static clurimoon_answer answers[BURST];
static unsigned long sum;

#define MEMORIES                                                                                             \
  cells, CLURIMOON_CELLS(N), links, CLURIMOON_LINKS(N), calendar, CLURIMOON_CALENDAR(N), vcs, CLURIMOON_VCS(V), \
      bits, CLURIMOON_BITS, arrived, CLURIMOON_ARRIVED(N)

__attribute__((noinline)) void by_plain(unsigned slots) {
  for (unsigned k = 0; k < slots; ++k) {
    const uint8_t *cell = sizes[k % TRAFFIC] != 0 ? traffic[k % TRAFFIC] : NULL;
    const clurimoon_served served = clurimoon_slot(record, MEMORIES, cell, cell != NULL ? sizeof traffic[0] : 0);
    record = served.record;
    sum += served.answer.verdict + served.answer.out_vci;
  }
}

__attribute__((noinline)) void by_policer(unsigned slots) {
  for (unsigned k = 0; k < slots; ++k) {
    const uint8_t *cell = sizes[k % TRAFFIC] != 0 ? traffic[k % TRAFFIC] : NULL;
    const clurimoon_answer answer = clurimoon_policer_slot(&policer, cell);
    sum += answer.verdict + answer.out_vci;
  }
}

__attribute__((noinline)) void by_plain_burst(unsigned slots) {
  for (unsigned k = 0; k < slots; k += BURST) {
    const clurimoon_burst_end end =
        clurimoon_burst(record, MEMORIES, traffic[k % TRAFFIC], CLURIMOON_ARRIVALS(BURST), &sizes[k % TRAFFIC], BURST,
                        departures, CLURIMOON_DEPARTURES(BURST), numbers, CLURIMOON_ANSWERS(BURST));
    record = end.record;
    sum += end.done + end.number;
  }
}

__attribute__((noinline)) void by_policer_burst(unsigned slots) {
  for (unsigned k = 0; k < slots; k += BURST) {
    uint16_t number;
    sum += clurimoon_policer_burst(&policer, traffic[k % TRAFFIC], &sizes[k % TRAFFIC], BURST, departures, answers, &number);
    sum += number;
  }
}

int main(int words, char **word) {
  const unsigned slots = words > 2 ? (unsigned)strtoul(word[2], NULL, 10) : TRAFFIC;
  clurimoon_options options = {0};
  clurimoon_rate rate = {0};
  const clurimoon_set set = clurimoon_setup(N, V, false, CLURIMOON_UNI, 1, 1, MEMORIES);
  record = set.record;
  if (set.number != 0 || clurimoon_policer_setup(&policer, N, V, options, block, sizeof block) != 0) return 1;
  rate.m = 4, rate.f = 160, rate.c = 160 + 75 * 16;
  for (uint16_t vci = 1; vci <= 10; ++vci) {
    if (clurimoon_policer_open(&policer, clurimoon_vc(vci), rate) != 0) return 1;
    if (clurimoon_open(record, vcs, CLURIMOON_VCS(V), CLURIMOON_OWNER_SECOND, vci, rate.m, rate.f, rate.c) != 0) return 1;
  }
  uint32_t x = 1992;
  for (unsigned k = 0; k < TRAFFIC; ++k) {
    x = x * 1664525u + 1013904223u;
    sizes[k] = x >> 24 < 205 ? 53 : 0;
    clurimoon_put_header(traffic[k], 0, 1 + (x >> 12) % 10, 0, 0);
  }
  if (words < 2 || strcmp(word[1], "plain") == 0) by_plain(slots);
  else if (strcmp(word[1], "policer") == 0) by_policer(slots);
  else if (strcmp(word[1], "plain_burst") == 0) by_plain_burst(slots);
  else by_policer_burst(slots);
  printf("%lu\n", sum);
  return 0;
}
