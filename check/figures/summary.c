/*
 * The delay summary of one connection over some traces, by the archive: each trace is read here and run, slot by slot and then
 * in bursts of 64 slots, with one tally over all of them.
 *
 *   summary CONNECTION TRACE..
 *
 * Prints `cells` and the 64 bins, then `share` and `bin` for some shares. A trace is GM, then VO, CA and SL, all readable and none
 * refused; it ends with empty slots enough for all cells to leave. It is there for docs/make_summary.py.
 */
#include <stdbool.h>
#include <stdint.h>
#include <stdio.h>
#include <stdlib.h>
#include <string.h>

#include "clurimoon_policer.h"

enum { LONGEST = 65536, SLOTS = 64 };

static uint8_t trace[LONGEST], arrivals[CLURIMOON_ARRIVALS(SLOTS)], sizes[SLOTS], departures[CLURIMOON_DEPARTURES(SLOTS)];
static uint64_t block[CLURIMOON_POLICER_WORDS(CLURIMOON_N_MAX, CLURIMOON_V_MAX)];
static clurimoon_policer policer;
static clurimoon_tally tally;
static uint16_t connection;
static size_t filled; /* slots of the burst to come */

static void fail(const char *what) {
  fprintf(stderr, "summary: FAILED, %s\n", what);
  exit(1);
}

static uint32_t be(const uint8_t *at, int octets) {
  uint32_t number = 0;
  while (octets-- > 0) number = number << 8 | *at++;
  return number;
}

static void burst(void) {
  static clurimoon_answer answers[SLOTS];
  uint16_t number;
  if (clurimoon_policer_burst_tallied(&policer, &tally, clurimoon_vc(connection), arrivals, sizes, filled, departures, answers, &number) != filled)
    fail("a burst was refused");
  filled = 0;
}

/* One slot, at once or when the burst is full. */
static void serve(const uint8_t *cell, bool in_bursts) {
  if (in_bursts) {
    if (cell != NULL) memcpy(arrivals + CLURIMOON_ARRIVALS(filled), cell, CLURIMOON_CELL);
    sizes[filled++] = cell != NULL ? CLURIMOON_CELL : 0;
    if (filled == SLOTS) burst();
    return;
  }
  const clurimoon_answer answer = clurimoon_policer_slot(&policer, cell);
  if (answer.number != CLURIMOON_DONE) fail("a slot was refused");
  if (clurimoon_policer_tally(&policer, &tally, clurimoon_vc(connection), &answer) != CLURIMOON_DONE) fail("a tally was refused");
}

static void run(const char *name, bool in_bursts) {
  FILE *file = fopen(name, "rb");
  if (file == NULL) fail(name);
  const size_t length = fread(trace, 1, sizeof trace, file);
  const clurimoon_options options = {0};
  fclose(file);
  if (length < 6 || memcmp(trace, "GM", 2) != 0) fail("a trace begins without GM");
  if (clurimoon_policer_setup(&policer, (uint16_t)be(trace + 2, 2), (uint16_t)be(trace + 4, 2), options, block, sizeof block) != CLURIMOON_DONE) fail("setup");
  for (size_t at = 6; at < length;) {
    const uint8_t *record = trace + at;
    if (memcmp(record, "VO", 2) == 0) {
      clurimoon_rate rate = {0};
      rate.m = record[4], rate.f = be(record + 5, 4), rate.c = be(record + 9, 4), at += 13;
      if (clurimoon_policer_open(&policer, clurimoon_vc((uint16_t)be(record + 2, 2)), rate) != CLURIMOON_DONE) fail("open");
    } else if (memcmp(record, "CA", 2) == 0) {
      serve(record + 2, in_bursts), at += 55;
    } else if (memcmp(record, "SL", 2) == 0) {
      for (uint32_t slots = be(record + 2, 2); slots > 0; --slots) serve(NULL, in_bursts);
      at += 4;
    } else fail("a record of another kind");
  }
  if (filled != 0) burst();
}

int main(int words, char **word) {
  static const uint16_t shares[] = {1, 100, 250, 500, 750, 900, 950, 990, 999, 1000};
  clurimoon_tally by_slots;
  if (words < 3) return fprintf(stderr, "summary CONNECTION TRACE..\n"), 2;
  connection = (uint16_t)strtoul(word[1], NULL, 10);
  for (int k = 2; k < words; ++k) run(word[k], false);
  by_slots = tally;
  memset(&tally, 0, sizeof tally);
  for (int k = 2; k < words; ++k) run(word[k], true);
  if (tally.cells != by_slots.cells || memcmp(tally.bins, by_slots.bins, sizeof tally.bins) != 0) fail("bursts give another tally than slots");
  printf("cells %llu", (unsigned long long)tally.cells);
  for (int k = 0; k < CLURIMOON_BINS; ++k) printf(" %llu", (unsigned long long)tally.bins[k]);
  printf("\n");
  for (size_t k = 0; k < sizeof shares / sizeof *shares; ++k) {
    const clurimoon_bin bin = clurimoon_percentile(tally, shares[k]);
    if (bin.number != CLURIMOON_DONE) fail("a percentile was refused");
    printf("share %u %u\n", shares[k], bin.bin);
  }
  return 0;
}
