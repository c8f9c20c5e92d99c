/*
 * How long did a connection's cells wait? A card keeps the tally of VC 40's delays, slot by slot, and asks it for the median
 * and for the delay that at most one cell in a thousand exceeds. A card that polls keeps the same tally over its bursts.
 *
 *   cc -std=c99 -Wall -Wextra -Wconversion -Iinclude examples/summary.c \
 *      target/staticlib/libclurimoon.a -o summary && ./summary
 */
#include <inttypes.h>
#include <stdio.h>

#include "clurimoon_policer.h"

enum { N = 76, V = 64, SLOTS = 64000, POLL = 64 };

static uint64_t block[CLURIMOON_POLICER_WORDS(N, V)];
static uint8_t arrivals[CLURIMOON_ARRIVALS(POLL)], sizes[POLL], departures[CLURIMOON_DEPARTURES(POLL)];
static clurimoon_answer answers[POLL];
static uint32_t drawn; /* stands for the line: the same traffic from the same number on */

/* VC 40 sends about one cell in 20 slots, and another fills most of the line beside it. */
static void receive(unsigned k) {
  drawn = drawn * 1664525u + 1013904223u;
  const unsigned of_100 = (drawn >> 16) % 100, vci = of_100 < 5 ? 40 : of_100 < 90 ? 41 : 0;
  sizes[k] = vci != 0 ? CLURIMOON_CELL : 0;
  clurimoon_put_header(arrivals + CLURIMOON_ARRIVALS(k), 0, vci, 0, 0);
}

static int begin(clurimoon_policer *policer) {
  const clurimoon_options options = {0};
  clurimoon_rate rate;
  drawn = 1992;
  if (clurimoon_policer_setup(policer, N, V, options, block, sizeof block) != CLURIMOON_DONE) return 0;
  if (clurimoon_rate_bits(&rate, CLURIMOON_MBPS(149.76), CLURIMOON_MBPS(10), 150) != CLURIMOON_DONE) return 0;
  if (clurimoon_policer_open(policer, clurimoon_vc(40), rate) != CLURIMOON_DONE) return 0;
  if (clurimoon_rate_bits(&rate, CLURIMOON_MBPS(149.76), CLURIMOON_MBPS(135), 100) != CLURIMOON_DONE) return 0;
  return clurimoon_policer_open(policer, clurimoon_vc(41), rate) == CLURIMOON_DONE;
}

/* A share is in thousandths. Bin 63 has all cells that waited 63 slots or longer. */
static void print_summary(const char *how, const clurimoon_tally *tally) {
  const clurimoon_bin median = clurimoon_percentile(*tally, 500), most = clurimoon_percentile(*tally, 999);
  if (median.number != CLURIMOON_DONE) {
    printf("%s: %s\n", how, clurimoon_text(median.number));
    return;
  }
  printf("%s: %" PRIu64 " cells, half of them within %u slots, 999 of 1,000 within %u%s\n", how, tally->cells, median.bin, most.bin,
         most.bin == CLURIMOON_BINS - 1 ? " or more" : "");
}

int main(void) {
  clurimoon_policer policer;
  clurimoon_tally by_slots = {{0}, 0}, by_bursts = {{0}, 0}; /* zeros: no cell yet */
  print_summary("at first", &by_slots);

  if (!begin(&policer)) return 1;
  for (int k = 0; k < SLOTS; ++k) {
    receive(0);
    const clurimoon_answer answer = clurimoon_policer_slot(&policer, sizes[0] != 0 ? arrivals : NULL);
    /* After the slot, before the next: what it sent may be VC 40's. */
    if (clurimoon_policer_tally(&policer, &by_slots, clurimoon_vc(40), &answer) != CLURIMOON_DONE) return 1;
  }
  print_summary("slot by slot", &by_slots);

  if (!begin(&policer)) return 1;
  for (int k = 0; k < SLOTS; k += POLL) {
    uint16_t number;
    for (unsigned j = 0; j < POLL; ++j) receive(j);
    if (clurimoon_policer_burst_tallied(&policer, &by_bursts, clurimoon_vc(40), arrivals, sizes, POLL, departures, answers, &number) != POLL) return 1;
  }
  print_summary("in bursts", &by_bursts);
  return 0;
}
