/*
 * Two policers on one card, out of one memory: a customer's line with a VC, and a line between networks with a path. They
 * share nothing: each has its own block, its own clock and its own connections, and may run in its own thread.
 *
 *   cc -std=c99 -Wall -Wextra -Wconversion -Iinclude examples/two_policers.c \
 *      target/staticlib/libclurimoon.a -o two_policers && ./two_policers
 */
#include <stdio.h>

#include "clurimoon_policer.h"

enum { CUSTOMER_N = 22, NETWORK_N = 76, V = 64, VC = 40, PATH = 9, SLOTS = 12 };

/* One memory for both. Blocks are whole words of 64 bits, so that the second is aligned where the first ends. */
static uint64_t memory[CLURIMOON_POLICER_WORDS(CUSTOMER_N, V) + CLURIMOON_POLICER_WORDS(NETWORK_N, V)];

static void show(const char *name, const clurimoon_policer *policer, clurimoon_answer answer) {
  const uint8_t *cell = clurimoon_policer_line(policer, &answer, NULL); /* NULL where nothing departs */
  printf("  %s %c", name, ".AXUHT"[answer.verdict]);
  if (cell != NULL) printf(" out VPI %u VCI %u", cell[0] * 16u + cell[1] / 16u, (cell[1] & 15u) * 4096u + cell[2] * 16u + cell[3] / 16u);
}

int main(void) {
  clurimoon_policer customer, network;
  clurimoon_options options = {0};
  clurimoon_rate rate;
  uint8_t cell[CLURIMOON_CELL] = {0};

  /* The customer's line: 149.76 Mb/s, and a VC of 50 Mb/s with a tolerance of 20 microseconds. */
  if (clurimoon_policer_setup(&customer, CUSTOMER_N, V, options, memory, clurimoon_policer_octets(CUSTOMER_N, V)) != CLURIMOON_DONE) return 1;
  if (clurimoon_rate_bits(&rate, CLURIMOON_MBPS(149.76), CLURIMOON_MBPS(50), 20) != CLURIMOON_DONE) return 1;
  printf("customer: m %u, F %lu, C %lu, needs N %lu\n", rate.m, (unsigned long)rate.f, (unsigned long)rate.c, (unsigned long)clurimoon_rate_spaces(&rate));
  if (clurimoon_policer_open(&customer, clurimoon_vc(VC), rate) != CLURIMOON_DONE) return 1;

  /* The network's side: a whole path at 88,302 of 353,208 cells a second, a quarter of the line, 100 microseconds early. */
  options.kind = CLURIMOON_NNI;
  if (clurimoon_policer_setup(&network, NETWORK_N, V, options, memory + CLURIMOON_POLICER_WORDS(CUSTOMER_N, V), clurimoon_policer_octets(NETWORK_N, V)) != CLURIMOON_DONE) return 1;
  if (clurimoon_rate_cells(&rate, 353208, 88302, 100) != CLURIMOON_DONE) return 1;
  printf("network: m %u, F %lu, C %lu, needs N %lu\n", rate.m, (unsigned long)rate.f, (unsigned long)rate.c, (unsigned long)clurimoon_rate_spaces(&rate));
  if (clurimoon_policer_open(&network, clurimoon_path(PATH), rate) != CLURIMOON_DONE) return 1;

  for (unsigned k = 0; k < SLOTS; ++k) {
    clurimoon_put_header(cell, 0, VC, 0, 0);
    const clurimoon_answer one = clurimoon_policer_slot(&customer, k % 2 == 0 ? cell : NULL);
    clurimoon_put_header(cell, PATH, 100 + k, 0, 0);
    const clurimoon_answer other = clurimoon_policer_slot(&network, k < 4 ? cell : NULL);
    if (one.number != CLURIMOON_DONE || other.number != CLURIMOON_DONE) return 1;
    printf("slot %u:", k);
    show("customer", &customer, one);
    show("network", &network, other);
    printf("\n");
  }
  return clurimoon_policer_audit(&customer) && clurimoon_policer_audit(&network) ? 0 : 1;
}
