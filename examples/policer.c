/*
 * A policer in C, as one struct: set up, open two VCs, run eight slots, print them.
 *
 *   cc -std=c99 -Wall -Wextra -Wconversion -Iinclude examples/policer.c \
 *      target/staticlib/libclurimoon.a -o policer && ./policer
 */
#include <inttypes.h>
#include <stdio.h>

#include "clurimoon_policer.h"

enum { N = 5, V = 64 };

/* All memory is ours; the library keeps none. */
static uint64_t block[CLURIMOON_POLICER_WORDS(N, V)];

static void print_slot(uint32_t t, clurimoon_answer a) {
  printf("%" PRIu32 " %c ", t, ".AXUHT"[a.verdict]);
  if (a.verdict == CLURIMOON_NOTHING || a.verdict == CLURIMOON_DROPPED) printf("- ");
  else printf("%u ", (unsigned)a.vci);
  if (a.verdict == CLURIMOON_ACCEPTED || a.verdict == CLURIMOON_TAGGED) printf("%u ", (unsigned)a.d);
  else printf("- ");
  if (a.space == CLURIMOON_NONE) printf("-\n");
  else printf("%u\n", (unsigned)a.out_vci);
}

int main(void) {
  static const uint16_t arrives[8] = {40, 40, 40, 40, 40, 41, 0, 0};
  static const uint8_t idle[CLURIMOON_CELL] = {0, 0, 0, 1, 0x52};
  const clurimoon_options options = {0}; /* octet 5 is not ours to check; a line to a customer */
  const clurimoon_rate slow = {.m = 2, .f = 10, .c = 26}; /* L = 2^2: a cell in 2.5 slots, up to 4 slots early */
  const clurimoon_rate fast = {.m = 2, .f = 4, .c = 4};   /* a cell in every slot, none early */
  clurimoon_policer policer;

  if (clurimoon_policer_setup(&policer, N, V, options, block, sizeof block) != CLURIMOON_DONE) return 1;
  if (clurimoon_policer_open(&policer, clurimoon_vc(40), slow) != CLURIMOON_DONE) return 1;
  if (clurimoon_policer_open(&policer, clurimoon_vc(41), fast) != CLURIMOON_DONE) return 1;

  for (int k = 0; k < 8; ++k) {
    uint8_t cell[CLURIMOON_CELL] = {0};
    clurimoon_put_header(cell, 0, arrives[k], 0, 0);
    const clurimoon_answer answer = clurimoon_policer_slot(&policer, arrives[k] ? cell : NULL);
    if (answer.number != CLURIMOON_DONE) return 1;
    print_slot(policer.record.t, answer);

    /* What to put on the line, before the next slot: the departing cell, or the idle cell. */
    const uint8_t *line = clurimoon_policer_line(&policer, &answer, idle);
    (void)line; /* 53 octets from here go out */
  }
  return clurimoon_policer_audit(&policer) ? 0 : 1;
}
