/*
 * A card that recovers. Something wrote into the policer's memory: a slot is refused with 3, the audit says no, and the card
 * sets the policer up again and opens its connections again. Nothing outside the block was touched meanwhile.
 *
 *   cc -std=c99 -Wall -Wextra -Wconversion -Iinclude examples/recovers.c \
 *      target/staticlib/libclurimoon.a -o recovers && ./recovers
 */
#include <stdio.h>

#include "clurimoon_policer.h"

enum { N = 5, V = 64, CONNECTIONS = 2, SLOTS = 6 };

static uint64_t block[CLURIMOON_POLICER_WORDS(N, V)];

/* What the signalling asked for: a card keeps this beside the policer, to be able to begin anew. */
static const struct {
  uint16_t vci;
  clurimoon_rate rate;
} asked[CONNECTIONS] = {{40, {.m = 2, .f = 10, .c = 26}}, {41, {.m = 2, .f = 4, .c = 4}}};

static uint16_t begin(clurimoon_policer *policer) {
  const clurimoon_options options = {0};
  uint16_t number = clurimoon_policer_setup(policer, N, V, options, block, sizeof block);
  for (int k = 0; k < CONNECTIONS && number == CLURIMOON_DONE; ++k)
    number = clurimoon_policer_open(policer, clurimoon_vc(asked[k].vci), asked[k].rate);
  return number;
}

static clurimoon_answer serve(clurimoon_policer *policer, unsigned vci) {
  uint8_t cell[CLURIMOON_CELL] = {0};
  clurimoon_put_header(cell, 0, vci, 0, 0);
  return clurimoon_policer_slot(policer, cell);
}

int main(void) {
  clurimoon_policer policer;
  if (begin(&policer) != CLURIMOON_DONE) return 1;
  for (int k = 0; k < SLOTS; ++k) {
    if (k == 3) policer.vcs[12 * 40 + CLURIMOON_WORD_S] ^= 0x80000000u; /* a bit turns over: S of VC 40 is above its C */
    clurimoon_answer answer = serve(&policer, k == 4 ? 41 : 40);
    if (answer.number == CLURIMOON_REFUSED_STORED) {
      /* The slot has changed nothing, and would be refused again. A 3 never comes from a sound state. */
      printf("slot %d: refused, %u: %s; audit: %s\n", k, answer.number, clurimoon_text(answer.number), clurimoon_policer_audit(&policer) ? "yes" : "no");
      if (begin(&policer) != CLURIMOON_DONE) return 1;
      printf("slot %d: set up again; audit: %s; cells that waited are lost\n", k, clurimoon_policer_audit(&policer) ? "yes" : "no");
      answer = serve(&policer, 40);
    }
    if (answer.number != CLURIMOON_DONE) return 1;
    printf("slot %d: %c %u %u\n", k, ".AXUHT"[answer.verdict], (unsigned)answer.vci, (unsigned)answer.d);
  }

  /* Damage that no slot has met yet: only the audit sees it. So ask it from time to time, between two slots. */
  policer.vcs[12 * 63 + CLURIMOON_WORD_OPEN] = 2;
  printf("damage to a VC that nobody uses: slot %u, audit %s\n", serve(&policer, 41).number, clurimoon_policer_audit(&policer) ? "yes" : "no");
  return 0;
}
