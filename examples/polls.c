/*
 * A card that polls: every 8 slots it hands over what has arrived and takes what departs, in one call. A burst says what
 * so many slots would have said, one after the other, and copies each departing cell out at once.
 *
 *   cc -std=c99 -Wall -Wextra -Wconversion -Iinclude examples/polls.c \
 *      target/staticlib/libclurimoon.a -o polls && ./polls
 */
#include <stdio.h>

#include "clurimoon_policer.h"

enum { N = 5, V = 64, SLOTS = 8, POLLS = 3 };

static uint64_t block[CLURIMOON_POLICER_WORDS(N, V)];

/* What the line's receiver fills and its transmitter empties: 53 octets and a size for each slot. */
static uint8_t arrivals[CLURIMOON_ARRIVALS(SLOTS)], sizes[SLOTS], departures[CLURIMOON_DEPARTURES(SLOTS)];

/* Stands for the receiver: in which slots a cell came, and of which VC. */
static void receive(int poll) {
  static const uint16_t vci[POLLS][SLOTS] = {{40, 40, 40, 40, 40, 41, 0, 0}, {41, 41, 40, 0, 7, 0, 40, 40}, {0, 0, 0, 0, 0, 0, 0, 0}};
  for (int k = 0; k < SLOTS; ++k) {
    sizes[k] = vci[poll][k] != 0 ? CLURIMOON_CELL : 0;
    clurimoon_put_header(arrivals + CLURIMOON_ARRIVALS(k), 0, vci[poll][k], 0, 0);
  }
}

int main(void) {
  const clurimoon_options options = {0};
  const clurimoon_rate slow = {.m = 2, .f = 10, .c = 26}, fast = {.m = 2, .f = 4, .c = 4};
  clurimoon_policer policer;
  clurimoon_answer answers[SLOTS];
  uint16_t number;

  if (clurimoon_policer_setup(&policer, N, V, options, block, sizeof block) != CLURIMOON_DONE) return 1;
  if (clurimoon_policer_open(&policer, clurimoon_vc(40), slow) != CLURIMOON_DONE) return 1;
  if (clurimoon_policer_open(&policer, clurimoon_vc(41), fast) != CLURIMOON_DONE) return 1;

  for (int poll = 0; poll < POLLS; ++poll) {
    receive(poll);
    const size_t done = clurimoon_policer_burst(&policer, arrivals, sizes, SLOTS, departures, answers, &number);
    printf("poll %d: %u of %d slots, %s\n", poll, (unsigned)done, SLOTS, clurimoon_text(number));
    for (size_t k = 0; k < done; ++k) { /* only these were served */
      const uint8_t *left = departures + CLURIMOON_DEPARTURES(k);
      printf("  %c", ".AXUHT"[answers[k].verdict]);
      if (answers[k].space == CLURIMOON_NONE) printf(" idle\n"); /* the octets of this slot are as they were */
      else printf(" out VCI %u\n", (left[1] & 15u) * 4096u + left[2] * 16u + left[3] / 16u);
    }
  }

  /* A size that is none stops the burst before its slot; what was served before it stays served. */
  receive(1);
  sizes[2] = 52;
  const size_t done = clurimoon_policer_burst(&policer, arrivals, sizes, SLOTS, departures, answers, &number);
  printf("a wrong size: %u of %d slots, %u: %s\n", (unsigned)done, SLOTS, number, clurimoon_text(number));
  return clurimoon_policer_audit(&policer) ? 0 : 1;
}
