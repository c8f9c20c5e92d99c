/*
 * A card that sleeps: it asks how long until a cell leaves, sleeps so long or until a cell arrives, pays the slots that
 * it owes in bursts of empty slots, and then serves the slot for which it woke.
 *
 *   cc -std=c99 -Wall -Wextra -Wconversion -Iinclude examples/sleep.c \
 *      target/staticlib/libclurimoon.a -o sleep && ./sleep
 */
#include <inttypes.h>
#include <stdio.h>
#include <string.h>

#include "clurimoon.h"

enum { N = 76, V = 64, PIECE = 64 /* slots that are paid in one call */ };

/* All memory is ours; the library keeps none. */
static uint8_t cells[CLURIMOON_CELLS(N)];
static uint16_t links[CLURIMOON_LINKS(N)], calendar[CLURIMOON_CALENDAR(N)];
static uint32_t vcs[CLURIMOON_VCS(V)];
static uint64_t bits[CLURIMOON_BITS];
static uint32_t arrived[CLURIMOON_ARRIVED(N)];
static clurimoon_record record;

#define MEMORY                                                                                              \
  cells, sizeof cells, links, CLURIMOON_LINKS(N), calendar, CLURIMOON_CALENDAR(N), vcs, CLURIMOON_VCS(V), bits, \
      CLURIMOON_BITS, arrived, CLURIMOON_ARRIVED(N)

/* Serves empty slots. Arrivals are not read where the size is 0, and departures are not written where nothing leaves. */
static int pay(uint32_t slots) {
  static const uint8_t arrivals[CLURIMOON_ARRIVALS(PIECE)], sizes[PIECE];
  static uint8_t departures[CLURIMOON_DEPARTURES(PIECE)];
  static uint16_t answers[CLURIMOON_ANSWERS(PIECE)];
  while (slots > 0) {
    const size_t now = slots < PIECE ? slots : PIECE;
    const clurimoon_burst_end end =
        clurimoon_burst(record, MEMORY, arrivals, CLURIMOON_ARRIVALS(now), sizes, now, departures,
                        CLURIMOON_DEPARTURES(now), answers, CLURIMOON_ANSWERS(now));
    if (end.number != CLURIMOON_DONE) return 0;
    record = end.record;
    for (size_t k = 0; k < now; ++k)
      if (answers[6 * k + CLURIMOON_ANSWER_SPACE] != CLURIMOON_NONE) return 0; /* it slept too long */
    slots -= (uint32_t)now;
  }
  return 1;
}

int main(void) {
  /* The slots in which a cell of VC 40 comes, by the line's clock. */
  static const uint32_t arrives[] = {0, 1, 2, 40, 1040, 1041};
  const size_t all = sizeof arrives / sizeof *arrives;
  const clurimoon_set set = clurimoon_setup(N, V, false, CLURIMOON_UNI, 1, 1, MEMORY);
  if (set.number != CLURIMOON_DONE) return 1;
  record = set.record;
  /* One cell in 30 slots, tolerance 75 slots. */
  if (clurimoon_open(record, vcs, CLURIMOON_VCS(V), CLURIMOON_OWNER_SECOND, 40, 0, 30, 105) != CLURIMOON_DONE) return 1;

  for (size_t next = 0;;) {
    /* The next slot that matters: the one in which a cell leaves, or the one in which a cell comes. */
    const clurimoon_wait wait = clurimoon_next(record, calendar, CLURIMOON_CALENDAR(N), bits, CLURIMOON_BITS);
    if (wait.number != CLURIMOON_DONE) return 1;
    uint32_t asleep = wait.slots;
    int comes = 0;
    if (next < all && (asleep == 0 || arrives[next] - record.t <= asleep)) asleep = arrives[next] - record.t, comes = 1;
    if (asleep == 0) break; /* no cell waits, and none comes any more: sleep on */

    /* Here the card sleeps. It wakes in slot t + asleep, and owes the slots before that one. */
    if (!pay(asleep - 1)) return 1;
    uint8_t cell[CLURIMOON_CELL] = {0, 0, 2, 0x80};
    const clurimoon_served served = clurimoon_slot(record, MEMORY, cell, comes ? sizeof cell : 0);
    if (served.answer.number != CLURIMOON_DONE) return 1;
    record = served.record;
    printf("slot %" PRIu32 ", %" PRIu32 " paid before it:", record.t, asleep - 1);
    if (comes) printf(" a cell comes, %s", served.answer.verdict == CLURIMOON_ACCEPTED ? "accepted" : "excess");
    if (served.answer.space != CLURIMOON_NONE) printf("%s a cell leaves", comes ? "," : "");
    printf("\n");
    if (comes) ++next;
  }
  return 0;
}
