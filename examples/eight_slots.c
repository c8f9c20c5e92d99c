/*
 * A policer in C: set up, open two VCs, run eight slots, print them.
 *
 *   cc -std=c99 -Wall -Wextra -Wconversion -Iinclude examples/eight_slots.c \
 *      target/staticlib/libclurimoon.a -o eight_slots && ./eight_slots
 */
#include <inttypes.h>
#include <stdio.h>

#include "clurimoon.h"

enum { N = 5, V = 64 };

/* All memory is ours; the library keeps none. */
static uint8_t cells[CLURIMOON_CELLS(N)];
static uint16_t links[CLURIMOON_LINKS(N)], calendar[CLURIMOON_CALENDAR(N)];
static uint32_t vcs[CLURIMOON_VCS(V)];
static uint64_t bits[CLURIMOON_BITS];
static uint32_t arrived[CLURIMOON_ARRIVED(N)];

/* A cell's header names its VC: VPI 0, VCI in octets 2 to 4. */
static void put_vci(uint8_t *cell, unsigned vci) {
  cell[1] = (uint8_t)(vci >> 12 & 15);
  cell[2] = (uint8_t)(vci >> 4);
  cell[3] = (uint8_t)((vci & 15) << 4);
}

static void print_slot(uint32_t t, clurimoon_answer a) {
  printf("%" PRIu32 " %c ", t, ".AXUHT"[a.verdict]);
  if (a.verdict == CLURIMOON_NOTHING || a.verdict == CLURIMOON_DROPPED) printf("- ");
  else printf("%u ", (unsigned)a.vci);
  if (a.verdict == CLURIMOON_ACCEPTED) printf("%u ", (unsigned)a.d);
  else printf("- ");
  if (a.space == CLURIMOON_NONE) printf("-\n");
  else printf("%u\n", (unsigned)a.out_vci);
}

int main(void) {
  static const unsigned arrives[8] = {40, 40, 40, 40, 40, 41, 0, 0};
  static const uint8_t idle[CLURIMOON_CELL] = {0, 0, 0, 1, 0x52};

  /* Not raw: octet 5 was checked before the cells came here, or is not ours to check. Splits 1 and 1: one operator has the
     whole card, and is the second. */
  clurimoon_set set = clurimoon_setup(N, V, false, CLURIMOON_UNI, 1, 1, cells, sizeof cells, links,
                                      CLURIMOON_LINKS(N), calendar, CLURIMOON_CALENDAR(N), vcs, CLURIMOON_VCS(V),
                                      bits, CLURIMOON_BITS, arrived, CLURIMOON_ARRIVED(N));
  if (set.number != CLURIMOON_DONE) return 1;
  clurimoon_record record = set.record;

  /* L = 2^2: VC 40 at one cell in 2.5 slots, tolerance 4 slots; VC 41 at line rate. */
  if (clurimoon_open(record, vcs, CLURIMOON_VCS(V), CLURIMOON_OWNER_SECOND, 40, 2, 10, 26) != CLURIMOON_DONE) return 1;
  if (clurimoon_open(record, vcs, CLURIMOON_VCS(V), CLURIMOON_OWNER_SECOND, 41, 2, 4, 4) != CLURIMOON_DONE) return 1;

  for (int k = 0; k < 8; ++k) {
    uint8_t cell[CLURIMOON_CELL] = {0};
    put_vci(cell, arrives[k]);
    clurimoon_served served =
        clurimoon_slot(record, cells, sizeof cells, links, CLURIMOON_LINKS(N), calendar,
                       CLURIMOON_CALENDAR(N), vcs, CLURIMOON_VCS(V),
                       bits, CLURIMOON_BITS, arrived, CLURIMOON_ARRIVED(N), cell, arrives[k] ? sizeof cell : 0);
    if (served.answer.number != CLURIMOON_DONE) return 1;
    record = served.record;
    print_slot(record.t, served.answer);

    /* What to put on the line: the departing cell, or the idle cell. */
    clurimoon_part part = clurimoon_line(cells, sizeof cells, idle, sizeof idle, served.answer.space);
    const uint8_t *line = (part.from_idle ? idle : cells) + part.start;
    (void)line; /* part.length octets from here go out */
  }
  return clurimoon_audit(record, cells, sizeof cells, links, CLURIMOON_LINKS(N), calendar,
                         CLURIMOON_CALENDAR(N), vcs, CLURIMOON_VCS(V), bits, CLURIMOON_BITS, arrived,
                         CLURIMOON_ARRIVED(N))
             ? 0
             : 1;
}
