/*
 * A VC of variable rate in C: a second bucket for its CLP 0 cells, and what tagging does to a cell on the line.
 *
 *   cc -std=c99 -Wall -Wextra -Wconversion -Iinclude examples/sustained.c \
 *      target/staticlib/libclurimoon.a -o sustained && ./sustained
 */
#include <inttypes.h>
#include <stdio.h>

#include "clurimoon.h"

enum { N = 5, V = 64, TAGS = 40, DISCARDS = 41 };

static uint8_t cells[CLURIMOON_CELLS(N)];
static uint16_t links[CLURIMOON_LINKS(N)], calendar[CLURIMOON_CALENDAR(N)];
static uint32_t vcs[CLURIMOON_VCS(V)];
static uint64_t bits[CLURIMOON_BITS];
static uint32_t arrived[CLURIMOON_ARRIVED(N)];

/* VPI 0, the VCI, CLP in the last bit of octet 4; octet 5 as the line before us left it. */
static void put_header(uint8_t *cell, unsigned vci, unsigned clp) {
  cell[1] = (uint8_t)(vci >> 12 & 15);
  cell[2] = (uint8_t)(vci >> 4);
  cell[3] = (uint8_t)((vci & 15) << 4 | clp);
  cell[4] = 0x99;
}

static void print_slot(uint32_t t, clurimoon_answer a) {
  printf("%" PRIu32 " %c %u ", t, ".AXUHT"[a.verdict], (unsigned)a.vci);
  if (a.verdict == CLURIMOON_ACCEPTED || a.verdict == CLURIMOON_TAGGED) printf("%u ", (unsigned)a.d);
  else printf("- ");
  if (a.space == CLURIMOON_NONE) printf("-\n");
  else printf("%u, octets 4 and 5: %02x %02x\n", (unsigned)a.out_vci, cells[53u * a.space + 3], cells[53u * a.space + 4]);
}

int main(void) {
  static const unsigned arrives[9] = {TAGS, TAGS, TAGS, TAGS, DISCARDS, DISCARDS, DISCARDS, DISCARDS, TAGS};
  static const unsigned clp[9] = {0, 0, 0, 1, 0, 0, 0, 1, 0};

  clurimoon_set set = clurimoon_setup(N, V, false, CLURIMOON_UNI, 1, 1, cells, sizeof cells, links, CLURIMOON_LINKS(N),
                                      calendar, CLURIMOON_CALENDAR(N), vcs, CLURIMOON_VCS(V), bits, CLURIMOON_BITS,
                                      arrived, CLURIMOON_ARRIVED(N));
  if (set.number != CLURIMOON_DONE) return 1;
  clurimoon_record record = set.record;

  /* Peak: L = 2^2, a cell in every slot, no tolerance. Sustainable: L = 2^3, a CLP 0 cell in 4 slots (F 32), and
     3 slots early (C = 32 + 24): two cells back to back. VC 40's other CLP 0 cells are tagged, VC 41's are excess. */
  if (clurimoon_open_sustained(record, vcs, CLURIMOON_VCS(V), CLURIMOON_OWNER_SECOND, TAGS, 2, 4, 4, 3, 32, 56, 1) != CLURIMOON_DONE) return 1;
  if (clurimoon_open_sustained(record, vcs, CLURIMOON_VCS(V), CLURIMOON_OWNER_SECOND, DISCARDS, 2, 4, 4, 3, 32, 56, 0) != CLURIMOON_DONE) return 1;

  for (int k = 0; k < 9; ++k) {
    uint8_t cell[CLURIMOON_CELL] = {0};
    put_header(cell, arrives[k], clp[k]);
    clurimoon_served served = clurimoon_slot(record, cells, sizeof cells, links, CLURIMOON_LINKS(N), calendar,
                                             CLURIMOON_CALENDAR(N), vcs, CLURIMOON_VCS(V),
                                             bits, CLURIMOON_BITS, arrived, CLURIMOON_ARRIVED(N), cell, sizeof cell);
    if (served.answer.number != CLURIMOON_DONE) return 1;
    record = served.record;
    print_slot(record.t, served.answer);
  }

  /* What is in the second bucket keeps nobody from closing; the peak's debt would. */
  const uint16_t closed = clurimoon_close(record, vcs, CLURIMOON_VCS(V), CLURIMOON_OWNER_SECOND, DISCARDS);
  printf("close %d %u\n", DISCARDS, (unsigned)closed);
  return clurimoon_audit(record, cells, sizeof cells, links, CLURIMOON_LINKS(N), calendar, CLURIMOON_CALENDAR(N), vcs,
                         CLURIMOON_VCS(V), bits, CLURIMOON_BITS, arrived, CLURIMOON_ARRIVED(N))
             ? 0
             : 1;
}
