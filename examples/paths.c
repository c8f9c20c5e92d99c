/*
 * A whole path at the network side in C: all cells on VPI 9 share one bucket, whatever their VCI, beside a VC.
 *
 *   cc -std=c99 -Wall -Wextra -Wconversion -Iinclude examples/paths.c \
 *      target/staticlib/libclurimoon.a -o paths && ./paths
 */
#include <inttypes.h>
#include <stdio.h>

#include "clurimoon.h"

enum { N = 5, V = 64, PATH = 9, VC = 41, SLOTS = 10 };

static uint8_t cells[CLURIMOON_CELLS(N)];
static uint16_t links[CLURIMOON_LINKS(N)], calendar[CLURIMOON_CALENDAR(N)];
static uint32_t vcs[CLURIMOON_VCS(V)];
static uint64_t bits[CLURIMOON_BITS];
static uint32_t arrived[CLURIMOON_ARRIVED(N)];

/* At the NNI there is no GFC: twelve bits of VPI, then the VCI. */
static void put_header(uint8_t *cell, unsigned vpi, unsigned vci) {
  cell[0] = (uint8_t)(vpi >> 4);
  cell[1] = (uint8_t)((vpi & 15) << 4 | vci >> 12);
  cell[2] = (uint8_t)(vci >> 4);
  cell[3] = (uint8_t)((vci & 15) << 4);
}

/* An answer names a path by V + VPI. What leaves has the VPI and the VCI that it came with. */
static void print_slot(uint32_t t, clurimoon_answer a) {
  printf("%" PRIu32 " %c %u ", t, ".AXUHT"[a.verdict], (unsigned)a.vci);
  if (a.verdict == CLURIMOON_ACCEPTED || a.verdict == CLURIMOON_TAGGED) printf("%u ", (unsigned)a.d);
  else printf("- ");
  if (a.space == CLURIMOON_NONE) {
    printf("-\n");
    return;
  }
  const uint8_t *left = cells + 53u * a.space;
  printf("%u, VPI %u VCI %u\n", (unsigned)a.out_vci, left[0] * 16u + left[1] / 16u,
         (left[1] & 15u) * 4096u + left[2] * 16u + left[3] / 16u);
}

int main(void) {
  static const unsigned vpi[SLOTS] = {PATH, PATH, PATH, PATH, PATH, 0, PATH + 256, PATH + 1, 0, PATH};
  static const unsigned vci[SLOTS] = {100, 0, VC, 100, 65535, VC, 100, 100, V + PATH, 5};

  clurimoon_set set = clurimoon_setup(N, V, false, CLURIMOON_NNI, 1, 1, cells, sizeof cells, links, CLURIMOON_LINKS(N),
                                      calendar, CLURIMOON_CALENDAR(N), vcs, CLURIMOON_VCS(V), bits, CLURIMOON_BITS,
                                      arrived, CLURIMOON_ARRIVED(N));
  if (set.number != CLURIMOON_DONE) return 1;
  clurimoon_record record = set.record;

  /* L = 2^2: the path has a cell in 2.5 slots and a tolerance of 4 slots, the VC a cell in every slot. A second bucket
     would stand where the four zeros are, as for a VC. */
  if (clurimoon_open_path(record, vcs, CLURIMOON_VCS(V), CLURIMOON_OWNER_SECOND, PATH, 2, 10, 26, 0, 0, 0, 0) != CLURIMOON_DONE) return 1;
  if (clurimoon_open(record, vcs, CLURIMOON_VCS(V), CLURIMOON_OWNER_SECOND, VC, 2, 4, 4) != CLURIMOON_DONE) return 1;

  /* VCI 41 on the path is not VC 41. VPI 265 is no path, VPI 10 is closed, and VCI 73 is no VC of 64: unknown, each with
     its VCI as read. */
  for (int k = 0; k < SLOTS; ++k) {
    uint8_t cell[CLURIMOON_CELL] = {0};
    put_header(cell, vpi[k], vci[k]);
    clurimoon_served served = clurimoon_slot(record, cells, sizeof cells, links, CLURIMOON_LINKS(N), calendar,
                                             CLURIMOON_CALENDAR(N), vcs, CLURIMOON_VCS(V),
                                             bits, CLURIMOON_BITS, arrived, CLURIMOON_ARRIVED(N), cell, sizeof cell);
    if (served.answer.number != CLURIMOON_DONE) return 1;
    record = served.record;
    print_slot(record.t, served.answer);
  }

  /* A path is closed as a VC is: not while a cell of it waits, and not before its debt is paid. */
  const uint16_t closed = clurimoon_close_path(record, vcs, CLURIMOON_VCS(V), CLURIMOON_OWNER_SECOND, PATH);
  printf("close %u %u\n", (unsigned)CLURIMOON_PATH_NUMBER(V, PATH), (unsigned)closed);
  return clurimoon_audit(record, cells, sizeof cells, links, CLURIMOON_LINKS(N), calendar, CLURIMOON_CALENDAR(N), vcs,
                         CLURIMOON_VCS(V), bits, CLURIMOON_BITS, arrived, CLURIMOON_ARRIVED(N))
             ? 0
             : 1;
}
