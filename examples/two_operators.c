/*
 * Two operators on one card: VCs below 32 and paths below 128 are the first's, all others the second's. The first sends
 * three cells, once alone and once beside the second: its answers are the same, and a cell may leave some slots later.
 *
 *   cc -std=c99 -Wall -Wextra -Wconversion -Iinclude examples/two_operators.c \
 *      target/staticlib/libclurimoon.a -o two_operators && ./two_operators
 */
#include <stdio.h>

#include "clurimoon.h"

enum { N = 5, V = 64, SPLIT_VCI = 32, SPLIT_PATH = 128, OURS = 20, THEIRS = 40, SLOTS = 8 };

/* All memory is ours; the library keeps none. */
static uint8_t cells[CLURIMOON_CELLS(N)];
static uint16_t links[CLURIMOON_LINKS(N)], calendar[CLURIMOON_CALENDAR(N)];
static uint32_t vcs[CLURIMOON_VCS(V)];
static uint64_t bits[CLURIMOON_BITS];
static uint32_t arrived[CLURIMOON_ARRIVED(N)];

#define MEMORY                                                                                              \
  cells, sizeof cells, links, CLURIMOON_LINKS(N), calendar, CLURIMOON_CALENDAR(N), vcs, CLURIMOON_VCS(V), bits, \
      CLURIMOON_BITS, arrived, CLURIMOON_ARRIVED(N)

/* Eight slots of the first operator's VC, with the second's cells in the slots that the first leaves free. */
static int run(int beside) {
  static const unsigned ours[SLOTS] = {OURS, OURS, OURS, 0, 0, 0, 0, 0};
  static const unsigned theirs[SLOTS] = {0, 0, 0, THEIRS, THEIRS, THEIRS, 0, 0};
  const clurimoon_set set = clurimoon_setup(N, V, false, CLURIMOON_UNI, SPLIT_VCI, SPLIT_PATH, MEMORY);
  if (set.number != CLURIMOON_DONE) return 0;
  clurimoon_record record = set.record;
  if (clurimoon_open(record, vcs, CLURIMOON_VCS(V), CLURIMOON_OWNER_FIRST, OURS, 0, 2, 6) != CLURIMOON_DONE) return 0;
  if (clurimoon_open(record, vcs, CLURIMOON_VCS(V), CLURIMOON_OWNER_SECOND, THEIRS, 0, 1, 1) != CLURIMOON_DONE) return 0;

  printf(beside ? "beside the second:" : "alone:");
  for (int k = 0; k < SLOTS; ++k) {
    const unsigned vci = ours[k] ? ours[k] : beside ? theirs[k] : 0;
    uint8_t cell[CLURIMOON_CELL] = {0};
    cell[2] = (uint8_t)(vci >> 4), cell[3] = (uint8_t)((vci & 15) << 4);
    const clurimoon_served served = clurimoon_slot(record, MEMORY, cell, vci ? sizeof cell : 0);
    if (served.answer.number != CLURIMOON_DONE) return 0;
    record = served.record;
    if (served.answer.vci == OURS) printf(" accepted with D %u;", (unsigned)served.answer.d);
    if (served.answer.out_vci == OURS) printf(" left in slot %d;", k);
  }
  printf("\n");
  return 1;
}

int main(void) {
  if (!run(0) || !run(1)) return 1;
  /* Neither operator opens or closes what is the other's. */
  const clurimoon_record record = clurimoon_setup(N, V, false, CLURIMOON_UNI, SPLIT_VCI, SPLIT_PATH, MEMORY).record;
  printf("the first opens VC 31: %u, VC 32: %u, path 127: %u, path 128: %u\n",
         (unsigned)clurimoon_open(record, vcs, CLURIMOON_VCS(V), CLURIMOON_OWNER_FIRST, 31, 0, 2, 6),
         (unsigned)clurimoon_open(record, vcs, CLURIMOON_VCS(V), CLURIMOON_OWNER_FIRST, 32, 0, 2, 6),
         (unsigned)clurimoon_open_path(record, vcs, CLURIMOON_VCS(V), CLURIMOON_OWNER_FIRST, 127, 0, 2, 6, 0, 0, 0, 0),
         (unsigned)clurimoon_open_path(record, vcs, CLURIMOON_VCS(V), CLURIMOON_OWNER_FIRST, 128, 0, 2, 6, 0, 0, 0, 0));
  printf("the second closes VC 31: %u, path 127: %u\n",
         (unsigned)clurimoon_close(record, vcs, CLURIMOON_VCS(V), CLURIMOON_OWNER_SECOND, 31),
         (unsigned)clurimoon_close_path(record, vcs, CLURIMOON_VCS(V), CLURIMOON_OWNER_SECOND, 127));
  return 0;
}
