/*
 * A raw line: every slot has a cell, idle ones too, and octet 5 of each is checked. One wrong bit is mended; after an error
 * every wrong header drops its cell, until a clean one comes.
 *
 *   cc -std=c99 -Wall -Wextra -Wconversion -Iinclude examples/raw_line.c \
 *      target/staticlib/libclurimoon.a -o raw_line && ./raw_line
 */
#include <stdio.h>
#include <string.h>

#include "clurimoon_policer.h"

enum { N = 5, V = 64 };

static uint64_t block[CLURIMOON_POLICER_WORDS(N, V)];

/* ITU-T I.432: VPI 0, VCI 0, PTI 0, CLP 1, and 6a in each octet of the payload. */
static uint8_t idle[CLURIMOON_CELL];

int main(void) {
  static const struct {
    unsigned vci; /* 0: the idle cell */
    unsigned wrong; /* bits of the header that the line turned, the highest of octet 1 first */
    unsigned also; /* a second one, or 40 for none */
    const char *what;
  } arrives[] = {
      {40, 40, 40, "a clean cell"},
      {0, 40, 40, "an idle cell"},
      {40, 31, 40, "one wrong bit: mended"},
      {40, 31, 40, "one wrong bit again, in detection: dropped"},
      {0, 40, 40, "an idle cell, clean: back to correction"},
      {0, 20, 40, "an idle cell with a wrong bit looks like another VC's: mended, no user cell"},
      {0, 40, 40, "an idle cell, clean"},
      {40, 3, 17, "two wrong bits: dropped"},
      {40, 40, 40, "a clean cell"},
  };
  const clurimoon_options options = {.raw = true};
  const clurimoon_rate rate = {.m = 0, .f = 1, .c = 4};
  clurimoon_policer policer;

  memset(idle, 0x6a, sizeof idle);
  clurimoon_put_header(idle, 0, 0, 0, 1);
  clurimoon_put_hec(idle);
  if (clurimoon_policer_setup(&policer, N, V, options, block, sizeof block) != CLURIMOON_DONE) return 1;
  if (clurimoon_policer_open(&policer, clurimoon_vc(40), rate) != CLURIMOON_DONE) return 1;

  for (size_t k = 0; k < sizeof arrives / sizeof arrives[0]; ++k) {
    uint8_t cell[CLURIMOON_CELL];
    memcpy(cell, idle, sizeof cell);
    if (arrives[k].vci != 0) {
      clurimoon_put_header(cell, 0, arrives[k].vci, 0, 0);
      clurimoon_put_hec(cell);
    }
    if (arrives[k].wrong < 40) cell[arrives[k].wrong / 8] ^= (uint8_t)(128u >> arrives[k].wrong % 8);
    if (arrives[k].also < 40) cell[arrives[k].also / 8] ^= (uint8_t)(128u >> arrives[k].also % 8);

    const clurimoon_answer answer = clurimoon_policer_slot(&policer, cell); /* every cell is handed in */
    if (answer.number != CLURIMOON_DONE) return 1;
    const uint8_t *line = clurimoon_policer_line(&policer, &answer, idle); /* a cell in every slot, here too */
    printf("%c, %s; on the line %02x %02x %02x %02x %02x: %s\n", ".AXUHT"[answer.verdict],
           policer.record.mode == CLURIMOON_CORRECTION ? "correction" : "detection", line[0], line[1], line[2], line[3], line[4], arrives[k].what);
  }
  return clurimoon_policer_audit(&policer) ? 0 : 1;
}
