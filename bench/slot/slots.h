/* The slot path written by hand in C, in two forms: `trusting` makes no test, `checking` makes every test of refusals 1,
   2, 9 and 3 before any write. Each as a call a slot, and as a burst that copies departing cells out. */
#ifndef SLOTS_H
#define SLOTS_H
#include "clurimoon.h"

/* The six lent memories with their lengths, in elements. */
typedef struct {
  uint8_t *cells;
  uint16_t *links, *calendar;
  uint32_t *vcs;
  uint64_t *bits;
  uint32_t *arrived;
  size_t cells_length, links_length, calendar_length, vcs_length, bits_length, arrived_length;
} lent_memory;

/* What a burst is lent besides: an octet a slot in sizes, 53 in arrivals and departures, six numbers in answers. */
typedef struct {
  const uint8_t *arrivals, *sizes;
  uint8_t *departures;
  uint16_t *answers;
  size_t arrivals_length, sizes_length, departures_length, answers_length;
} lent_burst;

typedef struct {
  size_t done;
  uint16_t number;
} burst_end;

void trusting_slot(clurimoon_record *record, const lent_memory *lent, const uint8_t *cell, size_t cell_length,
                   clurimoon_answer *answer);
void checking_slot(clurimoon_record *record, const lent_memory *lent, const uint8_t *cell, size_t cell_length,
                   clurimoon_answer *answer);
burst_end trusting_burst(clurimoon_record *record, const lent_memory *lent, const lent_burst *burst);
burst_end checking_burst(clurimoon_record *record, const lent_memory *lent, const lent_burst *burst);

#endif
