/*
 * Clurimoon for a card's programmer: a policer is one struct over one block of
 * memory, and a call takes that struct. Everything here is `static inline` over the
 * calls of clurimoon.h, which say what each promises: it keeps no state, allocates
 * nothing, takes nothing away and adds no refusal of its own.
 *
 *   static uint64_t block[CLURIMOON_POLICER_WORDS(76, 64)];
 *   clurimoon_policer policer;
 *   clurimoon_options options = {0};     // not raw, UNI, one operator
 *   clurimoon_rate rate;
 *   if (clurimoon_policer_setup(&policer, 76, 64, options, block, sizeof block) != CLURIMOON_DONE) ..
 *   if (clurimoon_rate_bits(&rate, CLURIMOON_MBPS(149.76), CLURIMOON_MBPS(8), 60) != CLURIMOON_DONE) ..
 *   if (clurimoon_policer_open(&policer, clurimoon_vc(40), rate) != CLURIMOON_DONE) ..
 *   for (;;) {                            // once a slot
 *     clurimoon_answer answer = clurimoon_policer_slot(&policer, cell_or_NULL);
 *     send(clurimoon_policer_line(&policer, &answer, idle));
 *   }
 *
 * Options, connection and rate may be zero, and a field that is 0 asks for nothing.
 * Set them to zero first and then the fields by name: what later versions add is
 * then 0, and a source that does so compiles unchanged.
 *
 * The struct belongs to its caller, as the block does. Copied, it is the same policer
 * twice: go on with one of the two. Rules of lending, threads, restarts:
 * docs/INTEGRATION.md.
 */
#ifndef CLURIMOON_POLICER_H
#define CLURIMOON_POLICER_H

#include "clurimoon.h"

/* The octets of one block, and the same in words of 64 bits: an array of these is
   aligned as a block must be. n and v must be in their ranges. */
#define CLURIMOON_POLICER_OCTETS(n, v) ((size_t)8 * CLURIMOON_POLICER_WORDS(n, v))
#define CLURIMOON_POLICER_WORDS(n, v) ((CLURIMOON_OCTETS(n, v) + (size_t)7) / (size_t)8)

/* A policer: its record, and where in the block each memory lies and how long it is,
   in elements. The lengths are kept here and not worked out from the record: a
   damaged N or V is then refused with 2, and nothing outside the block is read. */
typedef struct {
  clurimoon_record record;
  uint8_t *cells;
  uint16_t *links, *calendar;
  uint32_t *vcs;
  uint64_t *bits;
  uint32_t *arrived;
  size_t cells_length, links_length, calendar_length, vcs_length, bits_length, arrived_length;
} clurimoon_policer;

/* What a policer is set up with. Zero: octet 5 is not checked, the line is a UNI, and one
   operator has the whole card. Two operators share it where VCs below split_vci or paths
   below split_path are to be the first's; a split of 0 is set up as 1, below which there
   is neither. */
typedef struct {
  bool raw;      /* headers are checked by octet 5 */
  uint16_t kind; /* CLURIMOON_UNI or CLURIMOON_NNI */
  uint16_t split_vci, split_path;
} clurimoon_options;

/* What is opened and closed, and for whom: a VC by its VCI, or a whole path by its VPI. */
typedef struct {
  bool path;
  uint16_t number; /* VCI, or VPI of a path */
  uint16_t first;  /* 1: for the first operator; 0: for the second, or for the one who has the whole card; else nobody: 16 */
} clurimoon_connection;

/* A connection of one of two operators: CLURIMOON_OWNER_FIRST or CLURIMOON_OWNER_SECOND. */
static inline clurimoon_connection clurimoon_vc_of(uint16_t owner, uint16_t vci) {
  clurimoon_connection connection;
  connection.path = false;
  connection.number = vci;
  connection.first = (uint16_t)(owner ^ CLURIMOON_OWNER_SECOND);
  return connection;
}

static inline clurimoon_connection clurimoon_path_of(uint16_t owner, uint16_t vpi) {
  clurimoon_connection connection = clurimoon_vc_of(owner, vpi);
  connection.path = true;
  return connection;
}

/* A connection where one operator has the whole card. */
static inline clurimoon_connection clurimoon_vc(uint16_t vci) {
  return clurimoon_vc_of(CLURIMOON_OWNER_SECOND, vci);
}

static inline clurimoon_connection clurimoon_path(uint16_t vpi) {
  return clurimoon_path_of(CLURIMOON_OWNER_SECOND, vpi);
}

/* The operator that a connection is opened or closed for, as the plain calls have it. */
static inline uint16_t clurimoon_owner_of(clurimoon_connection connection) {
  return (uint16_t)(connection.first ^ CLURIMOON_OWNER_SECOND);
}

/* What it is opened with: m, F and C of the peak bucket, and of the second bucket
   m, F, C and flag, all 0 for none. Made by hand, or by clurimoon_rate_bits and
   clurimoon_rate_cells below. */
typedef struct {
  uint8_t m;
  uint32_t f, c;
  uint8_t m2;
  uint32_t f2, c2;
  uint8_t tag;
} clurimoon_rate;

/* A burst's answers are handed to the library as numbers of 16 bits, six a slot. */
typedef char clurimoon_answer_is_six_numbers[sizeof(clurimoon_answer) == 12 ? 1 : -1];
/* A tally goes in and out as 65 numbers of 64 bits, with nothing between them. */
typedef char clurimoon_tally_is_65_numbers[sizeof(clurimoon_tally) == 520 ? 1 : -1];

/*
 * The octets of one block for n spaces and VCIs below v; 0 if n or v is out of range.
 */
static inline size_t clurimoon_policer_octets(uint16_t n, uint16_t v) {
  if (n < CLURIMOON_N_MIN || n > CLURIMOON_N_MAX || v < CLURIMOON_V_MIN || v > CLURIMOON_V_MAX) return 0;
  return CLURIMOON_POLICER_OCTETS(n, v);
}

/*
 * Says where in a block the memories lie, for a policer of n spaces and VCIs below v.
 * It writes neither into the block nor into the record. clurimoon_policer_setup does
 * this itself; alone it is for a policer that goes on after a restart: the saved
 * record, the saved block, this, and clurimoon_policer_audit.
 *
 * 1 if n or v is outside its range; 2 if the block has fewer octets than
 * clurimoon_policer_octets says, or is NULL or not aligned to 8. In a refusal all
 * pointers are NULL and all lengths 0, so that each call is refused.
 *
 * The memories stand in the order of their alignment, bits first; cells end where
 * these octets end. Octets beyond are not touched.
 */
static inline uint16_t clurimoon_policer_lend(clurimoon_policer *policer, uint16_t n, uint16_t v, void *block, size_t octets) {
  const size_t needed = clurimoon_policer_octets(n, v);
  uint8_t *at = (uint8_t *)block;
  policer->cells = NULL;
  policer->links = NULL;
  policer->calendar = NULL;
  policer->vcs = NULL;
  policer->bits = NULL;
  policer->arrived = NULL;
  policer->cells_length = 0;
  policer->links_length = 0;
  policer->calendar_length = 0;
  policer->vcs_length = 0;
  policer->bits_length = 0;
  policer->arrived_length = 0;
  if (needed == 0) return CLURIMOON_REFUSED_RANGE;
  if (block == NULL || octets < needed || (uintptr_t)block % 8u != 0) return CLURIMOON_REFUSED_LENGTH;
  policer->bits_length = CLURIMOON_BITS;
  policer->vcs_length = CLURIMOON_VCS(v);
  policer->links_length = CLURIMOON_LINKS(n);
  policer->calendar_length = CLURIMOON_CALENDAR(n);
  policer->cells_length = CLURIMOON_CELLS(n);
  policer->arrived_length = CLURIMOON_ARRIVED(n);
  policer->cells = at + needed - policer->cells_length;
  policer->bits = (uint64_t *)(void *)at;
  at += policer->bits_length * sizeof(uint64_t);
  policer->vcs = (uint32_t *)(void *)at;
  at += policer->vcs_length * sizeof(uint32_t);
  policer->arrived = (uint32_t *)(void *)at;
  at += policer->arrived_length * sizeof(uint32_t);
  policer->links = (uint16_t *)(void *)at;
  at += policer->links_length * sizeof(uint16_t);
  policer->calendar = (uint16_t *)(void *)at;
  return CLURIMOON_DONE;
}

/*
 * Sets up a policer in a block: clurimoon_setup.
 *
 * Refusals as there, in its order; 2 where the block does not do
 * (clurimoon_policer_lend). A refusal does not touch the block. The struct is then
 * all zeros, and each of its calls is refused.
 */
static inline uint16_t clurimoon_policer_setup(clurimoon_policer *policer, uint16_t n, uint16_t v,
                                               clurimoon_options options, void *block, size_t octets) {
  clurimoon_set set;
  (void)clurimoon_policer_lend(policer, n, v, block, octets);
  set = clurimoon_setup(n, v, options.raw, options.kind,
                        options.split_vci != 0 ? options.split_vci : (uint16_t)1,
                        options.split_path != 0 ? options.split_path : (uint16_t)1,
                        policer->cells, policer->cells_length,
                        policer->links, policer->links_length,
                        policer->calendar, policer->calendar_length,
                        policer->vcs, policer->vcs_length,
                        policer->bits, policer->bits_length,
                        policer->arrived, policer->arrived_length);
  policer->record = set.record;
  if (set.number != CLURIMOON_DONE) (void)clurimoon_policer_lend(policer, 0, 0, NULL, 0);
  return set.number;
}

/*
 * Opens a VC or a path: clurimoon_open_sustained or clurimoon_open_path.
 */
static inline uint16_t clurimoon_policer_open(clurimoon_policer *policer, clurimoon_connection connection, clurimoon_rate rate) {
  return connection.path
             ? clurimoon_open_path(policer->record, policer->vcs, policer->vcs_length, clurimoon_owner_of(connection),
                                   connection.number, rate.m, rate.f, rate.c, rate.m2, rate.f2, rate.c2, rate.tag)
             : clurimoon_open_sustained(policer->record, policer->vcs, policer->vcs_length, clurimoon_owner_of(connection),
                                        connection.number, rate.m, rate.f, rate.c, rate.m2, rate.f2, rate.c2, rate.tag);
}

/*
 * Closes a VC or a path: clurimoon_close or clurimoon_close_path.
 */
static inline uint16_t clurimoon_policer_close(clurimoon_policer *policer, clurimoon_connection connection) {
  return connection.path
             ? clurimoon_close_path(policer->record, policer->vcs, policer->vcs_length, clurimoon_owner_of(connection), connection.number)
             : clurimoon_close(policer->record, policer->vcs, policer->vcs_length, clurimoon_owner_of(connection), connection.number);
}

/*
 * Serves one slot: clurimoon_slot. cell is the 53 octets that arrived, or NULL where
 * none did; it does not lie in the block. Refusal 9 can't come about.
 */
static inline clurimoon_answer clurimoon_policer_slot(clurimoon_policer *policer, const uint8_t *cell) {
  const clurimoon_served served = clurimoon_slot(policer->record,
                                                 policer->cells, policer->cells_length,
                                                 policer->links, policer->links_length,
                                                 policer->calendar, policer->calendar_length,
                                                 policer->vcs, policer->vcs_length,
                                                 policer->bits, policer->bits_length,
                                                 policer->arrived, policer->arrived_length,
                                                 cell, cell != NULL ? (size_t)CLURIMOON_CELL : (size_t)0);
  policer->record = served.record;
  return served.answer;
}

/*
 * The 53 octets for the line after a slot: clurimoon_line. They are the departing
 * cell, in the block, to be sent before the next slot; where none departs, and after
 * a refused slot, idle, which may be NULL. NULL too where the answer's space is no
 * space of this policer.
 */
static inline const uint8_t *clurimoon_policer_line(const clurimoon_policer *policer, const clurimoon_answer *answer,
                                                    const uint8_t *idle) {
  static const uint8_t none[CLURIMOON_CELL] = {0};
  const clurimoon_part part = clurimoon_line(policer->cells, policer->cells_length, idle != NULL ? idle : none,
                                             CLURIMOON_CELL, answer->space);
  if (part.length == 0) return NULL;
  return part.from_idle != 0 ? idle : policer->cells + part.start;
}

/*
 * Says whether the state is sound: clurimoon_audit.
 */
static inline bool clurimoon_policer_audit(const clurimoon_policer *policer) {
  return clurimoon_audit(policer->record,
                         policer->cells, policer->cells_length,
                         policer->links, policer->links_length,
                         policer->calendar, policer->calendar_length,
                         policer->vcs, policer->vcs_length,
                         policer->bits, policer->bits_length,
                         policer->arrived, policer->arrived_length);
}

/*
 * Says how many slots from now, if no cell arrives, the next cell leaves: clurimoon_next.
 */
static inline clurimoon_wait clurimoon_policer_next(const clurimoon_policer *policer) {
  return clurimoon_next(policer->record, policer->calendar, policer->calendar_length, policer->bits, policer->bits_length);
}

/*
 * Serves up to `slots` slots in one call: clurimoon_burst. Lend 53 octets a slot of
 * arrivals and of departures, and one octet a slot of sizes, 0 or 53; answers is an
 * array of so many. How many slots were served is handed back; *number, where
 * number isn't NULL, is 0 if that is all of them, and otherwise why not.
 */
static inline size_t clurimoon_policer_burst(clurimoon_policer *policer, const uint8_t *arrivals, const uint8_t *sizes,
                                             size_t slots, uint8_t *departures, clurimoon_answer *answers,
                                             uint16_t *number) {
  const size_t lent = slots <= (size_t)-1 / CLURIMOON_CELL ? slots : 0; /* 53 times more fit nowhere: refused with 2 */
  const clurimoon_burst_end end = clurimoon_burst(policer->record,
                                                  policer->cells, policer->cells_length,
                                                  policer->links, policer->links_length,
                                                  policer->calendar, policer->calendar_length,
                                                  policer->vcs, policer->vcs_length,
                                                  policer->bits, policer->bits_length,
                                                  policer->arrived, policer->arrived_length,
                                                  arrivals, CLURIMOON_ARRIVALS(lent),
                                                  sizes, slots,
                                                  departures, CLURIMOON_DEPARTURES(lent),
                                                  (uint16_t *)(void *)answers, CLURIMOON_ANSWERS(lent));
  policer->record = end.record;
  if (number != NULL) *number = end.number;
  return end.done;
}

/*
 * The number that a connection has in answers, and by which its delays are tallied: a
 * VC's VCI, a path's V + VPI. 0, which is nobody's, where VCI or VPI is outside its
 * range. Whose it is doesn't matter.
 */
static inline uint16_t clurimoon_policer_number(const clurimoon_policer *policer, clurimoon_connection connection) {
  const uint16_t most = connection.path ? (uint16_t)CLURIMOON_PATHS : policer->record.v;
  if (connection.number == 0 || connection.number >= most) return 0;
  return (uint16_t)(connection.path ? policer->record.v + connection.number : connection.number);
}

/*
 * After a slot, and before the next: takes what it has sent into the tally of one
 * connection's delays, clurimoon_tally_slot. The tally is zeros at first, and the
 * caller's; clurimoon_percentile says what is in it. In a refusal it is as it was.
 */
static inline uint16_t clurimoon_policer_tally(const clurimoon_policer *policer, clurimoon_tally *tally,
                                               clurimoon_connection connection, const clurimoon_answer *answer) {
  const clurimoon_tallied tallied = clurimoon_tally_slot(*tally, policer->record, policer->arrived, policer->arrived_length,
                                                         clurimoon_policer_number(policer, connection), answer->space,
                                                         answer->out_vci);
  *tally = tallied.tally;
  return tallied.number;
}

/*
 * clurimoon_policer_burst with the tally of one connection's delays: each of the burst's
 * slots goes into it, clurimoon_burst_tallied.
 */
static inline size_t clurimoon_policer_burst_tallied(clurimoon_policer *policer, clurimoon_tally *tally,
                                                     clurimoon_connection connection, const uint8_t *arrivals,
                                                     const uint8_t *sizes, size_t slots, uint8_t *departures,
                                                     clurimoon_answer *answers, uint16_t *number) {
  const size_t lent = slots <= (size_t)-1 / CLURIMOON_CELL ? slots : 0; /* as above */
  const clurimoon_burst_tally after = clurimoon_burst_tallied(*tally, clurimoon_policer_number(policer, connection),
                                                              policer->record,
                                                              policer->cells, policer->cells_length,
                                                              policer->links, policer->links_length,
                                                              policer->calendar, policer->calendar_length,
                                                              policer->vcs, policer->vcs_length,
                                                              policer->bits, policer->bits_length,
                                                              policer->arrived, policer->arrived_length,
                                                              arrivals, CLURIMOON_ARRIVALS(lent),
                                                              sizes, slots,
                                                              departures, CLURIMOON_DEPARTURES(lent),
                                                              (uint16_t *)(void *)answers, CLURIMOON_ANSWERS(lent));
  policer->record = after.end.record;
  *tally = after.tally;
  if (number != NULL) *number = after.end.number;
  return after.end.done;
}

/*
 * Rates in cells or bits a second, tolerance in microseconds.
 *
 * By docs/PLANNERS.md: F = floor(L x line / rate), so that the customer's own rate
 * passes; C - F = ceil(L x tolerance / slot), so that the whole tolerance passes; m
 * is the largest, from 15 down, with which both keep to their limits. No smaller one
 * would take a rate that this one doesn't: the larger L, the closer both are to what
 * was asked for.
 *
 * Bits are those of whole cells, header included: 424 a cell. line and rate are 1 to
 * CLURIMOON_RATE_MAX bits a second, or 1 to CLURIMOON_RATE_MAX / 424 cells a second;
 * tolerances any 32-bit number of microseconds. Nothing overflows: products are
 * below 2^56, or are not made.
 */
#define CLURIMOON_RATE_MAX ((uint64_t)1 << 40)

/* Mb/s as bits a second, rounded to whole ones. With a constant the compiler works it out. */
#define CLURIMOON_MBPS(megabits) ((uint64_t)((megabits) * 1000000.0 + 0.5))

/* m, F and C for a rate; false where there are none. Not to be called from outside. */
static inline bool clurimoon_rate_bucket(uint64_t line, uint64_t rate, uint32_t micros, bool second,
                                         uint8_t *m, uint32_t *f, uint32_t *c) {
  const uint64_t slot = 424000000u; /* bits of a cell, times microseconds of a second */
  uint64_t early, whole, part, l, fill, over;
  int k;
  if (line == 0 || line > CLURIMOON_RATE_MAX || rate == 0 || rate > CLURIMOON_RATE_MAX) return false;
  if (!second && rate > line) return false;
  if (micros != 0 && line > (uint64_t)-1 / micros) return false; /* more slots than C can hold */
  early = line * micros;                                         /* the tolerance, in parts of 1/slot slots */
  whole = early / slot;
  part = early % slot;
  if (whole > CLURIMOON_C2_MAX) return false;
  for (k = CLURIMOON_M_MAX; k >= 0; --k) {
    l = (uint64_t)1 << k;
    fill = l * line / rate;
    over = l * whole + (l * part + slot - 1) / slot;
    if (fill == 0 || fill > CLURIMOON_F_MAX) continue;
    if (second ? fill + over > CLURIMOON_C2_MAX : over / l >= CLURIMOON_N_MAX) continue;
    *m = (uint8_t)k;
    *f = (uint32_t)fill;
    *c = (uint32_t)(fill + over);
    return true;
  }
  return false;
}

/*
 * A rate without second bucket, from the line's and the peak rate in bits a second
 * and the tolerance. 6, and the rate stays as it was, where no m fits: a peak above
 * the line's rate, or below the 16,777,216th part of it; a tolerance that no N has
 * room for, from 1,024 slots on; numbers outside their ranges. Whether N is enough,
 * open says (clurimoon_rate_spaces).
 */
static inline uint16_t clurimoon_rate_bits(clurimoon_rate *rate, uint64_t line, uint64_t peak, uint32_t micros) {
  if (!clurimoon_rate_bucket(line, peak, micros, false, &rate->m, &rate->f, &rate->c)) return CLURIMOON_REFUSED_RULES;
  rate->m2 = 0;
  rate->f2 = 0;
  rate->c2 = 0;
  rate->tag = 0;
  return CLURIMOON_DONE;
}

/*
 * The same from cells a second.
 */
static inline uint16_t clurimoon_rate_cells(clurimoon_rate *rate, uint64_t line, uint64_t peak, uint32_t micros) {
  if (line > CLURIMOON_RATE_MAX / 424 || peak > CLURIMOON_RATE_MAX / 424) return CLURIMOON_REFUSED_RULES;
  return clurimoon_rate_bits(rate, 424 * line, 424 * peak, micros);
}

/*
 * Adds a second bucket to a rate: a sustainable rate for CLP 0 cells, and a burst
 * tolerance. For bursts of B cells at the peak that is (B - 1) times what the
 * sustainable interval is longer than the peak's, in microseconds. tag is 1 where
 * cells above it are to be tagged, 0 where they are to be excess. 11, and the rate
 * stays as it was, where no m fits, or tag is neither 0 nor 1.
 */
static inline uint16_t clurimoon_rate_sustain_bits(clurimoon_rate *rate, uint64_t line, uint64_t sustainable, uint32_t micros, uint8_t tag) {
  if (tag > 1 || !clurimoon_rate_bucket(line, sustainable, micros, true, &rate->m2, &rate->f2, &rate->c2)) return CLURIMOON_REFUSED_SECOND;
  rate->tag = tag;
  return CLURIMOON_DONE;
}

/*
 * The same from cells a second.
 */
static inline uint16_t clurimoon_rate_sustain_cells(clurimoon_rate *rate, uint64_t line, uint64_t sustainable, uint32_t micros, uint8_t tag) {
  if (line > CLURIMOON_RATE_MAX / 424 || sustainable > CLURIMOON_RATE_MAX / 424) return CLURIMOON_REFUSED_SECOND;
  return clurimoon_rate_sustain_bits(rate, 424 * line, 424 * sustainable, micros, tag);
}

/*
 * The N that a rate needs: the largest D and 1. A line's N is the largest of these.
 * 0 where m is above 15 or C below F.
 */
static inline uint32_t clurimoon_rate_spaces(const clurimoon_rate *rate) {
  if (rate->m > CLURIMOON_M_MAX || rate->c < rate->f) return 0;
  return ((rate->c - rate->f) >> rate->m) + 1;
}

#endif
