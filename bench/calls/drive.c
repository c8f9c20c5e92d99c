/*
 * Audit and setup of a policer under traffic, the opening and closing of a path, how long until a cell leaves, a burst
 * of empty slots, and the delay summary.
 *
 *   drive count audit|setup|open_path|close_path N V      one call, for callgrind
 *   drive count next_WHERE N V                            one call of next: WHERE is output (a cell is in the Output List),
 *                                                         near (the bits of two entries, 3 and 9 after T), far (of the one
 *                                                         before T, in the midst of a word) or none
 *   drive count empty|empty_checking N V                  a burst of 1,000 empty slots of a policer in which no cell waits
 *   drive count tally_WHAT N V                            one call of tally_slot: WHAT is one (the named VC's cell left),
 *                                                         other (another's did), none or full (of 2^32 cells)
 *   drive count percentile_SHARE N V                      one call of percentile, of a tally with some cells in each bin
 *   drive count bursts|bursts_tallied N V                 1,024 slots of traffic in bursts of 64, with the tally of a VC or not
 *   drive time N V REPEATS           median nanoseconds of both, taken in turns
 */
#define _POSIX_C_SOURCE 199309L
#include <stdio.h>
#include <stdlib.h>
#include <string.h>
#include <time.h>

#include "slots.h"
#include "traffic.h"

enum { slots = 4096, empty_slots = 1000, burst_slots = 64, most_repeats = 1001, calls = 64 };
static uint8_t cells[53 * 1024], sizes[slots], arrivals[53 * slots], departures[53 * slots];
static uint16_t links[1024], calendar[2048], answers[6 * slots];
static uint32_t vcs[CLURIMOON_VCS(1024)];
static uint64_t bits[CLURIMOON_BITS];
static uint32_t arrived[1024];
static clurimoon_record record;
static unsigned n, v;

static void fail(const char *what) { fprintf(stderr, "bench: FAILED, %s\n", what), exit(1); }

#define MEMORY cells, 53 * n, links, n, calendar, 2 * n, vcs, CLURIMOON_VCS(v), bits, CLURIMOON_BITS, arrived, n

static void set_up(void) {
  const clurimoon_set set = clurimoon_setup((uint16_t)n, (uint16_t)v, false, CLURIMOON_UNI, 1, 1, MEMORY);
  if (set.number != 0) fail("setup");
  record = set.record;
}
static void audit(void) {
  if (!clurimoon_audit(record, MEMORY)) fail("the audit says no");
}

/* With both buckets; no cell of it has come, so that it may be closed at once. */
static void open_path(void) {
  if (clurimoon_open_path(record, vcs, CLURIMOON_VCS(v), 1, 255, 4, 27, 27 + 16 * n - 1, 2, 24, 90, 1) != 0) fail("open_path");
}
static void close_path(void) {
  if (clurimoon_close_path(record, vcs, CLURIMOON_VCS(v), 1, 255) != 0) fail("close_path");
}

/* A policer in the midst of its work: traffic of load 0.8, in one burst, or slot by slot where a burst is to be counted. */
static void work(int by_slots) {
  set_up();
  for (unsigned vci = 1; vci < v; ++vci) {
    const contract k = contract_of(vci, v, plain);
    if (k.open && clurimoon_open(record, vcs, CLURIMOON_VCS(v), 1, (uint16_t)vci, k.m, k.f, k.c) != 0) fail("open");
  }
  make_traffic(v, 80, plain, slots, sizes, arrivals);
  for (size_t k = 0; by_slots && k < slots; ++k) {
    const clurimoon_served s = clurimoon_slot(record, MEMORY, arrivals + 53 * k, sizes[k]);
    if (s.answer.number != 0) fail("a slot was refused");
    record = s.record;
  }
  if (by_slots) return;
  const clurimoon_burst_end end = clurimoon_burst(record, MEMORY, arrivals, sizeof arrivals, sizes, sizeof sizes,
                                                  departures, sizeof departures, answers, 6 * slots);
  if (end.number != 0) fail("a burst was refused");
  record = end.record;
}

/* Calendar and bits as `where` says, with T in the midst of the calendar, where the bits ahead and behind are both in its word. */
static void next(const char *where) {
  unsigned expected = 0;
  record.T = (uint16_t)(n / 2), record.out_head = record.out_tail = CLURIMOON_NONE;
  memset(bits + CLURIMOON_ENTRY_BITS, 0, 8 * (CLURIMOON_BITS - CLURIMOON_ENTRY_BITS));
  for (unsigned k = 1; k < n; ++k) {
    const unsigned entry = (record.T + k) % n;
    if (!(strcmp(where, "near") == 0 ? k == 3 || k == 9 : strcmp(where, "far") == 0 ? k == n - 1 : 0)) continue;
    bits[CLURIMOON_ENTRY_BITS + entry / 64] |= (uint64_t)1 << entry % 64;
    calendar[2 * entry] = calendar[2 * entry + 1] = 0;
    if (expected == 0) expected = k;
  }
  if (strcmp(where, "output") == 0) record.out_head = record.out_tail = 0, expected = 1;
  const clurimoon_wait wait = clurimoon_next(record, calendar, 2 * n, bits, CLURIMOON_BITS);
  if (wait.number != 0 || wait.slots != expected) fail("next");
}

/* What a card that slept owes: its VCs are open, and rotation brings them up to date. */
static void empty(int checking) {
  memset(sizes, 0, empty_slots);
  while (clurimoon_next(record, calendar, 2 * n, bits, CLURIMOON_BITS).slots != 0) {
    const clurimoon_served s = clurimoon_slot(record, MEMORY, NULL, 0);
    if (s.answer.number != 0) fail("an empty slot was refused");
    record = s.record;
  }
  if (checking) {
    const lent_memory lent = {cells, links, calendar, vcs, bits, arrived, 53 * n, n, 2 * n, CLURIMOON_VCS(v), CLURIMOON_BITS, n};
    const lent_burst b = {arrivals, sizes, departures, answers, 53 * empty_slots, empty_slots, 53 * empty_slots, 6 * empty_slots};
    if (checking_burst(&record, &lent, &b).number != 0) fail("a burst was refused");
    return;
  }
  if (clurimoon_burst(record, MEMORY, arrivals, 53 * empty_slots, sizes, empty_slots, departures, 53 * empty_slots, answers,
                      6 * empty_slots).number != 0)
    fail("a burst was refused");
}

/* Some cells in each bin, and so a percentile in the midst of them. */
static clurimoon_tally some_tally(void) {
  clurimoon_tally tally = {{0}, 0};
  for (unsigned k = 0; k < CLURIMOON_BINS; ++k) tally.bins[k] = 100 + k, tally.cells += 100 + k;
  return tally;
}
static void tally_one(const char *what) {
  clurimoon_tally tally = some_tally();
  const int one = strcmp(what, "one") == 0, full = strcmp(what, "full") == 0, none = strcmp(what, "none") == 0;
  if (full) tally.bins[63] += CLURIMOON_TALLY_MAX - tally.cells, tally.cells = CLURIMOON_TALLY_MAX;
  arrived[1] = record.t - 7;
  const clurimoon_tallied t = clurimoon_tally_slot(tally, record, arrived, n, 3, none ? CLURIMOON_NONE : 1, none ? 0 : one || full ? 3 : 4);
  if (t.number != 0 || t.tally.cells != tally.cells + (one ? 1 : 0) || t.tally.bins[7] != 107 + (one ? 1u : 0u)) fail("tally_slot");
}
static void percentile(unsigned share) {
  if (clurimoon_percentile(some_tally(), (uint16_t)share).number != 0) fail("percentile");
}
/* The traffic goes on, in bursts: what each slot of a burst costs with the tally of one VC, and without. */
static void bursts(int tallied) {
  clurimoon_tally tally = {{0}, 0};
  unsigned vci = 0; /* the first that sends a cell */
  for (const uint8_t *cell = arrivals; vci == 0 || vci >= v || !contract_of(vci, v, plain).open; cell += 53)
    vci = cell[2] * 16u + cell[3] / 16u;
  for (size_t k = 0; k < 1024; k += burst_slots) {
    clurimoon_burst_tally t;
#define BURST arrivals + 53 * k, 53 * burst_slots, sizes + k, burst_slots, departures, 53 * burst_slots, answers, 6 * burst_slots
    if (tallied) t = clurimoon_burst_tallied(tally, (uint16_t)vci, record, MEMORY, BURST), tally = t.tally;
    else t.end = clurimoon_burst(record, MEMORY, BURST);
    if (t.end.number != 0) fail("a burst was refused");
    record = t.end.record;
  }
  if (tallied && tally.cells == 0) fail("no cell was tallied");
}

static double clock_ns(void) {
  struct timespec now;
  clock_gettime(CLOCK_MONOTONIC, &now);
  return (double)now.tv_sec * 1e9 + (double)now.tv_nsec;
}
static int by_size(const void *a, const void *b) {
  const double x = *(const double *)a, y = *(const double *)b;
  return (x > y) - (x < y);
}
static double timed(void (*call)(void)) {
  const double from = clock_ns();
  for (int k = 0; k < calls; ++k) call();
  return (clock_ns() - from) / calls;
}

int main(int count, char **arguments) {
  if (count != 5) return fprintf(stderr, "drive count audit|setup|open_path|close_path|next_WHERE|empty|empty_checking|tally_WHAT|percentile_SHARE|bursts|bursts_tallied N V | drive time N V REPEATS\n"), 2;
  if (strcmp(arguments[1], "count") == 0) {
    n = (unsigned)atoi(arguments[3]), v = (unsigned)atoi(arguments[4]);
    work(strncmp(arguments[2], "empty", 5) == 0 || strncmp(arguments[2], "bursts", 6) == 0);
    if (strcmp(arguments[2], "audit") == 0) audit();
    if (strstr(arguments[2], "_path")) open_path();
    if (strcmp(arguments[2], "close_path") == 0) close_path();
    if (strncmp(arguments[2], "next_", 5) == 0) next(arguments[2] + 5);
    if (strncmp(arguments[2], "empty", 5) == 0) empty(strcmp(arguments[2], "empty_checking") == 0);
    if (strncmp(arguments[2], "tally_", 6) == 0) tally_one(arguments[2] + 6);
    if (strncmp(arguments[2], "percentile_", 11) == 0) percentile((unsigned)atoi(arguments[2] + 11));
    if (strncmp(arguments[2], "bursts", 6) == 0) bursts(strcmp(arguments[2], "bursts_tallied") == 0);
    return 0;
  }
  n = (unsigned)atoi(arguments[2]), v = (unsigned)atoi(arguments[3]);
  const int repeats = atoi(arguments[4]);
  if (repeats < 1 || repeats > most_repeats) fail("REPEATS");
  static double audits[most_repeats], setups[most_repeats];
  for (int r = 0; r < repeats; ++r) work(0), audits[r] = timed(audit), setups[r] = timed(set_up);
  qsort(audits, (size_t)repeats, sizeof *audits, by_size), qsort(setups, (size_t)repeats, sizeof *setups, by_size);
  printf("%.0f %.0f\n", audits[repeats / 2], setups[repeats / 2]);
  return 0;
}
