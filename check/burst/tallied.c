/*
 * A burst that keeps a tally, at every N from 1 to 1,024: beside the same slots one by one, each followed by
 * clurimoon_tally_slot, and beside the plain burst. Answers, departing cells, records, all six memories and both tallies are
 * the same after each burst. A third count is made from the answers alone: the k-th cell of a connection that was let in is the
 * k-th of it to leave.
 *
 *   tallied [SEED]
 *
 * Within a burst a space is often taken again, and its arrival slot written anew: the arrival slots as they stand after the
 * burst would give another tally. How often is counted, and must not be never.
 */
#include <stdint.h>
#include <stdio.h>
#include <stdlib.h>
#include <string.h>

#include "clurimoon.h"

enum { MOST = CLURIMOON_N_MAX, V = 16, SLOTS = 96, BURSTS = 6, PATH = 200, FOLLOWED = V + PATH };

typedef struct {
  clurimoon_record record;
  uint8_t cells[CLURIMOON_CELLS(MOST)];
  uint16_t links[CLURIMOON_LINKS(MOST)], calendar[CLURIMOON_CALENDAR(MOST)];
  uint32_t vcs[CLURIMOON_VCS(V)];
  uint64_t bits[CLURIMOON_BITS];
  uint32_t arrived[CLURIMOON_ARRIVED(MOST)];
  uint8_t departures[CLURIMOON_DEPARTURES(SLOTS)];
  uint16_t answers[CLURIMOON_ANSWERS(SLOTS)];
} policer;

#define MEMORY(p)                                                                                                \
  (p)->cells, CLURIMOON_CELLS(n), (p)->links, CLURIMOON_LINKS(n), (p)->calendar, CLURIMOON_CALENDAR(n), (p)->vcs, \
      CLURIMOON_VCS(V), (p)->bits, CLURIMOON_BITS, (p)->arrived, CLURIMOON_ARRIVED(n)
#define BURST(p)                                                                                                 \
  arrivals, CLURIMOON_ARRIVALS(SLOTS), sizes, SLOTS, (p)->departures, CLURIMOON_DEPARTURES(SLOTS), (p)->answers,  \
      CLURIMOON_ANSWERS(SLOTS)

static uint8_t arrivals[CLURIMOON_ARRIVALS(SLOTS)], sizes[SLOTS];
static uint16_t n;
static uint64_t state = 1992;
static unsigned long long bursts, slots, taken, again, stopped, filled;

static void fail(const char *what) {
  printf("tallied: FAILED, N %u, after %llu bursts: %s\n", (unsigned)n, bursts, what);
  exit(1);
}

static uint32_t below(uint32_t bound) {
  state = state * 6364136223846793005u + 1442695040888963407u;
  return (uint32_t)((state >> 33) % bound);
}

static void set_up(policer *p) {
  const clurimoon_set set = clurimoon_setup(n, V, n % 3 == 0, n % 2 ? CLURIMOON_NNI : CLURIMOON_UNI, 1, 1, MEMORY(p));
  if (set.number != CLURIMOON_DONE) fail("setup was refused");
  p->record = set.record;
  /* The path has a cell in 2 slots and waits as long as it may; VC 3 fills the line, VC 4 tags. */
  if (clurimoon_open_path(p->record, p->vcs, CLURIMOON_VCS(V), 1, PATH, 4, 32, 32 + 16u * n - 1, 0, 0, 0, 0) != CLURIMOON_DONE ||
      clurimoon_open(p->record, p->vcs, CLURIMOON_VCS(V), 1, 3, 4, 24, 24 + 16u * n - 1) != CLURIMOON_DONE ||
      clurimoon_open_sustained(p->record, p->vcs, CLURIMOON_VCS(V), 1, 4, 4, 48, 48 + 16u * n - 1, 0, 9, 30, 1) != CLURIMOON_DONE)
    fail("an open was refused");
}

static void receive(unsigned load) {
  unsigned k;
  for (k = 0; k < SLOTS; ++k) {
    uint8_t *cell = arrivals + CLURIMOON_ARRIVALS(k);
    const uint32_t kind = below(10);
    memset(cell, (int)below(256), CLURIMOON_CELL);
    clurimoon_put_header(cell, kind < 6 ? PATH : 0, kind < 8 ? 3 : kind < 9 ? 4 : 5, below(8), below(2));
    clurimoon_put_hec(cell);
    sizes[k] = below(100) < load ? CLURIMOON_CELL : 0;
  }
  if (below(5) == 0) sizes[below(SLOTS)] = 52;
}

/* The slots of the burst one by one, each with its tally. */
static clurimoon_burst_tally one_by_one(policer *p, clurimoon_tally tally, uint16_t connection) {
  clurimoon_burst_tally t;
  size_t k;
  t.end.number = CLURIMOON_DONE;
  for (k = 0; k < SLOTS; ++k) {
    const clurimoon_served s = clurimoon_slot(p->record, MEMORY(p), arrivals + CLURIMOON_ARRIVALS(k), sizes[k]);
    const clurimoon_answer *a = &s.answer;
    const uint16_t six[6] = {a->number, a->verdict, a->vci, a->d, a->space, a->out_vci};
    clurimoon_tallied taken_in;
    t.end.number = a->number;
    if (a->number != CLURIMOON_DONE) break;
    p->record = s.record;
    memcpy(p->answers + CLURIMOON_ANSWERS(k), six, sizeof six);
    if (a->space != CLURIMOON_NONE) memcpy(p->departures + CLURIMOON_DEPARTURES(k), p->cells + CLURIMOON_CELLS(a->space), CLURIMOON_CELL);
    taken_in = clurimoon_tally_slot(tally, p->record, p->arrived, CLURIMOON_ARRIVED(n), connection, a->space, a->out_vci);
    if (taken_in.number != CLURIMOON_DONE) fail("a tally was refused");
    tally = taken_in.tally;
  }
  t.end.done = k, t.end.record = p->record, t.tally = tally;
  return t;
}

static bool same_tally(const clurimoon_tally *a, const clurimoon_tally *b) {
  return a->cells == b->cells && memcmp(a->bins, b->bins, sizeof a->bins) == 0;
}

static void same(const policer *a, const policer *b, const char *what) {
  if (memcmp(&a->record, &b->record, sizeof a->record) != 0 || memcmp(a->cells, b->cells, CLURIMOON_CELLS(n)) != 0 ||
      memcmp(a->links, b->links, 2 * CLURIMOON_LINKS(n)) != 0 || memcmp(a->calendar, b->calendar, 2 * CLURIMOON_CALENDAR(n)) != 0 ||
      memcmp(a->vcs, b->vcs, sizeof a->vcs) != 0 || memcmp(a->bits, b->bits, sizeof a->bits) != 0 ||
      memcmp(a->arrived, b->arrived, 4 * CLURIMOON_ARRIVED(n)) != 0 || memcmp(a->departures, b->departures, sizeof a->departures) != 0 ||
      memcmp(a->answers, b->answers, sizeof a->answers) != 0)
    fail(what);
}

/* From the answers alone: when the path's cells came that wait, the first to leave first. */
static uint32_t came[MOST + SLOTS];
static unsigned waiting;

static void recount(const policer *p, size_t done, clurimoon_tally *counted) {
  uint32_t t = p->record.t - (uint32_t)done;
  size_t k;
  for (k = 0; k < done; ++k) {
    const uint16_t *a = p->answers + CLURIMOON_ANSWERS(k);
    ++t;
    if (a[CLURIMOON_ANSWER_VCI] == FOLLOWED && a[CLURIMOON_ANSWER_VERDICT] == CLURIMOON_ACCEPTED) came[waiting++] = t;
    if (a[CLURIMOON_ANSWER_OUT_VCI] != FOLLOWED) continue;
    again += p->arrived[a[CLURIMOON_ANSWER_SPACE]] != came[0];
    counted->bins[t - came[0] < 63 ? t - came[0] : 63] += 1, counted->cells += 1, ++taken;
    memmove(came, came + 1, --waiting * sizeof *came);
  }
}

static void try_one(void) {
  static policer tallying, single, plain;
  clurimoon_tally tally, counted, full;
  unsigned k;
  memset(&tally, 0, sizeof tally), memset(&counted, 0, sizeof counted), memset(&tallying, 0xa5, sizeof tallying);
  memset(&full, 0, sizeof full);
  full.bins[below(64)] = full.cells = ((uint64_t)1 << 32) - 5;
  waiting = 0;
  set_up(&tallying);
  single = tallying, plain = tallying;
  for (k = 0; k < BURSTS; ++k) {
    clurimoon_burst_tally t, u;
    clurimoon_burst_end e;
    receive(k == 0 ? 100 : 60 + below(41));
    if (k % 2 == 1) { /* a tally of another connection that fills up; nobody follows the path, so that its count begins anew */
      t = clurimoon_burst_tallied(full, 3, tallying.record, MEMORY(&tallying), BURST(&tallying));
      u = one_by_one(&single, full, 3);
      filled += t.tally.cells == (uint64_t)1 << 32;
      full = t.tally;
    } else {
      t = clurimoon_burst_tallied(tally, FOLLOWED, tallying.record, MEMORY(&tallying), BURST(&tallying));
      u = one_by_one(&single, tally, FOLLOWED);
      tally = t.tally;
    }
    e = clurimoon_burst(plain.record, MEMORY(&plain), BURST(&plain));
    tallying.record = t.end.record, plain.record = e.record;
    if (t.end.number != u.end.number || t.end.done != u.end.done) fail("another number or another slot than one by one");
    if (t.end.number != e.number || t.end.done != e.done) fail("another number or another slot than the plain burst");
    if (!same_tally(&t.tally, &u.tally)) fail("another tally than one by one");
    same(&tallying, &single, "another answer or memory than one by one"), same(&tallying, &plain, "another answer or memory than the plain burst");
    stopped += t.end.number != CLURIMOON_DONE;
    if (k % 2 == 1) {
      const clurimoon_tally before = counted;
      const unsigned long long seen = taken, seen_again = again;
      recount(&tallying, t.end.done, &counted);
      counted = before, taken = seen, again = seen_again;
    } else {
      recount(&tallying, t.end.done, &counted);
      if (!same_tally(&tally, &counted)) fail("another tally than counted from the answers");
    }
    ++bursts, slots += t.end.done;
  }
}

int main(int words, char **word) {
  unsigned k;
  if (words > 1) state = strtoull(word[1], NULL, 10);
  for (n = CLURIMOON_N_MIN; n <= MOST; ++n)
    for (k = 0; k < 3; ++k) try_one();
  n = 0;
  if (taken < 10000 || again < 1000 || stopped < 100 || filled < 100) fail("something was met too seldom");
  printf("tallied: every N from 1 to 1,024, %llu bursts, %llu slots: answers, memories and tally of each are those of its slots one by one; "
         "%llu delays of a path as counted from the answers, %llu of them of a space taken again within the burst; %llu bursts stopped, %llu with a tally that is full\n",
         bursts, slots, taken, again, stopped, filled);
  return 0;
}
