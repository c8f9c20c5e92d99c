/*
 * Request (xiii) of document 02, the burst that the output can carry: met at every N from 1 to 1,024.
 *
 *   tight
 *
 * Others fill the line so that N-1 cells stand before the first cell of VC 1, which is due at once in slot X: it
 * leaves in slot X + N-1, exactly N-1 slots late. VC 1's j-th next cell comes in slot X + floor(j F / L). In the w
 * slots from X + N-1 on there then leave min(w, 1 + floor(((w + N-1) L - 1) / F)) cells of VC 1, for every w; no
 * window of the run holds more.
 *
 *   family 1, N to 1,022  N VCs have a cell each that is due in slot X-1
 *   family 2, any N       VC 2 is slower than the line by one part in K, the least power of two from N on, and sends
 *                         N K cells; VC 3, at the line's rate, sends the next N-1
 *
 * Several rates of VC 1 are tried at each N, each from a copy of the policer as it stands before slot X. At each
 * second N VC 1 has a second bucket for one cell in 2^24 slots, and tags: all its cells but the first are tagged, and
 * leave as the others do. At two of four N a path stands in VC 1's place, with cells of another VCI each, and at four of
 * eight the line is an NNI.
 */
#include <stdint.h>
#include <stdio.h>
#include <stdlib.h>
#include <string.h>

#include "clurimoon.h"

enum { MOST = CLURIMOON_N_MAX, KINDS = 5, MOST_WINDOWS = 11, PATH = 201 };

/* A connection: m, F and C, with L = 2^m. */
typedef struct {
  uint8_t m;
  uint32_t f, c;
} connection;

/* A policer and its memories, and the number of its next slot, which does not wrap. */
typedef struct {
  unsigned family;
  uint32_t n, v;
  uint64_t now;
  clurimoon_record record;
  uint8_t cells[CLURIMOON_CELLS(MOST)];
  uint16_t links[CLURIMOON_LINKS(MOST)], calendar[CLURIMOON_CALENDAR(MOST)];
  uint32_t words[CLURIMOON_VCS(CLURIMOON_V_MAX)];
  uint64_t bits[CLURIMOON_BITS];
  uint32_t arrived[CLURIMOON_ARRIVED(MOST)];
} policer;

static unsigned long long runs, slots, windows, fewer, tagged, of_paths;

static bool tags(const policer *p) { return p->n % 2 == 1; }
static bool has_path(const policer *p) { return p->n / 2 % 2 == 1; }
static uint16_t kind_of(uint32_t n) { return n / 4 % 2 == 1 ? CLURIMOON_NNI : CLURIMOON_UNI; }

static void fail(const policer *p, const char *what) {
  printf("burst: FAILED, family %u, N %u, slot %llu: %s\n", p->family, (unsigned)p->n, (unsigned long long)p->now, what);
  exit(1);
}

static void set_up(policer *p, unsigned family, uint32_t n, uint32_t v) {
  clurimoon_set set;
  p->family = family, p->n = n, p->v = v, p->now = 0;
  set = clurimoon_setup((uint16_t)n, (uint16_t)v, false, kind_of(n), 1, 1, p->cells, CLURIMOON_CELLS(n), p->links,
                        CLURIMOON_LINKS(n), p->calendar, CLURIMOON_CALENDAR(n), p->words, CLURIMOON_VCS(v), p->bits, CLURIMOON_BITS,
                        p->arrived, CLURIMOON_ARRIVED(n));
  if (set.number != CLURIMOON_DONE) fail(p, "setup was refused");
  p->record = set.record;
}

static void open_vc(policer *p, uint32_t vci, uint8_t m, uint32_t f, uint32_t c) {
  if (clurimoon_open(p->record, p->words, CLURIMOON_VCS(p->v), 1, (uint16_t)vci, m, f, c) != CLURIMOON_DONE)
    fail(p, "an open was refused");
}

/* VC 1, or the path in its place, with or without a second bucket. */
static void open_first(policer *p, const connection *c) {
  const uint32_t f2 = tags(p) ? CLURIMOON_F_MAX : 0;
  const uint8_t tag = tags(p) ? 1 : 0;
  uint16_t number;
  if (has_path(p)) number = clurimoon_open_path(p->record, p->words, CLURIMOON_VCS(p->v), 1, PATH, c->m, c->f, c->c, 0, f2, f2, tag);
  else if (tag) number = clurimoon_open_sustained(p->record, p->words, CLURIMOON_VCS(p->v), 1, 1, c->m, c->f, c->c, 0, f2, f2, tag);
  else number = clurimoon_open(p->record, p->words, CLURIMOON_VCS(p->v), 1, 1, c->m, c->f, c->c);
  if (number != CLURIMOON_DONE) fail(p, "the open of VC 1, or of the path in its place, was refused");
}

/* A path's cells have any VCI, here 0 and others. */
static void write_header(const policer *p, uint8_t *cell, uint32_t vci) {
  const bool path = vci == 1 && has_path(p);
  const uint32_t vpi = path ? PATH : 0, shown = path ? (uint32_t)(p->now * 7919 % 65536) : vci;
  cell[0] = (uint8_t)(vpi >> 4), cell[1] = (uint8_t)((vpi & 15) << 4 | shown >> 12);
  cell[2] = (uint8_t)(shown >> 4), cell[3] = (uint8_t)(shown << 4);
}

/* A slot in which a cell of this VC comes that gets this verdict and is due so many slots later; VC 0 for no cell.
   Answers the VC whose cell leaves, 0 for none. */
static uint32_t serve_with(policer *p, uint32_t vci, uint32_t due_in, uint32_t verdict) {
  uint8_t cell[CLURIMOON_CELL] = {0};
  clurimoon_served s;
  write_header(p, cell, vci);
  s = clurimoon_slot(p->record, p->cells, CLURIMOON_CELLS(p->n), p->links, CLURIMOON_LINKS(p->n), p->calendar,
                     CLURIMOON_CALENDAR(p->n), p->words, CLURIMOON_VCS(p->v), p->bits, CLURIMOON_BITS, p->arrived,
                     CLURIMOON_ARRIVED(p->n), cell, vci == 0 ? 0 : CLURIMOON_CELL);
  if (s.answer.number != CLURIMOON_DONE) fail(p, "a slot was refused");
  if (s.answer.verdict != (vci == 0 ? CLURIMOON_NOTHING : verdict)) fail(p, "a cell was not accepted, or not tagged");
  tagged += s.answer.verdict == CLURIMOON_TAGGED;
  if (s.answer.d != due_in) fail(p, "a cell is due in another slot");
  if (vci != 0 && s.answer.vci != (vci == 1 && has_path(p) ? p->v + PATH : vci)) fail(p, "a cell is of another connection");
  p->record = s.record;
  ++p->now, ++slots;
  if (s.answer.out_vci != p->v + PATH) return s.answer.out_vci;
  if (!has_path(p)) fail(p, "a cell of a path leaves that was not opened");
  return ++of_paths, 1;
}

static uint32_t serve(policer *p, uint32_t vci, uint32_t due_in) { return serve_with(p, vci, due_in, CLURIMOON_ACCEPTED); }

/* Both end before slot X. */
static void first_family(policer *p, uint32_t n) {
  uint32_t i;
  set_up(p, 1, n, n + 2);
  for (i = 1; i < n; ++i) open_vc(p, 1 + i, 0, 2 * n - i, 3 * n - 2 * i);
  open_vc(p, 1 + n, 0, 1, 1);
  for (i = 1; i < n; ++i) serve(p, 1 + i, 0);
  serve(p, 0, 0);
  for (i = 1; i < n; ++i) serve(p, 1 + i, n - i);
  serve(p, 1 + n, 0);
}

static void second_family(policer *p, uint32_t n) {
  uint32_t i, k = 1;
  uint8_t m = 0;
  while (k < n) k *= 2, ++m;
  set_up(p, 2, n, 4);
  open_vc(p, 2, m, k + 1, k + n * k);
  open_vc(p, 3, m, k, k);
  for (i = 0; i < n * k; ++i) serve(p, 2, i / k);
  for (i = 1; i < n; ++i) serve(p, 3, 0);
}

/* "1 + floor(((w + N - 1) × L - 1) / F)", and never more than w */
static uint64_t most_of(uint32_t n, const connection *c, uint64_t w) {
  const uint64_t bound = 1 + (((w + n - 1) << c->m) - 1) / c->f;
  return bound < w ? bound : w;
}

/* The most of these slots, which rise, that any w consecutive ones hold. */
static uint64_t fullest(const uint64_t *left, size_t count, uint64_t w) {
  uint64_t most = 0;
  size_t from = 0, to;
  for (to = 0; to < count; ++to) {
    while (left[to] - left[from] >= w) ++from;
    if (to - from + 1 > most) most = to - from + 1;
  }
  return most;
}

static void hold(const policer *p, const connection *c, const uint64_t *left, size_t count, uint64_t first, uint64_t w) {
  const uint64_t most = most_of(p->n, c, w);
  size_t held = 0;
  while (held < count && left[held] < first + w) ++held;
  if (held != most) fail(p, "w slots hold another number of cells than min(w, bound)");
  if (fullest(left, count, w) > most) fail(p, "w slots hold more cells than min(w, bound)");
  ++windows;
  if (most < w) ++fewer;
}

/* VC 1 with this connection, from slot X on. */
static void try_one(policer *p, const connection *c) {
  static uint64_t left[4 * MOST];
  const uint64_t n = p->n, x = p->now, first = x + n - 1;
  const uint64_t w[MOST_WINDOWS] = {1, 2, 3, 5, n / 3, n / 2, n - 1, n, n + 1, n + n / 2, 2 * n};
  uint64_t sent = 0;
  size_t count = 0, k;
  open_first(p, c);
  while (p->now < first + 2 * n + 5) {
    const uint64_t slot = p->now;
    const bool comes = slot == x + (sent * c->f >> c->m);
    const uint32_t verdict = !tags(p) || sent == 0 ? CLURIMOON_ACCEPTED : CLURIMOON_TAGGED;
    if (comes) ++sent;
    if (serve_with(p, comes ? 1 : 0, 0, verdict) == 1) left[count++] = slot;
  }
  if (count == 0 || left[0] != first) fail(p, "the first cell of VC 1 is not N-1 slots late");
  for (k = 0; k < MOST_WINDOWS; ++k)
    if (w[k] != 0) hold(p, c, left, count, first, w[k]);
  ++runs;
}

/* One cell in 1, in 2, in 2.5 and in 18.7 slots, and a rate near the line's that changes with N. C = F + L - 1 is what
   these arrivals may need. */
static void try_all(const policer *before) {
  static policer p;
  const uint8_t m = (uint8_t)(before->n % (CLURIMOON_M_MAX + 1));
  const uint32_t l = (uint32_t)1 << m, f = l + before->n % 7;
  const connection kinds[KINDS] = {{0, 1, 1}, {0, 2, 2}, {2, 10, 13}, {4, 299, 314}, {m, f, f + l - 1}};
  size_t k;
  for (k = 0; k < KINDS; ++k) memcpy(&p, before, sizeof p), try_one(&p, &kinds[k]);
}

int main(void) {
  static policer p;
  uint32_t n;
  for (n = CLURIMOON_N_MIN; n <= MOST; ++n) {
    const bool few = n + 2 <= CLURIMOON_V_MAX;
    if (few) first_family(&p, n), try_all(&p);
    if (!few || n <= 64) second_family(&p, n), try_all(&p);
  }
  printf("burst: every N from 1 to 1,024, %llu runs, %llu slots: the first cell of VC 1 exactly N-1 slots late in each; "
         "%llu windows hold exactly min(w, bound) cells, %llu of them fewer than w, and none holds more; %llu cells tagged, "
         "%llu sent of paths in VC 1's place\n",
         runs, slots, windows, fewer, tagged, of_paths);
  return 0;
}
