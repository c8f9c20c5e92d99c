/*
 * Drives the forms of the slot path through the same traffic.
 *
 *   drive count FORM N V LOAD SLOTS [TRAFFIC]
 *                                        one form, for callgrind; prints a sum over answers, departures and memory
 *   drive time N V LOAD SLOTS REPEATS [TRAFFIC]
 *                                        all forms in turns; fails where the sums differ before or after; prints for each
 *                                        form the median, the least and the quartiles of nanoseconds a slot, and the
 *                                        median over the rounds of the archive's time to the C's
 *
 * LOAD is in percent. SLOTS is a multiple of 64, the length of a burst. TRAFFIC is plain, sustained (every second VC has a
 * second bucket), paths (the line is an NNI, and one path carries half of the cells), raw (the header check comes in front),
 * storm, unknown or empty; plain where it is left out.
 */
#define _POSIX_C_SOURCE 199309L
#include <stdio.h>
#include <stdlib.h>
#include <string.h>
#include <time.h>

#include "slots.h"
#include "traffic.h"

enum { block = 64, forms = 6, most_repeats = 1001 };
static const char *const names[forms] = {"trusting_slot",  "checking_slot",  "clurimoon_slot",
                                         "trusting_burst", "checking_burst", "clurimoon_burst"};
static const char *const kind_names[kinds] = {"plain", "sustained", "paths", "raw", "storm", "unknown", "empty"};

/* A policer of its own for each form: record, memories and what its bursts give back. */
typedef struct {
  clurimoon_record record;
  lent_memory lent;
  uint8_t cells[53 * 1024], *departures;
  uint16_t links[1024], calendar[2048], *answers;
  uint32_t vcs[CLURIMOON_VCS(1024)];
  uint64_t bits[CLURIMOON_BITS];
  uint32_t arrived[1024];
} policer;
static policer policers[forms];
static uint8_t *arrivals, *sizes;
static size_t slots;
static unsigned n, v, load;
static traffic kind;
static int show_cells; /* whether the departing cells of slots by themselves are taken down, too */

static void fail(const char *what) { fprintf(stderr, "bench: FAILED, %s\n", what), exit(1); }

static void *room(size_t octets) {
  void *got = calloc(octets, 1);
  if (got == NULL) fail("no memory");
  return got;
}

/* C by rule 6: a tolerance of at most N-1 slots. The traffic is made for N 76, and below that more of it is excess. */
static uint32_t capped(contract k) {
  const uint32_t most = k.f + (uint32_t)((n << k.m) - 1);
  return k.c < most ? k.c : most;
}

static void begin(policer *p) {
  p->lent = (lent_memory){p->cells, p->links, p->calendar, p->vcs, p->bits, p->arrived, 53 * n, n, 2 * n, CLURIMOON_VCS(v), CLURIMOON_BITS, n};
  const clurimoon_set set =
      clurimoon_setup((uint16_t)n, (uint16_t)v, kind == raw_line, kind == with_path ? CLURIMOON_NNI : CLURIMOON_UNI, 1, 1, p->cells, 53 * n,
                      p->links, n, p->calendar, 2 * n, p->vcs, CLURIMOON_VCS(v), p->bits, CLURIMOON_BITS, p->arrived, n);
  if (set.number != 0) fail("setup");
  p->record = set.record;
  const contract path = contract_of_path();
  if (kind == with_path && clurimoon_open_path(p->record, p->vcs, CLURIMOON_VCS(v), 1, the_path, path.m, path.f, capped(path), 0, 0, 0, 0) != 0)
    fail("open_path");
  for (unsigned vci = 1; vci < v; ++vci) {
    const contract k = contract_of(vci, v, kind);
    if (k.open && clurimoon_open_sustained(p->record, p->vcs, CLURIMOON_VCS(v), 1, (uint16_t)vci, k.m, k.f, capped(k), k.m2, k.f2, k.c2, k.tag) != 0)
      fail("open");
  }
  p->departures = room(53 * slots), p->answers = room(6 * sizeof(uint16_t) * slots);
}


static void show(policer *p, size_t k) {
  const uint16_t space = p->answers[6 * k + CLURIMOON_ANSWER_SPACE];
  if (space != CLURIMOON_NONE) memcpy(p->departures + 53 * k, p->cells + 53 * space, 53);
}

#define SLOTS_BY(name, call)                                                                                           \
  static void name(policer *p) {                                                                                       \
    for (size_t k = 0; k < slots; ++k) {                                                                               \
      call(&p->record, &p->lent, arrivals + 53 * k, sizes[k], (clurimoon_answer *)(p->answers + 6 * k));               \
      if (show_cells) show(p, k);                                                                                      \
    }                                                                                                                  \
  }
SLOTS_BY(by_trusting_slot, trusting_slot)
SLOTS_BY(by_checking_slot, checking_slot)

#define BURSTS_BY(name, call)                                                                                          \
  static void name(policer *p) {                                                                                       \
    for (size_t k = 0; k < slots; k += block) {                                                                        \
      const lent_burst b = {arrivals + 53 * k, sizes + k, p->departures + 53 * k, p->answers + 6 * k,                  \
                            53 * block,        block,     53 * block,             6 * block};                          \
      if (call(&p->record, &p->lent, &b).number != 0) fail("a burst was refused");                                     \
    }                                                                                                                  \
  }
BURSTS_BY(by_trusting_burst, trusting_burst)
BURSTS_BY(by_checking_burst, checking_burst)

#define MEMORY p->cells, 53 * n, p->links, n, p->calendar, 2 * n, p->vcs, CLURIMOON_VCS(v), p->bits, CLURIMOON_BITS, p->arrived, n
static void by_clurimoon_slot(policer *p) {
  for (size_t k = 0; k < slots; ++k) {
    const clurimoon_served s = clurimoon_slot(p->record, MEMORY, arrivals + 53 * k, sizes[k]);
    p->record = s.record;
    memcpy(p->answers + 6 * k, &s.answer, sizeof s.answer);
    if (show_cells) show(p, k);
  }
}
static void by_clurimoon_burst(policer *p) {
  for (size_t k = 0; k < slots; k += block) {
    const clurimoon_burst_end e = clurimoon_burst(p->record, MEMORY, arrivals + 53 * k, 53 * block, sizes + k, block,
                                                  p->departures + 53 * k, 53 * block, p->answers + 6 * k, 6 * block);
    if (e.number != 0) fail("a burst was refused");
    p->record = e.record;
  }
}
static void (*const serve_by[forms])(policer *) = {by_trusting_slot,  by_checking_slot,  by_clurimoon_slot,
                                                   by_trusting_burst, by_checking_burst, by_clurimoon_burst};

static uint64_t sum;
static void add(const void *data, size_t octets) {
  const uint8_t *octet = data;
  while (octets-- > 0) sum = (sum ^ *octet++) * 1099511628211u;
}
/* Over answers, departing cells, record and all memory. */
static uint64_t sum_of(const policer *p) {
  const clurimoon_record *r = &p->record;
  const uint32_t numbers[13] = {r->n,   r->v,    r->t,    r->T,         r->rotation, r->free, r->out_head, r->out_tail,
                                r->raw, r->mode, r->kind, r->split_vci, r->split_path};
  sum = 14695981039346656037u;
  add(p->answers, 12 * slots), add(p->departures, 53 * slots);
  add(numbers, sizeof numbers), add(p->cells, 53 * n), add(p->links, 2 * n), add(p->calendar, 4 * n);
  add(p->vcs, 4 * CLURIMOON_VCS(v)), add(p->bits, 8 * CLURIMOON_BITS), add(p->arrived, 4 * n);
  return sum;
}

/* What the traffic was like; no slot of it may be refused. */
static void tally(const policer *p) {
  unsigned long verdicts[8] = {0}, sent = 0, busy = 0, delayed = 0, worst = 0, of_path = 0;
  for (size_t k = 0; k < slots; ++k) {
    const uint16_t *a = p->answers + 6 * k;
    if (a[0] != 0) fail("a slot was refused");
    verdicts[a[1] & 7] += 1, sent += a[4] != CLURIMOON_NONE, busy += sizes[k] != 0, delayed += a[3] != 0;
    of_path += a[1] != CLURIMOON_UNKNOWN && a[2] == v + the_path;
    if (a[3] > worst) worst = a[3];
  }
  const double part = 100.0 / (double)slots;
  printf("of 100 slots: cells %.1f, accepted %.1f and tagged %.1f (D above 0: %.1f, greatest %lu), excess %.1f, unknown %.1f, dropped %.2f, sent %.1f, of the path %.1f\n",
         busy * part, verdicts[1] * part, verdicts[5] * part, delayed * part, worst, verdicts[2] * part, verdicts[3] * part,
         verdicts[4] * part, sent * part, of_path * part);
}

static unsigned place_of(const char *name, const char *const *all, unsigned count) {
  for (unsigned place = 0; place < count; ++place)
    if (strcmp(all[place], name) == 0) return place;
  fprintf(stderr, "%s: ", name), fail("no such form or traffic");
  return 0;
}

static uint64_t clock_ns(void) {
  struct timespec now;
  clock_gettime(CLOCK_MONOTONIC, &now);
  return (uint64_t)now.tv_sec * 1000000000u + (uint64_t)now.tv_nsec;
}
static int by_size(const void *a, const void *b) {
  const double x = *(const double *)a, y = *(const double *)b;
  return (x > y) - (x < y);
}

static void agree(void) {
  const uint64_t first = sum_of(policers);
  for (int form = 1; form < forms; ++form)
    if (sum_of(policers + form) != first) fprintf(stderr, "%s: ", names[form]), fail("answers, departures or memory differ");
}

static void time_all(unsigned repeats) {
  static double each[forms][most_repeats];
  show_cells = 1;
  for (int form = 0; form < forms; ++form) begin(policers + form), serve_by[form](policers + form);
  agree();
  tally(policers);
  show_cells = 0;
  for (unsigned r = 0; r < repeats; ++r) {
    for (unsigned turn = 0; turn < forms; ++turn) {
      const unsigned form = (turn + r) % forms; /* each form follows each in turn */
      const uint64_t from = clock_ns();
      serve_by[form](policers + form);
      each[form][r] = (double)(clock_ns() - from) / (double)slots;
    }
  }
  show_cells = 1;
  for (int form = 0; form < forms; ++form)
    memset(policers[form].departures, 0, 53 * slots), serve_by[form](policers + form);
  agree();
  static double ratio[most_repeats];
  for (int ours = 2; ours < forms; ours += 3)
    for (int other = ours - 2; other < ours; ++other) {
      for (unsigned r = 0; r < repeats; ++r) ratio[r] = each[ours][r] / each[other][r];
      qsort(ratio, repeats, sizeof *ratio, by_size);
      printf("%s/%s %.3f\n", names[ours], names[other], ratio[repeats / 2]);
    }
  for (int form = 0; form < forms; ++form) {
    double *e = each[form];
    qsort(e, repeats, sizeof *e, by_size);
    printf("%s %.2f %.2f %.2f %.2f\n", names[form], e[repeats / 2], e[0], e[repeats / 4], e[repeats * 3 / 4]);
  }
}

int main(int count, char **arguments) {
  const int counting = count > 1 && strcmp(arguments[1], "count") == 0;
  if ((count != 7 && count != 8) || (!counting && strcmp(arguments[1], "time") != 0))
    return fprintf(stderr, "drive count FORM N V LOAD SLOTS [TRAFFIC] | drive time N V LOAD SLOTS REPEATS [TRAFFIC]\n"), 2;
  if (count == 8) kind = (traffic)place_of(arguments[7], kind_names, kinds);
  char **sizes_of = arguments + (counting ? 3 : 2);
  n = (unsigned)atoi(sizes_of[0]), v = (unsigned)atoi(sizes_of[1]), load = (unsigned)atoi(sizes_of[2]);
  slots = (size_t)atol(sizes_of[3]);
  if (slots == 0 || slots % block != 0) fail("SLOTS is not a multiple of 64");
  sizes = room(slots), arrivals = room(53 * slots);
  make_traffic(v, load, kind, slots, sizes, arrivals);
  if (counting) {
    const unsigned form = place_of(arguments[2], names, forms);
    policer *p = policers + form;
    show_cells = 1;
    begin(p), serve_by[form](p);
    printf("%016llx\n", (unsigned long long)sum_of(p));
    tally(p);
  } else {
    const unsigned repeats = (unsigned)atoi(arguments[6]);
    if (repeats < 1 || repeats > most_repeats) fail("REPEATS");
    time_all(repeats);
  }
  return 0;
}
