/*
 * include/clurimoon_policer.h beside the plain calls: the same archive twice, once
 * through the struct, in one block between two unreadable pages, and once through
 * six buffers and their lengths. After every call answers, records and all
 * memories are the same, in sound and in damaged states. Then how a block is divided
 * at every N, what is refused, the rates against 128-bit arithmetic, and the helpers
 * of clurimoon.h. The same file is compiled as C99 and as C++.
 *
 *   policer SEED CALLS
 */
#define _DEFAULT_SOURCE
#include <signal.h>
#include <stdint.h>
#include <stdio.h>
#include <stdlib.h>
#include <string.h>
#include <sys/mman.h>
#include <sys/wait.h>
#include <unistd.h>

#include "clurimoon_policer.h"

enum { filler = 0xa5, burst_slots = 40 };

static unsigned long checks, made, refused[17], damages;
static unsigned long waits, divisions; /* answers of next above 1; cards of two operators */
static unsigned long tallied; /* cells that a tally took */
static clurimoon_tally tally; /* of whatever connection was asked for: both sides take the same */
static uint32_t load; /* slots with a cell, in a hundred */
static unsigned now_n, now_v;
static const char *now_doing = "nothing";

static void fail(const char *what, int line) {
  printf("policer: FAILED, line %d, N %u, V %u, after %lu calls, in %s: %s\n", line, now_n, now_v, made, now_doing, what);
  exit(1);
}
#define CHECK(holds) ((holds) ? (void)++checks : fail(#holds, __LINE__))

static void on_fault(int number) {
  static char text[160];
  const int length = snprintf(text, sizeof text, "policer: FAILED, N %u, V %u, after %lu calls, in %s: signal %d (touched memory outside the block)\n",
                              now_n, now_v, made, now_doing, number);
  if (write(1, text, (size_t)length) < 0) _exit(3);
  _exit(2);
}

static uint64_t seed;
static uint32_t any(void) { /* 32 bits by chance */
  seed += 0x9e3779b97f4a7c15u;
  uint64_t x = seed;
  x = (x ^ x >> 30) * 0xbf58476d1ce4e5b9u;
  x = (x ^ x >> 27) * 0x94d049bb133111ebu;
  return (uint32_t)((x ^ x >> 31) >> 16);
}
static uint32_t below(uint32_t n) { return (uint32_t)((uint64_t)any() * n >> 32); }
static bool chance(uint32_t in_a_hundred) { return below(100) < in_a_hundred; }

/* Room for the greatest block, between two pages that may not be touched. */
static size_t page, room;
static uint8_t *fenced;
static void make_fence(void) {
  page = (size_t)sysconf(_SC_PAGESIZE);
  room = (CLURIMOON_POLICER_OCTETS(CLURIMOON_N_MAX, CLURIMOON_V_MAX) + page) / page * page;
  uint8_t *all = (uint8_t *)mmap(NULL, room + 2 * page, PROT_NONE, MAP_PRIVATE | MAP_ANONYMOUS, -1, 0);
  if ((void *)all == MAP_FAILED || mprotect(all + page, room, PROT_READ | PROT_WRITE) != 0) {
    perror("mmap");
    exit(2);
  }
  fenced = all + page;
}
/* A block that ends where its page ends, or begins where it begins; the rest is filled. */
static uint8_t *block_at(size_t octets, bool at_end) {
  memset(fenced, filler, room);
  return at_end ? fenced + room - octets : fenced;
}
static void rest_untouched(size_t octets, bool at_end) {
  const uint8_t *rest = at_end ? fenced : fenced + octets;
  for (size_t k = 0; k < room - octets; ++k)
    if (rest[k] != filler) fail("an octet outside the block was written", __LINE__);
  ++checks;
}

/* The fence bites: a careless read of one octet on either side ends a child process. */
static void fence_bites(void) {
  const size_t octets = CLURIMOON_POLICER_OCTETS(5, 64);
  for (int end = 0; end < 2; ++end) {
    const volatile uint8_t *block = block_at(octets, end != 0);
    fflush(stdout);
    const pid_t child = fork();
    if (child == 0) {
      signal(SIGSEGV, SIG_DFL);
      signal(SIGBUS, SIG_DFL);
      const uint8_t read = end ? block[octets] : *(block - 1);
      _exit(read == 1 ? 1 : 0);
    }
    int status = 0;
    CHECK(child > 0 && waitpid(child, &status, 0) == child && !WIFEXITED(status));
  }
}

/* The same policer by the plain calls. */
static struct {
  uint16_t n, v;
  clurimoon_record record;
  uint8_t cells[CLURIMOON_CELLS(CLURIMOON_N_MAX)];
  uint16_t links[CLURIMOON_LINKS(CLURIMOON_N_MAX)], calendar[CLURIMOON_CALENDAR(CLURIMOON_N_MAX)];
  uint32_t vcs[CLURIMOON_VCS(CLURIMOON_V_MAX)];
  uint64_t bits[CLURIMOON_BITS];
  uint32_t arrived[CLURIMOON_ARRIVED(CLURIMOON_N_MAX)];
} plain;
#define CONNECTIONS plain.vcs, CLURIMOON_VCS(plain.v)
#define MEMORIES                                                                                             \
  plain.cells, CLURIMOON_CELLS(plain.n), plain.links, CLURIMOON_LINKS(plain.n), plain.calendar,              \
      CLURIMOON_CALENDAR(plain.n), plain.vcs, CLURIMOON_VCS(plain.v), plain.bits, CLURIMOON_BITS,  \
      plain.arrived, CLURIMOON_ARRIVED(plain.n)

static bool same_record(const clurimoon_record *a, const clurimoon_record *b) { return memcmp(a, b, sizeof *a) == 0; }

static void same(const clurimoon_policer *policer) {
  ++made;
  CHECK(same_record(&policer->record, &plain.record));
  CHECK(memcmp(policer->cells, plain.cells, CLURIMOON_CELLS(plain.n)) == 0);
  CHECK(memcmp(policer->links, plain.links, sizeof(uint16_t) * CLURIMOON_LINKS(plain.n)) == 0);
  CHECK(memcmp(policer->calendar, plain.calendar, sizeof(uint16_t) * CLURIMOON_CALENDAR(plain.n)) == 0);
  CHECK(memcmp(policer->vcs, plain.vcs, sizeof(uint32_t) * CLURIMOON_VCS(plain.v)) == 0);
  CHECK(memcmp(policer->bits, plain.bits, sizeof plain.bits) == 0);
  CHECK(memcmp(policer->arrived, plain.arrived, sizeof(uint32_t) * CLURIMOON_ARRIVED(plain.n)) == 0);
}

static void same_number(uint16_t got, uint16_t expected) {
  CHECK(got == expected);
  CHECK(got < 17);
  ++refused[got];
}

/* One number changed on both sides: of the record, or somewhere in the memories. */
static void damage(clurimoon_policer *policer) {
  static const uint16_t odd[8] = {0, 1, 2, 64, 1023, 1024, 65534, 65535};
  const uint16_t value = chance(50) ? odd[below(8)] : (uint16_t)below(policer->record.n + 2u);
  size_t at;
  ++damages;
  switch (below(9)) {
  case 0: { /* a field of the record; t is two of them */
    uint16_t fields[sizeof(clurimoon_record) / 2];
    memcpy(fields, &plain.record, sizeof fields);
    fields[below(sizeof fields / sizeof fields[0])] = value;
    memcpy(&plain.record, fields, sizeof fields);
    memcpy(&policer->record, fields, sizeof fields);
    break;
  }
  case 1:
    at = below(plain.n);
    policer->links[at] = plain.links[at] = value;
    break;
  case 2:
    at = below(2u * plain.n);
    policer->calendar[at] = plain.calendar[at] = value;
    break;
  case 3:
    at = below((uint32_t)CLURIMOON_BITS);
    policer->bits[at] = plain.bits[at] ^= (uint64_t)1 << below(64);
    break;
  case 4:
    at = below((uint32_t)CLURIMOON_CELLS(plain.n));
    policer->cells[at] = plain.cells[at] = (uint8_t)any();
    break;
  case 5:
    at = below(plain.n);
    policer->arrived[at] = plain.arrived[at] = chance(50) ? any() : plain.record.t - below(70);
    break;
  default: /* a word of a connection, mostly of one that is in use */
    at = chance(90) ? 12u * (1 + below(plain.v < 6 ? plain.v - 1u : 5u)) + below(12) : below((uint32_t)CLURIMOON_VCS(plain.v));
    policer->vcs[at] = plain.vcs[at] = chance(50) ? value : any();
  }
}

static void make_cell(uint8_t *cell) {
  for (size_t k = 0; k < CLURIMOON_CELL; ++k) cell[k] = (uint8_t)any();
  const bool of_path = chance(30);
  clurimoon_put_header(cell, of_path ? 1 + below(3) : chance(2) ? any() : 0, chance(3) ? any() : 1 + below(plain.v < 6 ? plain.v : 6u), any(), any());
  if (chance(4)) memset(cell, 0, 5);
  clurimoon_put_hec(cell);
  if (chance(10)) cell[below(5)] ^= (uint8_t)(1u << below(8));
}

static clurimoon_rate any_rate(void) {
  clurimoon_rate rate;
  memset(&rate, 0, sizeof rate);
  if (chance(5)) rate.m = (uint8_t)any(), rate.f = any(), rate.c = any();
  else rate.m = (uint8_t)below(6), rate.f = (1u << rate.m) + below(3u << rate.m), rate.c = rate.f + below((uint32_t)plain.n << rate.m);
  if (chance(40)) rate.m2 = (uint8_t)below(6), rate.f2 = 1 + below(200), rate.c2 = rate.f2 + below(500), rate.tag = (uint8_t)below(chance(25) ? 3 : 2);
  return rate;
}

/* Of either operator, of nobody now and then, or named without one: which is then the second. */
static uint16_t any_owner(void) {
  return (uint16_t)(chance(5) ? any() : chance(30) ? 0u : 1u);
}
static clurimoon_connection any_connection(uint16_t owner) {
  const uint16_t number = chance(3) ? (uint16_t)any() : (uint16_t)below(7);
  const bool named = owner != CLURIMOON_OWNER_SECOND || chance(50);
  return chance(30) ? named ? clurimoon_path_of(owner, number) : clurimoon_path(number)
                    : named ? clurimoon_vc_of(owner, number) : clurimoon_vc(number);
}

/* The number of a connection, by the plain calls' rules. */
static uint16_t number_of(clurimoon_connection k) {
  if (k.path) return (uint16_t)(k.number < 1 || k.number > 255 ? 0 : plain.record.v + k.number);
  return (uint16_t)(k.number < plain.record.v ? k.number : 0);
}
/* Now and then it is one that is full, or that doesn't add up; it is begun anew before long. */
static void another_tally(void) {
  memset(&tally, 0, sizeof tally);
  if (chance(10)) tally.bins[below(64)] = tally.cells = (uint64_t)4294967296u - below(3);
  if (chance(10)) tally.bins[below(64)] += 1;
}
static void same_tally(const clurimoon_tally *got, const clurimoon_tally *expected) {
  CHECK(memcmp(got, expected, sizeof *got) == 0);
  tallied += expected->cells != tally.cells;
  tally = *expected;
}

static void one_call(clurimoon_policer *policer) {
  static uint8_t arrivals[CLURIMOON_ARRIVALS(burst_slots)], sizes[burst_slots];
  static uint8_t departures[CLURIMOON_DEPARTURES(burst_slots)], plain_departures[CLURIMOON_DEPARTURES(burst_slots)];
  static clurimoon_answer answers[burst_slots];
  static uint16_t plain_answers[CLURIMOON_ANSWERS(burst_slots)];
  static const uint8_t idle[CLURIMOON_CELL] = {0, 0, 0, 1, 0x52};
  uint8_t cell[CLURIMOON_CELL];
  const uint32_t which = below(100);
  if (which < 6) {
    now_doing = "open";
    const uint16_t owner = any_owner();
    const clurimoon_connection k = any_connection(owner);
    const clurimoon_rate r = any_rate();
    const uint16_t expected =
        k.path ? clurimoon_open_path(plain.record, CONNECTIONS, owner, k.number, r.m, r.f, r.c, r.m2, r.f2, r.c2, r.tag)
        : r.m2 == 0 && r.f2 == 0 && r.c2 == 0 && r.tag == 0
            ? clurimoon_open(plain.record, CONNECTIONS, owner, k.number, r.m, r.f, r.c)
            : clurimoon_open_sustained(plain.record, CONNECTIONS, owner, k.number, r.m, r.f, r.c, r.m2, r.f2, r.c2, r.tag);
    same_number(clurimoon_policer_open(policer, k, r), expected);
  } else if (which < 9) {
    now_doing = "close";
    const uint16_t owner = any_owner();
    const clurimoon_connection k = any_connection(owner);
    same_number(clurimoon_policer_close(policer, k), k.path ? clurimoon_close_path(plain.record, CONNECTIONS, owner, k.number)
                                                            : clurimoon_close(plain.record, CONNECTIONS, owner, k.number));
  } else if (which < 14) {
    now_doing = "burst";
    const size_t slots = below(burst_slots + 1);
    for (size_t k = 0; k < slots; ++k) make_cell(arrivals + CLURIMOON_ARRIVALS(k)), sizes[k] = chance(1) ? 52 : chance(load) ? 53 : 0;
    memset(departures, filler, sizeof departures), memset(plain_departures, filler, sizeof plain_departures);
    memset(answers, filler, sizeof answers), memset(plain_answers, filler, sizeof plain_answers);
    uint16_t number = 99;
    const bool ask = chance(90), tallies = chance(50);
    const clurimoon_connection k = any_connection(any_owner());
#define PLAIN_BURST                                                                                          \
  MEMORIES, arrivals, CLURIMOON_ARRIVALS(slots), sizes, slots, plain_departures, CLURIMOON_DEPARTURES(slots),  \
      plain_answers, CLURIMOON_ANSWERS(slots)
    clurimoon_burst_end end;
    size_t done;
    if (tallies) {
      clurimoon_tally kept = tally;
      now_doing = "burst_tallied";
      done = clurimoon_policer_burst_tallied(policer, &kept, k, arrivals, sizes, slots, departures, answers, ask ? &number : NULL);
      const clurimoon_burst_tally after = clurimoon_burst_tallied(tally, number_of(k), plain.record, PLAIN_BURST);
      same_tally(&kept, &after.tally);
      end = after.end;
      if (chance(30)) another_tally();
    } else {
      done = clurimoon_policer_burst(policer, arrivals, sizes, slots, departures, answers, ask ? &number : NULL);
      end = clurimoon_burst(plain.record, PLAIN_BURST);
    }
    plain.record = end.record;
    CHECK(done == end.done);
    if (ask) same_number(number, end.number);
    CHECK(memcmp(departures, plain_departures, sizeof departures) == 0);
    for (size_t k = 0; k < burst_slots; ++k) CHECK(memcmp(&answers[k], plain_answers + CLURIMOON_ANSWERS(k), sizeof answers[k]) == 0);
  } else if (which < 16) {
    now_doing = "audit";
    CHECK(clurimoon_policer_audit(policer) == clurimoon_audit(plain.record, MEMORIES));
  } else if (which < 19) {
    now_doing = "next";
    const clurimoon_wait wait = clurimoon_policer_next(policer);
    const clurimoon_wait expected = clurimoon_next(plain.record, plain.calendar, CLURIMOON_CALENDAR(plain.n), plain.bits, CLURIMOON_BITS);
    CHECK(wait.slots == expected.slots);
    same_number(wait.number, expected.number);
    if (wait.slots > 1) ++waits;
  } else {
    now_doing = "slot";
    const bool arrives = chance(load);
    make_cell(cell);
    const clurimoon_answer answer = clurimoon_policer_slot(policer, arrives ? cell : NULL);
    const clurimoon_served served = clurimoon_slot(plain.record, MEMORIES, arrives ? cell : NULL, arrives ? sizeof cell : 0);
    plain.record = served.record;
    CHECK(memcmp(&answer, &served.answer, sizeof answer) == 0);
    same_number(answer.number, served.answer.number);
    if (chance(40)) {
      now_doing = "tally";
      clurimoon_connection k = any_connection(any_owner());
      if (chance(60) && answer.out_vci != 0) k = answer.out_vci < plain.v ? clurimoon_vc(answer.out_vci) : clurimoon_path((uint16_t)(answer.out_vci - plain.v));
      clurimoon_tally kept = tally;
      const uint16_t number = clurimoon_policer_tally(policer, &kept, k, &answer);
      const clurimoon_tallied after = clurimoon_tally_slot(tally, plain.record, plain.arrived, CLURIMOON_ARRIVED(plain.n), number_of(k), answer.space, answer.out_vci);
      CHECK(clurimoon_policer_number(policer, k) == number_of(k));
      same_tally(&kept, &after.tally);
      same_number(number, after.number);
      const uint16_t share = (uint16_t)below(1010);
      same_number(clurimoon_percentile(kept, share).number, clurimoon_percentile(tally, share).number);
      if (chance(5)) another_tally();
    }
    now_doing = "line";
    clurimoon_answer asked = answer;
    if (chance(3)) asked.space = (uint16_t)any();
    const clurimoon_part part = clurimoon_line(plain.cells, CLURIMOON_CELLS(plain.n), idle, sizeof idle, asked.space);
    const uint8_t *got = clurimoon_policer_line(policer, &asked, idle);
    CHECK(part.length == 0 ? got == NULL : part.from_idle != 0 ? got == idle : got == policer->cells + part.start);
    CHECK(clurimoon_policer_line(policer, &asked, NULL) == (got == idle ? NULL : got));
  }
  same(policer);
}

/* A policer from its setup on, with now and then a changed number, and set up again. */
static void scenario(unsigned calls) {
  static const uint16_t many[6] = {1, 2, 5, 64, 76, 65};
  const uint16_t n = chance(90) ? many[below(6)] : (uint16_t)(1 + below(1024)), v = chance(90) ? (uint16_t)(2 + below(30)) : (uint16_t)(2 + below(1023));
  const size_t octets = clurimoon_policer_octets(n, v);
  const bool at_end = chance(50);
  uint8_t *block = block_at(octets, at_end);
  clurimoon_options options;
  clurimoon_policer policer;
  memset(&options, 0, sizeof options), memset(&policer, filler, sizeof policer);
  options.raw = chance(50), options.kind = (uint16_t)below(2);
  /* two operators, each with some of the connections that are used, or with VCs or paths alone; or one, by zeros */
  if (chance(40)) options.split_vci = (uint16_t)(1 + below(v < 8 ? v - 1u : 6u));
  if (chance(40)) options.split_path = (uint16_t)(1 + below(chance(80) ? 5 : 255));
  if (options.split_vci > 1 || options.split_path > 1) ++divisions;
  now_n = n, now_v = v, now_doing = "setup";
  plain.n = n, plain.v = v;
  memset(plain.cells, filler, sizeof plain.cells), memset(plain.links, filler, sizeof plain.links);
  memset(plain.calendar, filler, sizeof plain.calendar), memset(plain.vcs, filler, sizeof plain.vcs), memset(plain.bits, filler, sizeof plain.bits);
  memset(plain.arrived, filler, sizeof plain.arrived), another_tally();
  same_number(clurimoon_policer_setup(&policer, n, v, options, block, octets), CLURIMOON_DONE);
  const clurimoon_set set = clurimoon_setup(n, v, options.raw, options.kind, options.split_vci ? options.split_vci : 1,
                                            options.split_path ? options.split_path : 1, MEMORIES);
  plain.record = set.record;
  same(&policer);
  const unsigned damaged = chance(40) ? 5 : 0;
  load = chance(60) ? 80 : 10; /* with few cells the Output List is mostly empty, and the next departure some slots off */
  for (unsigned k = 0; k < calls; ++k) {
    if (chance(damaged)) damage(&policer);
    one_call(&policer);
    if (chance(1)) { /* the block is the same policer after a restart: other pointers, the saved record */
      const clurimoon_record saved = policer.record;
      memset(&policer, filler, sizeof policer);
      policer.record = saved;
      CHECK(clurimoon_policer_lend(&policer, n, v, block, octets) == CLURIMOON_DONE);
    }
  }
  rest_untouched(octets, at_end);
}

/* The six memories lie in the block, aligned, and one after the other: none overlaps another. */
static void divided(uint16_t n, uint16_t v, bool at_end) {
  const size_t octets = clurimoon_policer_octets(n, v);
  uint8_t *block = block_at(octets, at_end);
  clurimoon_options options;
  clurimoon_policer p;
  memset(&options, 0, sizeof options);
  now_n = n, now_v = v, now_doing = "setup";
  CHECK(octets == CLURIMOON_POLICER_OCTETS(n, v) && octets == 8 * CLURIMOON_POLICER_WORDS(n, v));
  CHECK(octets >= CLURIMOON_OCTETS(n, v) && octets < CLURIMOON_OCTETS(n, v) + 8);
  CHECK(clurimoon_policer_setup(&p, n, v, options, block, octets - 1) == CLURIMOON_REFUSED_LENGTH && p.cells == NULL);
  CHECK(clurimoon_policer_setup(&p, n, v, options, block, octets) == CLURIMOON_DONE);
  CHECK((uint8_t *)p.bits == block && p.bits_length == CLURIMOON_BITS && (uintptr_t)p.bits % 8 == 0);
  CHECK((uint8_t *)p.vcs == (uint8_t *)(p.bits + p.bits_length) && p.vcs_length == CLURIMOON_VCS(v) && (uintptr_t)p.vcs % 4 == 0);
  CHECK(p.arrived == p.vcs + p.vcs_length && p.arrived_length == CLURIMOON_ARRIVED(n));
  CHECK((uint8_t *)p.links == (uint8_t *)(p.arrived + p.arrived_length) && p.links_length == CLURIMOON_LINKS(n) && (uintptr_t)p.links % 2 == 0);
  CHECK(p.calendar == p.links + p.links_length && p.calendar_length == CLURIMOON_CALENDAR(n));
  CHECK((uint8_t *)(p.calendar + p.calendar_length) <= p.cells && p.cells_length == CLURIMOON_CELLS(n) && p.cells + p.cells_length == block + octets);
  CHECK(clurimoon_policer_audit(&p));
  rest_untouched(octets, at_end);
  ++made;
}

/* A refused setup leaves the block alone, and the struct refuses everything. */
static void refused_setup(uint16_t n, uint16_t v, uint16_t kind, uint16_t split_vci, uint16_t split_path, void *block, size_t octets,
                          uint16_t expected, int line) {
  clurimoon_options options;
  clurimoon_policer policer;
  clurimoon_rate rate;
  clurimoon_answer answer;
  uint16_t number = 99;
  uint8_t one[CLURIMOON_CELL] = {0}, size = 0;
  memset(&options, 0, sizeof options), memset(&policer, filler, sizeof policer), memset(&rate, 0, sizeof rate), memset(&answer, 0, sizeof answer);
  options.kind = kind, options.split_vci = split_vci, options.split_path = split_path, rate.f = 1, rate.c = 1;
  memset(fenced, filler, room);
  const uint16_t got = clurimoon_policer_setup(&policer, n, v, options, block, octets);
  if (got != expected) fail("another refusal of setup", line);
  for (size_t k = 0; k < room; ++k)
    if (fenced[k] != filler) fail("a refused setup has written", line);
  CHECK(policer.record.n == 0 && policer.record.v == 0 && policer.cells == NULL && policer.bits == NULL && policer.vcs_length == 0);
  CHECK(policer.arrived == NULL && policer.arrived_length == 0);
  CHECK(clurimoon_policer_open(&policer, clurimoon_vc(1), rate) == CLURIMOON_REFUSED_RANGE);
  CHECK(clurimoon_policer_close(&policer, clurimoon_path(1)) == CLURIMOON_REFUSED_RANGE);
  answer = clurimoon_policer_slot(&policer, one);
  CHECK(answer.number == CLURIMOON_REFUSED_RANGE && answer.space == CLURIMOON_NONE);
  CHECK(clurimoon_policer_burst(&policer, one, &size, 1, one, &answer, &number) == 0 && number == CLURIMOON_REFUSED_RANGE);
  CHECK(clurimoon_policer_line(&policer, &answer, one) == NULL && !clurimoon_policer_audit(&policer));
  CHECK(clurimoon_policer_next(&policer).number == CLURIMOON_REFUSED_RANGE && clurimoon_policer_next(&policer).slots == 0);
  clurimoon_tally none;
  memset(&none, 0, sizeof none);
  CHECK(clurimoon_policer_tally(&policer, &none, clurimoon_vc(1), &answer) == CLURIMOON_REFUSED_RANGE && none.cells == 0);
  CHECK(clurimoon_policer_burst_tallied(&policer, &none, clurimoon_path(1), one, &size, 1, one, &answer, &number) == 0 && number == CLURIMOON_REFUSED_RANGE);
  ++refused[got], ++made;
}

/* Zeros are one operator's whole card, and connections named without an operator are his; with two each has his own. */
static void owners(void) {
  static uint64_t block[CLURIMOON_POLICER_WORDS(5, 64)];
  clurimoon_policer policer;
  clurimoon_options options;
  clurimoon_rate rate;
  clurimoon_connection zeros;
  memset(&options, 0, sizeof options), memset(&rate, 0, sizeof rate), memset(&zeros, 0, sizeof zeros);
  rate.f = 1, rate.c = 1;
  now_doing = "owners";
  CHECK(clurimoon_policer_setup(&policer, 5, 64, options, block, sizeof block) == CLURIMOON_DONE);
  CHECK(policer.record.split_vci == 1 && policer.record.split_path == 1);
  for (uint16_t vci = 1; vci < 64; ++vci) {
    zeros.number = vci;
    CHECK(clurimoon_policer_open(&policer, clurimoon_vc_of(CLURIMOON_OWNER_FIRST, vci), rate) == CLURIMOON_REFUSED_NOT_OWNER);
    CHECK(clurimoon_policer_open(&policer, vci % 2 ? zeros : clurimoon_vc(vci), rate) == CLURIMOON_DONE);
    CHECK(clurimoon_policer_close(&policer, vci % 3 ? zeros : clurimoon_vc(vci)) == CLURIMOON_DONE);
  }
  zeros.path = true;
  for (uint16_t vpi = 1; vpi < 256; ++vpi) {
    zeros.number = vpi;
    CHECK(clurimoon_policer_open(&policer, clurimoon_path_of(CLURIMOON_OWNER_FIRST, vpi), rate) == CLURIMOON_REFUSED_NOT_OWNER);
    CHECK(clurimoon_policer_open(&policer, vpi % 2 ? zeros : clurimoon_path(vpi), rate) == CLURIMOON_DONE);
    CHECK(clurimoon_policer_close(&policer, vpi % 3 ? zeros : clurimoon_path(vpi)) == CLURIMOON_DONE);
  }
  options.split_vci = 32, options.split_path = 128;
  CHECK(clurimoon_policer_setup(&policer, 5, 64, options, block, sizeof block) == CLURIMOON_DONE);
  CHECK(policer.record.split_vci == 32 && policer.record.split_path == 128);
  for (uint32_t owner = 0; owner < 65536; owner += owner < 4 ? 1 : 4093)
    for (uint16_t number = 1; number < 256; ++number) {
      const clurimoon_connection vc = clurimoon_vc_of((uint16_t)owner, number), path = clurimoon_path_of((uint16_t)owner, number);
      const bool has_vc = owner == (number < 32 ? 0 : 1), has_path = owner == (number < 128 ? 0 : 1);
      CHECK(clurimoon_owner_of(vc) == owner && clurimoon_owner_of(path) == owner && !vc.path && path.path);
      CHECK(clurimoon_policer_close(&policer, vc) == (number > 63 ? CLURIMOON_REFUSED_VCI : has_vc ? CLURIMOON_REFUSED_NOT_OPEN : CLURIMOON_REFUSED_NOT_OWNER));
      CHECK(clurimoon_policer_close(&policer, path) == (has_path ? CLURIMOON_REFUSED_NOT_OPEN : CLURIMOON_REFUSED_NOT_OWNER));
    }
}

/* A connection's number: its own kind's range decides, so that no VCI and no VPI is taken for one of the other. */
static void numbers(void) {
  static uint64_t block[CLURIMOON_POLICER_WORDS(5, 64)];
  clurimoon_policer policer;
  clurimoon_options options;
  clurimoon_answer answer;
  clurimoon_tally kept;
  memset(&options, 0, sizeof options), memset(&answer, 0, sizeof answer), memset(&kept, 0, sizeof kept);
  now_doing = "numbers";
  CHECK(clurimoon_policer_setup(&policer, 5, 64, options, block, sizeof block) == CLURIMOON_DONE);
  for (uint32_t number = 0; number < 65536; ++number) {
    const clurimoon_connection vc = clurimoon_vc((uint16_t)number), path = clurimoon_path((uint16_t)number);
    const bool is_vc = number >= 1 && number < 64, is_path = number >= 1 && number < 256;
    CHECK(clurimoon_policer_number(&policer, vc) == (is_vc ? number : 0) && clurimoon_policer_number(&policer, path) == (is_path ? 64 + number : 0));
    CHECK(clurimoon_policer_tally(&policer, &kept, vc, &answer) == (is_vc ? CLURIMOON_DONE : CLURIMOON_REFUSED_VCI));
    CHECK(clurimoon_policer_tally(&policer, &kept, path, &answer) == (is_path ? CLURIMOON_DONE : CLURIMOON_REFUSED_VCI));
  }
  CHECK(kept.cells == 0);
}

static void refusals(void) {
  const size_t octets = clurimoon_policer_octets(5, 64);
  now_n = 5, now_v = 64, now_doing = "setup";
  refused_setup(0, 64, 0, 0, 0, fenced, room, CLURIMOON_REFUSED_RANGE, __LINE__);
  refused_setup(1025, 64, 0, 0, 0, fenced, room, CLURIMOON_REFUSED_RANGE, __LINE__);
  refused_setup(5, 1, 0, 0, 0, fenced, room, CLURIMOON_REFUSED_RANGE, __LINE__);
  refused_setup(5, 1025, 2, 0, 0, NULL, 0, CLURIMOON_REFUSED_RANGE, __LINE__);
  refused_setup(5, 64, 2, 64, 0, NULL, 0, CLURIMOON_REFUSED_RANGE, __LINE__);
  refused_setup(5, 64, 0, 65535, 1, fenced, octets, CLURIMOON_REFUSED_RANGE, __LINE__);
  refused_setup(5, 64, 2, 0, 256, NULL, 0, CLURIMOON_REFUSED_RANGE, __LINE__);
  refused_setup(5, 64, 0, 1, 65535, fenced, octets, CLURIMOON_REFUSED_RANGE, __LINE__);
  refused_setup(5, 64, 2, 63, 255, NULL, 0, CLURIMOON_REFUSED_KIND, __LINE__);
  refused_setup(5, 64, 2, 0, 0, NULL, 0, CLURIMOON_REFUSED_KIND, __LINE__);
  refused_setup(5, 64, 65535, 0, 0, fenced, octets, CLURIMOON_REFUSED_KIND, __LINE__);
  refused_setup(5, 64, 0, 0, 0, NULL, octets, CLURIMOON_REFUSED_LENGTH, __LINE__);
  refused_setup(5, 64, 1, 0, 0, fenced, octets - 1, CLURIMOON_REFUSED_LENGTH, __LINE__);
  refused_setup(5, 64, 0, 0, 0, fenced, 0, CLURIMOON_REFUSED_LENGTH, __LINE__);
  for (size_t k = 1; k < 8; ++k) refused_setup(5, 64, 0, 0, 0, fenced + k, room - k, CLURIMOON_REFUSED_LENGTH, __LINE__);
  CHECK(clurimoon_policer_octets(0, 2) == 0 && clurimoon_policer_octets(1025, 2) == 0 && clurimoon_policer_octets(1, 1) == 0);
  CHECK(clurimoon_policer_octets(1, 1025) == 0 && clurimoon_policer_octets(65535, 65535) == 0);
  CHECK(CLURIMOON_POLICER_WORDS(5, 64) * 8 == octets);

  /* a block with octets to spare, and a damaged N or V: the lengths are the struct's, so nothing beyond is read */
  clurimoon_policer policer;
  clurimoon_options options;
  memset(&options, 0, sizeof options);
  uint8_t *block = block_at(octets, false);
  CHECK(clurimoon_policer_setup(&policer, 5, 64, options, block, room) == CLURIMOON_DONE);
  rest_untouched(octets, false);
  block = block_at(octets, true);
  CHECK(clurimoon_policer_setup(&policer, 5, 64, options, block, octets) == CLURIMOON_DONE);
  for (uint16_t n = 0; n < 1100; ++n) {
    policer.record.n = n;
    CHECK(clurimoon_policer_slot(&policer, NULL).number == (n == 5 ? CLURIMOON_DONE : n >= 1 && n <= 1024 ? CLURIMOON_REFUSED_LENGTH : CLURIMOON_REFUSED_RANGE));
    CHECK(clurimoon_policer_audit(&policer) == (n == 5));
  }
  policer.record.n = 5;
  for (uint16_t v = 0; v < 1100; ++v) {
    policer.record.v = v;
    CHECK(clurimoon_policer_slot(&policer, NULL).number == (v == 64 ? CLURIMOON_DONE : v >= 2 && v <= 1024 ? CLURIMOON_REFUSED_LENGTH : CLURIMOON_REFUSED_RANGE));
    CHECK(clurimoon_policer_close(&policer, clurimoon_vc(1)) == (v == 64 ? CLURIMOON_REFUSED_NOT_OPEN : v >= 2 && v <= 1024 ? CLURIMOON_REFUSED_LENGTH : CLURIMOON_REFUSED_RANGE));
  }
  policer.record.v = 64;
  owners();
  numbers();
  /* 53 times so many slots don't fit into a size_t */
  uint8_t one[CLURIMOON_CELL] = {0};
  clurimoon_answer answer;
  uint16_t number = 99;
  CHECK(clurimoon_policer_burst(&policer, one, one, (size_t)-1, one, &answer, &number) == 0 && number == CLURIMOON_REFUSED_LENGTH);
  CHECK(clurimoon_policer_burst(&policer, one, one, (size_t)1 << (8 * sizeof(size_t) - 1), one, &answer, &number) == 0 && number == CLURIMOON_REFUSED_LENGTH);
  CHECK(clurimoon_policer_burst(&policer, NULL, NULL, 0, NULL, NULL, &number) == 0 && number == CLURIMOON_DONE);
  clurimoon_tally kept;
  memset(&kept, 0, sizeof kept);
  CHECK(clurimoon_policer_burst_tallied(&policer, &kept, clurimoon_vc(3), one, one, (size_t)-1, one, &answer, &number) == 0 && number == CLURIMOON_REFUSED_LENGTH);
  CHECK(clurimoon_policer_burst_tallied(&policer, &kept, clurimoon_vc(3), NULL, NULL, 0, NULL, NULL, &number) == 0 && number == CLURIMOON_DONE);
}

/* Rates, by docs/PLANNERS.md in 128 bits: of all m that fit, the largest. */
__extension__ typedef unsigned __int128 wide;

static bool largest(wide line, wide rate, wide micros, bool second, clurimoon_rate *found) {
  if (line == 0 || rate == 0 || line > CLURIMOON_RATE_MAX || rate > CLURIMOON_RATE_MAX) return false;
  bool some = false;
  for (unsigned m = 0; m <= 15; ++m) {
    const wide l = (wide)1 << m, f = l * line / rate, over = (l * micros * line + 423999999u) / 424000000u;
    const bool fits = second ? f >= 1 && f <= 16777216 && f + over <= 1073741824 : f >= l && f <= 16777216 && over / l <= 1023;
    if (!fits) continue;
    some = true;
    if (second) found->m2 = (uint8_t)m, found->f2 = (uint32_t)f, found->c2 = (uint32_t)(f + over);
    else found->m = (uint8_t)m, found->f = (uint32_t)f, found->c = (uint32_t)(f + over);
  }
  return some;
}

static unsigned long rates_made, rates_refused;
static uint64_t some_rate(uint64_t line) {
  switch (below(8)) {
  case 0: return 0;
  case 1: return line;
  case 2: return line + 1;
  case 3: return line / 16777216u + below(2);
  case 4: return line / 512u + below(2);
  case 5: return ((uint64_t)any() << 32 | any()) >> below(64);
  default: return line / (1 + below(2000)) + below(3);
  }
}
static uint32_t some_micros(uint64_t line, bool second) {
  /* around what is still taken: 1,024 slots, or 2^30 less F parts */
  const uint64_t slots = second ? 1073741824u : 1024u, most = line == 0 ? 0 : (uint64_t)((wide)slots * 424000000u / line);
  switch (below(5)) {
  case 0: return 0;
  case 1: return any();
  case 2: return (uint32_t)(most + below(3) - 1);
  default: return (uint32_t)((wide)most * below(1001) / 1000u);
  }
}

static void rates(unsigned long amount) {
  static const uint64_t lines[8] = {149760000, 599040000, 2396160000u, 9584640000u, 80000u * 424u, 96000u * 424u, 1, CLURIMOON_RATE_MAX};
  clurimoon_rate rate, expected, before;
  now_doing = "rates";
  /* docs/PLANNERS.md's example, with m as large as it goes; its m 4 gives F 299 and C 639 */
  memset(&rate, filler, sizeof rate);
  CHECK(clurimoon_rate_bits(&rate, CLURIMOON_MBPS(149.76), CLURIMOON_MBPS(8), 60) == CLURIMOON_DONE);
  CHECK(rate.m == 15 && rate.f >> 11 == 299 && rate.f == 613416 && clurimoon_rate_spaces(&rate) == 22);
  CHECK(rate.m2 == 0 && rate.f2 == 0 && rate.c2 == 0 && rate.tag == 0);
  /* other rows of its table */
  CHECK(rate.c == 1307851);
  CHECK(clurimoon_rate_bits(&rate, CLURIMOON_MBPS(149.76), CLURIMOON_MBPS(0.384), 500) == CLURIMOON_DONE);
  CHECK(rate.m == 15 && rate.f == 12779520 && rate.c == 18566473 && clurimoon_rate_spaces(&rate) == 177);
  CHECK(clurimoon_rate_bits(&rate, CLURIMOON_MBPS(149.76), CLURIMOON_MBPS(0.064), 1000) == CLURIMOON_DONE);
  CHECK(rate.m == 12 && rate.f == 9584640 && rate.c == 11031379 && clurimoon_rate_spaces(&rate) == 354);
  CHECK(CLURIMOON_MBPS(149.76) == 149760000 && CLURIMOON_MBPS(2.048) == 2048000);
  CHECK(clurimoon_rate_cells(&rate, 353208, 353208, 0) == CLURIMOON_DONE && rate.f == 32768 && rate.c == 32768 && clurimoon_rate_spaces(&rate) == 1);
  CHECK(clurimoon_rate_cells(&rate, CLURIMOON_RATE_MAX / 424 + 1, 1, 0) == CLURIMOON_REFUSED_RULES);
  CHECK(clurimoon_rate_cells(&rate, 1, CLURIMOON_RATE_MAX / 424 + 1, 0) == CLURIMOON_REFUSED_RULES);
  CHECK(clurimoon_rate_sustain_cells(&rate, CLURIMOON_RATE_MAX / 424 + 1, 1, 0, 1) == CLURIMOON_REFUSED_SECOND);
  /* 424 times these don't fit into 64 bits, and what is left of them would do */
  CHECK(clurimoon_rate_cells(&rate, ((uint64_t)1 << 61) + 1, 1, 0) == CLURIMOON_REFUSED_RULES);
  CHECK(clurimoon_rate_cells(&rate, 1, ((uint64_t)1 << 61) + 1, 0) == CLURIMOON_REFUSED_RULES);
  CHECK(clurimoon_rate_sustain_cells(&rate, ((uint64_t)1 << 61) + 1, 1, 0, 1) == CLURIMOON_REFUSED_SECOND);
  CHECK(clurimoon_rate_sustain_cells(&rate, 1, ((uint64_t)1 << 61) + 1, 0, 1) == CLURIMOON_REFUSED_SECOND);
  CHECK(clurimoon_rate_sustain_bits(&rate, 100, 50, 0, 2) == CLURIMOON_REFUSED_SECOND);
  rate.m = 16;
  CHECK(clurimoon_rate_spaces(&rate) == 0);
  rate.m = 0, rate.f = 5, rate.c = 4;
  CHECK(clurimoon_rate_spaces(&rate) == 0);
  for (unsigned long k = 0; k < amount; ++k) {
    const uint64_t line = chance(60) ? lines[below(8)] : chance(90) ? 1 + (((uint64_t)any() << 32 | any()) >> (24 + below(40))) : ((uint64_t)any() << 32 | any());
    const uint64_t bits = some_rate(line);
    const bool second = chance(50), by_cells = chance(30) && line % 424 == 0;
    const uint64_t asked = by_cells ? bits / 424 * 424 : bits;
    const uint32_t micros = some_micros(line, second);
    const uint8_t tag = (uint8_t)below(2);
    memset(&rate, filler, sizeof rate);
    expected = before = rate;
    const bool fits = largest(line, asked, micros, second, &expected);
    uint16_t number;
    if (second) {
      number = by_cells ? clurimoon_rate_sustain_cells(&rate, line / 424, asked / 424, micros, tag)
                        : clurimoon_rate_sustain_bits(&rate, line, asked, micros, tag);
      expected.tag = tag;
    } else {
      number = by_cells ? clurimoon_rate_cells(&rate, line / 424, asked / 424, micros) : clurimoon_rate_bits(&rate, line, asked, micros);
      expected.m2 = 0, expected.f2 = expected.c2 = 0, expected.tag = 0;
    }
    CHECK(number == (fits ? CLURIMOON_DONE : second ? CLURIMOON_REFUSED_SECOND : CLURIMOON_REFUSED_RULES));
    CHECK(memcmp(&rate, fits ? &expected : &before, sizeof rate) == 0);
    if (fits) ++rates_made;
    else ++rates_refused;
    if (fits && !second) CHECK(clurimoon_rate_spaces(&rate) >= 1 && clurimoon_rate_spaces(&rate) <= 1024);
  }
}

/* A customer who keeps to his peak, each cell as early as the tolerance allows, has no cell excess; the N that
   clurimoon_rate_spaces says is enough, and one less is not. */
static void customers(unsigned amount) {
  static uint64_t block[CLURIMOON_POLICER_WORDS(CLURIMOON_N_MAX, 2)];
  now_doing = "a customer at his peak";
  for (unsigned k = 0; k < amount; ++k) {
    clurimoon_options options;
    clurimoon_policer policer;
    clurimoon_rate rate;
    uint8_t cell[CLURIMOON_CELL] = {0};
    const uint64_t line = 149760000, peak = line / (1 + below(40)) - below(1000);
    const uint32_t micros = below(200);
    memset(&options, 0, sizeof options);
    CHECK(clurimoon_rate_bits(&rate, line, peak, micros) == CLURIMOON_DONE);
    const uint32_t spaces = clurimoon_rate_spaces(&rate);
    now_n = spaces;
    if (spaces > 1) {
      CHECK(clurimoon_policer_setup(&policer, (uint16_t)(spaces - 1), 2, options, block, sizeof block) == CLURIMOON_DONE);
      CHECK(clurimoon_policer_open(&policer, clurimoon_vc(1), rate) == CLURIMOON_REFUSED_RULES);
    }
    CHECK(clurimoon_policer_setup(&policer, (uint16_t)spaces, 2, options, block, sizeof block) == CLURIMOON_DONE);
    CHECK(clurimoon_policer_open(&policer, clurimoon_vc(1), rate) == CLURIMOON_DONE);
    clurimoon_put_header(cell, 0, 1, 0, 0);
    /* when the next cell is expected by what was agreed, in parts of 1/peak slot: it comes no earlier than the tolerance before */
    uint64_t expected = 0;
    for (uint64_t slot = 0; slot < 3000; ++slot) {
      const bool may = (wide)slot * peak * 424000000u + (wide)micros * line * peak >= (wide)expected * 424000000u;
      const bool comes = may && chance(80);
      const clurimoon_answer answer = clurimoon_policer_slot(&policer, comes ? cell : NULL);
      CHECK(answer.number == CLURIMOON_DONE && answer.verdict == (comes ? CLURIMOON_ACCEPTED : CLURIMOON_NOTHING));
      if (comes) expected = (slot * peak > expected ? slot * peak : expected) + line;
    }
    ++made;
  }
}

/* The helpers of clurimoon.h. */
static void helpers(void) {
  uint8_t cell[CLURIMOON_CELL];
  now_doing = "helpers";
  memset(cell, filler, sizeof cell);
  clurimoon_put_header(cell, 0, 40, 0, 0);
  CHECK(cell[0] == 0 && cell[1] == 0 && cell[2] == 2 && cell[3] == 0x80 && cell[4] == filler && cell[5] == filler);
  clurimoon_put_hec(cell);
  CHECK(cell[4] == 0xf6 && cell[5] == filler);
  clurimoon_put_header(cell, 4095, 65535, 7, 1);
  CHECK(cell[0] == 255 && cell[1] == 255 && cell[2] == 255 && cell[3] == 255);
  clurimoon_put_header(cell, 4096, 65536, 8, 2);
  CHECK(cell[0] == 0 && cell[1] == 0 && cell[2] == 0 && cell[3] == 0);
  clurimoon_put_hec(cell);
  CHECK(cell[4] == 0x55);
  for (unsigned k = 0; k < 20000; ++k) {
    const unsigned vpi = below(4096), vci = below(65536), pti = below(8), clp = below(2);
    clurimoon_put_header(cell, vpi, vci, pti, clp);
    CHECK(cell[0] * 16u + cell[1] / 16u == vpi && cell[1] % 16u * 4096u + cell[2] * 16u + cell[3] / 16u == vci);
    CHECK(cell[3] / 2u % 8u == pti && cell[3] % 2u == clp);
  }
  /* a raw policer finds octet 5 right, and with any one bit of it turned wrong */
  static uint64_t block[CLURIMOON_POLICER_WORDS(1, 2)];
  clurimoon_policer raw;
  clurimoon_options options;
  memset(&options, 0, sizeof options);
  options.raw = true;
  CHECK(clurimoon_policer_setup(&raw, 1, 2, options, block, sizeof block) == CLURIMOON_DONE);
  for (unsigned k = 0; k < 20000; ++k) {
    clurimoon_put_header(cell, any(), any(), any(), any());
    clurimoon_put_hec(cell);
    CHECK(clurimoon_policer_slot(&raw, cell).verdict != CLURIMOON_DROPPED && raw.record.mode == CLURIMOON_CORRECTION);
    cell[4] ^= (uint8_t)(1u << k % 8);
    CHECK(clurimoon_policer_slot(&raw, cell).number == CLURIMOON_DONE && raw.record.mode == CLURIMOON_DETECTION);
  }
  /* no call gives 14; all other numbers have each their own words */
  const char *const none = clurimoon_text(65535);
  CHECK(strcmp(clurimoon_text(14), none) == 0 && strcmp(clurimoon_text(17), none) == 0);
  for (unsigned number = 0; number <= 16; ++number) {
    const char *words = clurimoon_text(number);
    CHECK(words != NULL && words[0] != 0);
    if (number == 14) continue;
    CHECK(strcmp(words, none) != 0);
    for (unsigned k = 0; k < number; ++k) CHECK(strcmp(clurimoon_text(k), words) != 0);
  }
  CHECK(CLURIMOON_CELL_LENGTH == CLURIMOON_REFUSED_CELL_LENGTH && CLURIMOON_KIND == CLURIMOON_REFUSED_KIND && CLURIMOON_STORED == CLURIMOON_REFUSED_STORED);
  CHECK(CLURIMOON_NOT_OWNER == CLURIMOON_REFUSED_NOT_OWNER && CLURIMOON_SHARE == CLURIMOON_REFUSED_SHARE);
}

int main(int words, char **word) {
  const unsigned long calls = words > 2 ? strtoul(word[2], NULL, 10) : 100000;
  seed = words > 1 ? strtoul(word[1], NULL, 10) : 1992;
  signal(SIGSEGV, on_fault);
  signal(SIGBUS, on_fault);
  make_fence();
  fence_bites();
  helpers();
  refusals();
  for (uint16_t n = 1; n <= CLURIMOON_N_MAX; ++n) {
    divided(n, n % 3 == 0 ? 2 : (uint16_t)(2 + (n * 7u) % 1023u), n % 2 == 0);
    divided(n, CLURIMOON_V_MAX, n % 2 != 0);
  }
  for (uint16_t v = 2; v <= CLURIMOON_V_MAX; ++v) divided((uint16_t)(1 + v % 9), v, true);
  rates(200000);
  customers(200);
  while (made < calls) scenario(50 + below(400));
  for (unsigned number = 0; number <= 16; ++number)
    if (number != 10 && number != 12 && number != 14 && refused[number] == 0) {
      printf("policer: FAILED: number %u was never met\n", number);
      return 1;
    }
  if (waits == 0 || divisions == 0 || tallied == 0) {
    printf("policer: FAILED: %s\n", waits == 0 ? "no answer of next was above 1" : divisions == 0 ? "no card had two operators" : "no cell was tallied");
    return 1;
  }
  printf("policer: %s %lu calls through the struct and through the plain calls, %lu numbers damaged: same answers, records and memories; %lu cards of two operators; %lu tallies grew alike; "
         "blocks at every N between guard pages; %lu rates made and %lu refused as in 128 bits; %lu checks\n",
#ifdef __cplusplus
         "C++,",
#else
         "C,",
#endif
         made, damages, divisions, tallied, rates_made, rates_refused, checks);
  return 0;
}
