/*
 * The incident: a routine that loaded the last row of a table whole read past the
 * end of its buffer, and took the cards down where no memory followed. Here every
 * lent buffer ends exactly at an unreadable page, and then begins exactly after
 * one, for every N from 1 to 1,024, while setup, opens, slots at full load, bursts,
 * line, audit, the call for the next departure and the tally of delays run, with VCs
 * and paths, at both line kinds. An octet read outside
 * a buffer ends the program; an octet written on its free side is found by comparing
 * what was put there. The words of path 255 end where the buffer ends.
 *
 * A routine like that one is run in a child process on the same buffers and must
 * fault, so that the test is known to bite.
 */
#define _DEFAULT_SOURCE
#include <signal.h>
#include <stdbool.h>
#include <stdint.h>
#include <stdio.h>
#include <stdlib.h>
#include <string.h>
#include <sys/mman.h>
#include <sys/wait.h>
#include <unistd.h>

#include "clurimoon.h"

enum { slots_in_burst = 24, filler = 0xa5 };

/* Pages that may be touched, between two that may not. */
struct fence {
  uint8_t *start;
  size_t room;
  uint8_t *lent;
  size_t octets;
};

static size_t page;
static bool at_end; /* buffers end at an unreadable page, or begin after one */
static unsigned now_n, now_v;
static bool raw; /* the policer checks headers */
static uint16_t kind;
static uint16_t split_vci, split_path; /* what is the second operator's from here on */

enum { rounds = 4, damages = 16 };
static const char *now_doing = "nothing";

static void fail(const char *what) {
  printf("guard: FAILED: N %u, V %u%s%s, %s, in %s: %s\n", now_n, now_v, raw ? ", raw" : "", kind ? ", NNI" : "",
         at_end ? "buffers end at a guard page" : "buffers begin after a guard page", now_doing, what);
  exit(1);
}

static void on_fault(int number) {
  static char text[200];
  int length = snprintf(
      text, sizeof text,
      "guard: FAILED: N %u, V %u%s%s, %s, in %s: signal %d (touched memory that was not lent)\n", now_n, now_v,
      raw ? ", raw" : "", kind ? ", NNI" : "", at_end ? "buffers end at a guard page" : "buffers begin after a guard page",
      now_doing, number);
  if (write(1, text, (size_t)length) < 0) _exit(3);
  _exit(2);
}

static struct fence make_fence(size_t most) {
  struct fence f;
  f.room = (most + page - 1) / page * page;
  if (f.room == 0) f.room = page;
  uint8_t *all = mmap(NULL, f.room + 2 * page, PROT_NONE, MAP_PRIVATE | MAP_ANONYMOUS, -1, 0);
  if (all == MAP_FAILED || mprotect(all + page, f.room, PROT_READ | PROT_WRITE) != 0) {
    perror("mmap");
    exit(2);
  }
  f.start = all + page;
  f.lent = f.start, f.octets = 0;
  memset(f.start, filler, f.room);
  return f;
}

/* Lends so many octets of it. None at all: the pointer is to the unreadable page. */
static void *lend(struct fence *f, size_t octets) {
  f->octets = octets;
  f->lent = at_end ? f->start + f->room - octets : f->start;
  if (octets == 0) f->lent = at_end ? f->start + f->room : f->start - page;
  memset(f->start, filler, f->room);
  return f->lent;
}

/* What lies on the other side of the buffer must be as it was. */
static void untouched(const struct fence *f, const char *name) {
  const uint8_t *from = at_end ? f->start : f->start + f->octets;
  const uint8_t *to = at_end ? f->start + f->room - f->octets : f->start + f->room;
  for (; from < to; ++from)
    if (*from != filler) fail(name);
}

static struct fence cells_fence, links_fence, calendar_fence, vcs_fence, bits_fence, arrived_fence, cell_fence, idle_fence;
static struct fence arrivals_fence, sizes_fence, departures_fence, answers_fence;

static uint8_t *cells, *cell, *idle, *arrivals, *sizes, *departures;
static uint16_t *links, *calendar, *answers;
static uint32_t *vcs, *arrived;
static uint64_t *bits;
static clurimoon_tally tally; /* of the last path at the NNI, of the last VC at the UNI: the delays of its cells */
static unsigned long long slots_served, cells_tallied, cells_sent, calls_made, refused, mended, dropped, tagged, not_sustained;
static unsigned long long of_paths[2];
static unsigned greatest_space, greatest_d, greatest_wait;

static void make_fences(void) {
  cells_fence = make_fence(CLURIMOON_CELLS(1024)), links_fence = make_fence(2 * 1024);
  calendar_fence = make_fence(4 * 1024), vcs_fence = make_fence(4 * CLURIMOON_VCS(1024));
  bits_fence = make_fence(8 * CLURIMOON_BITS), arrived_fence = make_fence(4 * CLURIMOON_ARRIVED(1024));
  cell_fence = make_fence(53), idle_fence = make_fence(53);
  arrivals_fence = make_fence(53 * slots_in_burst), sizes_fence = make_fence(slots_in_burst);
  departures_fence = make_fence(53 * slots_in_burst), answers_fence = make_fence(12 * slots_in_burst);
}

static void lend_all(unsigned n, unsigned v) {
  cells = lend(&cells_fence, CLURIMOON_CELLS(n));
  links = lend(&links_fence, 2 * CLURIMOON_LINKS(n));
  calendar = lend(&calendar_fence, 2 * CLURIMOON_CALENDAR(n));
  vcs = lend(&vcs_fence, 4 * CLURIMOON_VCS(v));
  bits = lend(&bits_fence, 8 * CLURIMOON_BITS);
  arrived = lend(&arrived_fence, 4 * CLURIMOON_ARRIVED(n));
  cell = lend(&cell_fence, 53), idle = lend(&idle_fence, 53);
  arrivals = lend(&arrivals_fence, 53 * slots_in_burst), sizes = lend(&sizes_fence, slots_in_burst);
  departures = lend(&departures_fence, 53 * slots_in_burst);
  answers = lend(&answers_fence, 12 * slots_in_burst);
}

static void all_untouched(void) {
  untouched(&cells_fence, "written beside the cell memory"),
      untouched(&links_fence, "written beside the links");
  untouched(&calendar_fence, "written beside the calendar"),
      untouched(&vcs_fence, "written beside the VC words");
  untouched(&bits_fence, "written beside the bits"), untouched(&arrived_fence, "written beside the arrival slots");
  untouched(&cell_fence, "written beside the cell"), untouched(&idle_fence, "written beside the idle cell");
  untouched(&arrivals_fence, "written beside the arrivals"),
      untouched(&sizes_fence, "written beside the sizes");
  untouched(&departures_fence, "written beside the departures"),
      untouched(&answers_fence, "written beside the answers");
}

/* A cell of the connection with this number: of a path with any VCI, and at the UNI with any GFC. */
static void write_cell(uint8_t *to, unsigned connection, unsigned mark) {
  const unsigned vpi = connection > now_v ? connection - now_v : 0, vci = vpi ? mark * 977 % 65536 : connection;
  memset(to, (int)(mark & 255), 53);
  to[0] = (uint8_t)(vpi >> 4 | (kind == CLURIMOON_UNI ? (mark & 15) << 4 : 0));
  to[1] = (uint8_t)((vpi & 15) << 4 | vci >> 12), to[2] = (uint8_t)(vci >> 4), to[3] = (uint8_t)((vci & 15) << 4);
  if (!raw) return;
  unsigned rest = 0; /* octet 5, by long division */
  for (unsigned k = 0; k < 40; ++k) {
    rest = rest << 1 | (k < 32 ? to[k / 8] >> (7 - k % 8) & 1u : 0);
    if (rest & 256) rest ^= 0x107;
  }
  to[4] = (uint8_t)(rest ^ 0x55);
}

/* One header bit wrong now and then, at each of forty places in turn, and two more seldom. */
static unsigned damage_header(uint8_t *to, unsigned mark) {
  const unsigned wrong = !raw ? 0 : mark % 5 == 3 ? 1 : mark % 23 == 22 ? 2 : 0;
  for (unsigned k = 0; k < wrong; ++k) {
    const unsigned bit = (mark / 5 + 11 * k) % 40;
    to[bit / 8] = (uint8_t)(to[bit / 8] ^ 128 >> bit % 8);
  }
  return wrong;
}

#define MEMORY                                                                                               \
  cells, CLURIMOON_CELLS(n), links, CLURIMOON_LINKS(n), calendar, CLURIMOON_CALENDAR(n), vcs, CLURIMOON_VCS(v), \
      bits, CLURIMOON_BITS, arrived, CLURIMOON_ARRIVED(n)

/* What the check makes of a cell with so many wrong bits: mended, dropped, or let through as it is. */
static void judge_check(unsigned verdict, unsigned mode, unsigned wrong, bool lent) {
  const bool drops = lent && (wrong > 1 || (wrong == 1 && mode == CLURIMOON_DETECTION));
  if ((verdict == CLURIMOON_DROPPED) != drops) fail("the header check took a cell otherwise");
  dropped += drops, mended += lent && wrong == 1 && !drops;
}

/* The last VC and the last path tag what is above their sustainable rate, no other does; of VC 1, whose peak is the
   line's, only the second bucket can make a cell excess. A cell that is not unknown is of the connection that sent it. */
static void judge_verdict(unsigned verdict, unsigned vci, unsigned connection, unsigned v) {
  const bool known = verdict == CLURIMOON_ACCEPTED || verdict == CLURIMOON_EXCESS || verdict == CLURIMOON_TAGGED;
  if (known && vci != connection) fail("a cell was taken for one of another connection");
  if (verdict == CLURIMOON_UNKNOWN) fail("a cell of an open VC or path was unknown");
  if (verdict == CLURIMOON_TAGGED && vci != v - 1 && vci != v + 255) fail("a cell was tagged though nobody asked for it");
  tagged += verdict == CLURIMOON_TAGGED;
  not_sustained += verdict == CLURIMOON_EXCESS && vci == 1 && v > 2;
  of_paths[kind] += known && vci > v;
}

/* Every VC but the last has the line's rate for its peak if it is VC 1, and a third of it otherwise, as paths have; VC 1
   has a second bucket, and the last VC and the last path have one with the flag. Tolerances are the greatest, so that the
   memory fills. */
static uint16_t owner_of(unsigned v, unsigned connection) {
  return connection < v ? connection >= split_vci : connection - v >= split_path;
}
static uint16_t open_one(clurimoon_record r, unsigned n, unsigned v, unsigned connection) {
  const uint16_t owner = owner_of(v, connection);
  const uint32_t f = connection == 1 && v > 2 ? 16 : 48, c = f + 16 * n - 1;
  const uint16_t vci = (uint16_t)connection, vpi = (uint16_t)(connection - v);
  ++calls_made;
  if (connection == v + 255) return clurimoon_open_path(r, vcs, CLURIMOON_VCS(v), owner, vpi, 4, f, c, 2, 24, 90, 1);
  if (connection > v) return clurimoon_open_path(r, vcs, CLURIMOON_VCS(v), owner, vpi, 4, f, c, 0, 0, 0, 0);
  if (connection == v - 1) return clurimoon_open_sustained(r, vcs, CLURIMOON_VCS(v), owner, vci, 4, f, c, 2, 24, 90, 1);
  if (connection == 1) return clurimoon_open_sustained(r, vcs, CLURIMOON_VCS(v), owner, vci, 4, f, c, 15, 327680, 327680, 0);
  return clurimoon_open(r, vcs, CLURIMOON_VCS(v), owner, vci, 4, f, c);
}
static uint16_t close_one(clurimoon_record r, unsigned v, unsigned connection) {
  const uint16_t owner = owner_of(v, connection);
  ++calls_made;
  if (connection > v) return clurimoon_close_path(r, vcs, CLURIMOON_VCS(v), owner, (uint16_t)(connection - v));
  return clurimoon_close(r, vcs, CLURIMOON_VCS(v), owner, (uint16_t)connection);
}

/* How long until a cell leaves, from calendar and bits between unreadable pages. */
static unsigned next_in(clurimoon_record r, unsigned n) {
  now_doing = "next";
  const clurimoon_wait w = clurimoon_next(r, calendar, CLURIMOON_CALENDAR(n), bits, CLURIMOON_BITS);
  if (w.number != 0 || w.slots > (n == 1 ? 1 : n - 1)) fail("the next departure was refused, or too far away");
  if (w.slots > greatest_wait) greatest_wait = w.slots;
  ++calls_made;
  return w.slots;
}

/* The connections that are open: VCs 1, 2 and the last, paths 1 and 255; which of them has the k-th cell. */
static unsigned of_the_open(unsigned v, unsigned k) {
  const unsigned open[5] = {v - 1, 1, v > 2 ? 2 : 1, v + 1, v + 255};
  return open[k % 5];
}

/* The connection whose delays are tallied. */
static uint16_t tallied(unsigned v) { return (uint16_t)(kind == CLURIMOON_NNI ? v + 255 : v - 1); }

/* The tally after a slot, from arrival slots between unreadable pages; no cell waits 2 N slots. */
static void tally_it(clurimoon_record r, unsigned n, unsigned v, clurimoon_answer a) {
  now_doing = "tally_slot";
  const clurimoon_tallied t = clurimoon_tally_slot(tally, r, arrived, CLURIMOON_ARRIVED(n), tallied(v), a.space, a.out_vci);
  const bool left = a.out_vci == tallied(v);
  if (t.number != 0 || t.tally.cells != tally.cells + left) fail("a cell was not tallied, or one that did not leave");
  if (left) {
    const uint32_t waited = r.t - arrived[a.space];
    const unsigned bin = waited < 63 ? waited : 63;
    if (waited >= 2 * n) fail("a cell waited longer than it can");
    if (t.tally.bins[bin] != tally.bins[bin] + 1) fail("a cell was tallied in another bin");
  }
  tally = t.tally, cells_tallied += left;
  ++calls_made;
}

static clurimoon_record one_slot(clurimoon_record r, unsigned n, unsigned v, size_t length, unsigned wrong,
                                 unsigned connection) {
  /* An empty cell is lent as a pointer to unreadable memory. */
  const uint8_t *lent = length == 0 ? cell_fence.start + cell_fence.room : cell;
  const unsigned wait = next_in(r, n);
  now_doing = "slot";
  clurimoon_served s = clurimoon_slot(r, MEMORY, lent, length);
  if (s.answer.number != 0) fail("a slot was refused");
  if (length == 0 && (s.answer.space != CLURIMOON_NONE) != (wait == 1)) fail("a cell left in another slot than was said");
  ++slots_served, ++calls_made;
  judge_check(s.answer.verdict, r.mode, wrong, length != 0);
  if (wrong < 2) judge_verdict(s.answer.verdict, s.answer.vci, connection, v);
  if (s.record.mode != (length == 0 ? r.mode : wrong ? 1 : 0)) fail("the header check is in the wrong mode");
  now_doing = "line";
  clurimoon_part part = clurimoon_line(cells, CLURIMOON_CELLS(n), idle, 53, s.answer.space);
  ++calls_made;
  if (part.length != 53) fail("the line's part is not a cell");
  if (part.from_idle != (s.answer.space == CLURIMOON_NONE)) fail("the line's part lies in the wrong buffer");
  volatile uint8_t seen = 0;
  for (size_t k = 0; k < part.length; ++k) seen = (part.from_idle ? idle : cells)[part.start + k];
  (void)seen;
  if (s.answer.space != CLURIMOON_NONE) {
    ++cells_sent;
    if (s.answer.space > greatest_space) greatest_space = s.answer.space;
  }
  if (s.answer.d > greatest_d) greatest_d = s.answer.d;
  tally_it(s.record, n, v, s.answer);
  return s.record;
}

#define BURST(slots) arrivals, 53 * (slots), sizes, slots, departures, 53 * (slots), answers, 6 * (slots)

static clurimoon_record one_burst(clurimoon_record r, unsigned n, unsigned v, unsigned seed, bool tallies) {
  unsigned wrong[slots_in_burst], connection[slots_in_burst], mode = r.mode;
  for (unsigned k = 0; k < slots_in_burst; ++k) {
    sizes[k] = (k + seed) % 7 == 0 ? 0 : 53;
    connection[k] = of_the_open(v, k + seed);
    write_cell(arrivals + 53 * k, connection[k], k);
    wrong[k] = damage_header(arrivals + 53 * k, k + seed);
  }
  now_doing = tallies ? "burst_tallied" : "burst";
  clurimoon_burst_end e;
  const uint64_t before = tally.cells;
  if (tallies) {
    const clurimoon_burst_tally t = clurimoon_burst_tallied(tally, tallied(v), r, MEMORY, BURST(slots_in_burst));
    e = t.end, tally = t.tally;
  } else {
    e = clurimoon_burst(r, MEMORY, BURST(slots_in_burst));
  }
  if (e.number != 0 || e.done != slots_in_burst) fail("a burst was refused");
  slots_served += e.done, ++calls_made;
  for (unsigned k = 0; k < slots_in_burst; ++k) {
    judge_check(answers[6 * k + CLURIMOON_ANSWER_VERDICT], mode, wrong[k], sizes[k] != 0);
    if (wrong[k] < 2) judge_verdict(answers[6 * k + CLURIMOON_ANSWER_VERDICT], answers[6 * k + CLURIMOON_ANSWER_VCI], connection[k], v);
    if (sizes[k] != 0) mode = wrong[k] ? 1 : 0;
  }
  if (e.record.mode != mode) fail("the header check is in the wrong mode");
  uint64_t left = 0;
  for (unsigned k = 0; k < slots_in_burst; ++k) left += answers[6 * k + CLURIMOON_ANSWER_OUT_VCI] == tallied(v);
  if (tally.cells != before + (tallies ? left : 0)) fail("a burst tallied other cells than left");
  if (tallies) cells_tallied += left;
  const uint8_t *nowhere = cells_fence.start + cells_fence.room;
#define NOWHERE nowhere, 0, nowhere, 0, (uint8_t *)(uintptr_t)nowhere, 0, (uint16_t *)(uintptr_t)nowhere, 0
  if (tallies) e = clurimoon_burst_tallied(tally, tallied(v), e.record, MEMORY, NOWHERE).end;
  else e = clurimoon_burst(e.record, MEMORY, NOWHERE);
  if (e.number != 0 || e.done != 0) fail("an empty burst was refused");
  ++calls_made;
  return e.record;
}

/* The lowest free space is taken, so that the last one, whose octets end where the buffer ends, is seldom. Here all others
   are hidden for a slot and for a burst of one slot, in each of which a cell is stored there and leaves at once. */
static clurimoon_record in_the_last_space(clurimoon_record r, unsigned n, unsigned v, unsigned one, unsigned other) {
  uint64_t before[CLURIMOON_BITS];
  memcpy(before, bits, sizeof before), memset(bits, 0, sizeof before);
  bits[(n - 1) / 64] = (uint64_t)1 << (n - 1) % 64, r.free = 1;
  write_cell(cell, one, 0);
  r = one_slot(r, n, v, 53, 0, one);
  now_doing = "burst";
  write_cell(arrivals, other, 0), sizes[0] = 53;
  const clurimoon_burst_end e = clurimoon_burst(r, MEMORY, BURST(1));
  if (arrived[n - 1] != e.record.t) fail("the last space's arrival slot was not written");
  if (e.number != 0 || answers[CLURIMOON_ANSWER_SPACE] != n - 1 || e.record.free != 1) fail("the last space was not taken");
  memcpy(bits, before, sizeof before);
  r = e.record, r.free = (uint16_t)n;
  ++slots_served, ++calls_made;
  return r;
}

/* With T there and no cell in the Output List, the bits name an entry that is empty or unfit. */
static void next_refused(clurimoon_record r, unsigned n, unsigned T) {
  r.T = (uint16_t)T, r.out_head = r.out_tail = CLURIMOON_NONE;
  const clurimoon_wait w = clurimoon_next(r, calendar, CLURIMOON_CALENDAR(n), bits, CLURIMOON_BITS);
  if (w.number != CLURIMOON_STORED || w.slots != 0) fail("an empty entry or an unfit one was taken for the next");
  ++calls_made, ++refused;
}

/* Numbers out of range, right where a careless call would follow them. */
static void run_damaged(clurimoon_record good, unsigned n, unsigned v) {
  now_doing = "slot or audit in a damaged state";
  for (unsigned which = 0; which < damages; ++which) {
    clurimoon_record r = good;
    const uint16_t bad = (uint16_t)(which % 2 == 0 ? n : 65534), bad_flag = (uint16_t)(which % 2 == 0 ? 2 : 65535);
    if (which / 2 == 0) r.T = bad;
    if (which / 2 == 1) r.rotation = which % 2 == 0 ? (uint16_t)(v + 256) : 65534;
    if (which / 2 == 2) r.free = which % 2 == 0 ? (uint16_t)(n + 1) : 65534;
    if (which / 2 == 3) r.out_head = 0, r.out_tail = bad;
    if (which / 2 == 4) r.out_head = r.out_tail = bad;
    if (which / 2 == 5) r.kind = bad_flag;
    if (which / 2 == 6) r.raw = bad_flag;
    if (which / 2 == 7) r.mode = bad_flag;
    write_cell(cell, which % 3 == 0 ? v + 255 : v - 1, which);
    refused += clurimoon_slot(r, MEMORY, cell, 53).answer.number == CLURIMOON_STORED;
    if (clurimoon_audit(r, MEMORY)) fail("the audit says yes in a damaged state");
    const unsigned unfit = which / 2 == 0 || which / 2 == 3 || which / 2 == 4 ? CLURIMOON_STORED : CLURIMOON_DONE;
    if (clurimoon_next(r, calendar, CLURIMOON_CALENDAR(n), bits, CLURIMOON_BITS).number != unfit) fail("next answers otherwise");
    calls_made += 3;
  }
  /* A departing space that is none: the arrival slots have no such number. Another's is not looked at. */
  for (unsigned space = n; space < 65536; space = space < 65534 ? 65534 : space + 1) {
    if (clurimoon_tally_slot(tally, good, arrived, CLURIMOON_ARRIVED(n), tallied(v), (uint16_t)space, tallied(v)).number != CLURIMOON_STORED)
      fail("a space past the last was tallied");
    if (clurimoon_tally_slot(tally, good, arrived, CLURIMOON_ARRIVED(n), tallied(v), (uint16_t)space, 0).number != CLURIMOON_DONE)
      fail("a slot that sent nothing was refused");
    calls_made += 2, ++refused;
  }
  /* Bits in the first and the last word of spaces: more than the number says, and at or above N. In the first and the last
     of entries: of one that is empty, and at or above N, which no slot judges. */
  for (unsigned w = 0; w < 32; w += w % 2 == 0 ? 15 : 1) {
    const uint64_t before = bits[w];
    bits[w] = before ^ (uint64_t)1 << 63;
    if (w < 16) refused += clurimoon_slot(good, MEMORY, cell, 53).answer.number == CLURIMOON_STORED;
    else if (n > 64 * (w - 16) + 63) next_refused(good, n, w == 16 ? 62 : 1022);
    if (clurimoon_audit(good, MEMORY)) fail("the audit says yes in a damaged state");
    bits[w] = before;
    calls_made += 2;
  }
  /* Every bit is set, those at N and above too, and from each end of the calendar the next entry is empty. */
  uint64_t marks[CLURIMOON_BITS];
  memcpy(marks, bits, sizeof marks), memset(bits + 16, 255, sizeof marks / 2);
  for (unsigned T = 0; n > 1 && T < n; T += n - 1) next_refused(good, n, T);
  for (unsigned k = 0; k < 2 * n; ++k) calendar[k] = (uint16_t)(k % 4 < 2 ? n : 65534);
  for (unsigned T = 0; n > 1 && T < n; T += n - 1) next_refused(good, n, T);
  memcpy(bits, marks, sizeof marks);
  for (unsigned k = 0; k < n; ++k) links[k] = (uint16_t)(k % 2 ? n : 65534);
  refused += clurimoon_slot(good, MEMORY, cell, 53).answer.number == CLURIMOON_STORED;
  if (clurimoon_audit(good, MEMORY)) fail("the audit says yes in a damaged state");
  memset(vcs, 255, 4 * CLURIMOON_VCS(v));
  refused += clurimoon_slot(good, MEMORY, cell, 53).answer.number == CLURIMOON_STORED;
  calls_made += 3;
}

/* The operator whose connection it isn't, and nobody: 16, whatever the words hold, and no word changes. */
static void run_strangers(clurimoon_record r, unsigned v) {
  static uint32_t before[CLURIMOON_VCS(1024)];
  memcpy(before, vcs, 4 * CLURIMOON_VCS(v)), memset(vcs, 255, 4 * CLURIMOON_VCS(v));
  now_doing = "open or close by another operator";
  for (unsigned k = 0; k < 5; ++k) {
    const unsigned connection = of_the_open(v, k);
    const uint16_t other = (uint16_t)(1 - owner_of(v, connection)), number = (uint16_t)(connection > v ? connection - v : connection);
    for (unsigned owner = other; owner < 4; owner += 2) {
      const uint16_t said[2] = {
          connection > v ? clurimoon_open_path(r, vcs, CLURIMOON_VCS(v), (uint16_t)owner, number, 0, 1, 1, 0, 0, 0, 0)
                         : clurimoon_open(r, vcs, CLURIMOON_VCS(v), (uint16_t)owner, number, 0, 1, 1),
          connection > v ? clurimoon_close_path(r, vcs, CLURIMOON_VCS(v), (uint16_t)owner, number)
                         : clurimoon_close(r, vcs, CLURIMOON_VCS(v), (uint16_t)owner, number)};
      if (said[0] != CLURIMOON_NOT_OWNER || said[1] != CLURIMOON_NOT_OWNER) fail("a stranger was not refused");
      calls_made += 2, refused += 2;
    }
  }
  for (size_t k = 0; k < CLURIMOON_VCS(v); ++k)
    if (vcs[k] != UINT32_MAX) fail("a stranger has written");
  memcpy(vcs, before, 4 * CLURIMOON_VCS(v));
}

/* A record that claims more than was lent: refused before anything is read. */
static void run_too_small(clurimoon_record good, unsigned n, unsigned v) {
  now_doing = "a call whose record claims more than was lent";
  for (unsigned which = 0; which < 2; ++which) {
    clurimoon_record r = good;
    if (which == 0) r.n = (uint16_t)(n < 1024 ? n + 1 : n - 1);
    else r.v = (uint16_t)(v < 1024 ? v + 1 : v - 1), r.split_vci = 1;
    if (clurimoon_slot(r, MEMORY, cell, 53).answer.number != CLURIMOON_LENGTH)
      fail("wrong lengths were not refused");
    if (clurimoon_burst(r, MEMORY, BURST(slots_in_burst)).number != CLURIMOON_LENGTH) fail("wrong lengths were not refused");
    if (clurimoon_audit(r, MEMORY)) fail("the audit says yes to wrong lengths");
    if (which == 0 && clurimoon_tally_slot(tally, r, arrived, CLURIMOON_ARRIVED(n), tallied(v), 0, tallied(v)).number != CLURIMOON_LENGTH)
      fail("wrong lengths were not refused");
    if (which == 0 && clurimoon_next(r, calendar, CLURIMOON_CALENDAR(n), bits, CLURIMOON_BITS).number != CLURIMOON_LENGTH)
      fail("wrong lengths were not refused");
    calls_made += 5 - 2 * which, refused += 4 - 2 * which;
  }
  /* A word of bits too few, those of the spaces alone, or none: neither a word before them nor an unreadable one is read. */
  for (unsigned short_by = 1; short_by <= 32; short_by += short_by == 1 ? 15 : 16) {
    uint64_t *few = short_by == 32 ? (uint64_t *)(void *)(bits_fence.start + bits_fence.room) : at_end ? bits + short_by : bits;
    if (clurimoon_slot(good, cells, CLURIMOON_CELLS(n), links, CLURIMOON_LINKS(n), calendar, CLURIMOON_CALENDAR(n), vcs,
                       CLURIMOON_VCS(v), few, 32 - short_by, arrived, CLURIMOON_ARRIVED(n), cell, 53)
            .answer.number != CLURIMOON_LENGTH)
      fail("too few bits were not refused");
    if (clurimoon_audit(good, cells, CLURIMOON_CELLS(n), links, CLURIMOON_LINKS(n), calendar, CLURIMOON_CALENDAR(n), vcs,
                        CLURIMOON_VCS(v), few, 32 - short_by, arrived, CLURIMOON_ARRIVED(n)))
      fail("the audit says yes to too few bits");
    if (clurimoon_next(good, calendar, CLURIMOON_CALENDAR(n), few, 32 - short_by).number != CLURIMOON_LENGTH)
      fail("too few bits were not refused");
    calls_made += 3, refused += 2;
  }
  /* An arrival slot too few, or none: neither one before them nor an unreadable one is read or written. */
  for (unsigned count = n - 1;; count = 0) {
    uint32_t *few = count == 0 ? (uint32_t *)(void *)(arrived_fence.start + arrived_fence.room) : at_end ? arrived + 1 : arrived;
#define FEW cells, CLURIMOON_CELLS(n), links, CLURIMOON_LINKS(n), calendar, CLURIMOON_CALENDAR(n), vcs, CLURIMOON_VCS(v), bits, CLURIMOON_BITS, few, count
    if (clurimoon_slot(good, FEW, cell, 53).answer.number != CLURIMOON_LENGTH ||
        clurimoon_burst(good, FEW, BURST(slots_in_burst)).number != CLURIMOON_LENGTH ||
        clurimoon_burst_tallied(tally, tallied(v), good, FEW, BURST(slots_in_burst)).end.number != CLURIMOON_LENGTH ||
        clurimoon_tally_slot(tally, good, few, count, tallied(v), 0, tallied(v)).number != CLURIMOON_LENGTH)
      fail("too few arrival slots were not refused");
    if (clurimoon_audit(good, FEW)) fail("the audit says yes to too few arrival slots");
    calls_made += 5, refused += 4;
    if (count == 0) break;
  }
  clurimoon_record wide = good;
  wide.v = (uint16_t)(v < 1024 ? v + 1 : v - 1), wide.split_vci = 1;
  if (clurimoon_open(wide, vcs, CLURIMOON_VCS(v), 1, (uint16_t)(wide.v - 1), 0, 1, 1) != CLURIMOON_LENGTH)
    fail("open was not refused");
  if (clurimoon_open_sustained(wide, vcs, CLURIMOON_VCS(v), 1, (uint16_t)(wide.v - 1), 0, 1, 1, 0, 1, 1, 1) != CLURIMOON_LENGTH)
    fail("open_sustained was not refused");
  if (clurimoon_close(wide, vcs, CLURIMOON_VCS(v), 1, (uint16_t)(wide.v - 1)) != CLURIMOON_LENGTH)
    fail("close was not refused");
  if (clurimoon_open_path(wide, vcs, CLURIMOON_VCS(v), 1, 255, 0, 1, 1, 0, 1, 1, 1) != CLURIMOON_LENGTH)
    fail("open_path was not refused");
  if (clurimoon_close_path(wide, vcs, CLURIMOON_VCS(v), 1, 255) != CLURIMOON_LENGTH) fail("close_path was not refused");
  for (unsigned vpi = 256; vpi < 65536; vpi = vpi * 17 / 16) {
    if (clurimoon_open_path(good, vcs, CLURIMOON_VCS(v), 1, (uint16_t)vpi, 0, 1, 1, 0, 1, 1, 1) != CLURIMOON_VCI)
      fail("a path past the last was opened");
    if (clurimoon_close_path(good, vcs, CLURIMOON_VCS(v), 1, (uint16_t)vpi) != CLURIMOON_VCI)
      fail("a path past the last was closed");
    calls_made += 2, refused += 2;
  }
  if (clurimoon_line(cells, CLURIMOON_CELLS(n), idle, 53, (uint16_t)n).length != 0)
    fail("the line shows a space past the last");
  calls_made += 6, refused += 6;
}

/* Closes a connection, such as the last path, whose words end where the buffer ends, and opens it again. After a cell
   of it close is refused: its debt is at most C, n+3 slots, and its cells leave within 2(n-1). */
static clurimoon_record close_again(clurimoon_record r, unsigned n, unsigned v, unsigned connection) {
  unsigned k = 0;
  write_cell(cell, connection, 0);
  r = one_slot(r, n, v, 53, 0, connection);
  now_doing = "close";
  while (close_one(r, v, connection) == CLURIMOON_WAITING) {
    if (++k > 2 * n + 4) fail("a close was refused for too long");
    r = one_slot(r, n, v, 0, 0, 0);
    now_doing = "close";
    ++refused;
  }
  if (k == 0) fail("a close wiped a debt");
  if (open_one(r, n, v, connection) != 0) fail("the VC or path was not closed");
  return r;
}

/* The calendar's last entry, whose pair ends where the buffer ends, and its first, each by its bit alone. All cells have left. */
static void last_entry(clurimoon_record r, unsigned n) {
  for (unsigned entry = 0; n > 1 && entry < n; entry += n - 1) {
    for (unsigned T = 0; T < n; T += n < 8 ? 1 : n / 7) {
      if (T == entry) continue;
      r.T = (uint16_t)T;
      calendar[2 * entry] = 0, calendar[2 * entry + 1] = (uint16_t)(n - 1);
      bits[16 + entry / 64] |= (uint64_t)1 << entry % 64;
      if (next_in(r, n) != (entry + n - T) % n) fail("the first entry or the last was not found");
      calendar[2 * entry] = calendar[2 * entry + 1] = CLURIMOON_NONE;
      bits[16 + entry / 64] &= ~((uint64_t)1 << entry % 64);
    }
  }
}

/* One policer from setup on, under full load until every space was used. */
static void run_policer(unsigned n, unsigned v) {
  now_n = n, now_v = v;
  split_vci = (uint16_t)(1 + n % (v - 1)), split_path = (uint16_t)(1 + n % 255);
  lend_all(n, v);
  now_doing = "setup";
  clurimoon_set set = clurimoon_setup((uint16_t)n, (uint16_t)v, raw, kind, split_vci, split_path, MEMORY);
  if (set.number != 0) fail("setup was refused");
  clurimoon_record r = set.record;
  memset(&tally, 0, sizeof tally);
  for (unsigned k = 0; k < n; ++k)
    if (arrived[k] != 0) fail("an arrival slot is not 0 after setup");
  now_doing = "open";
  /* Bursty VCs and paths, with the greatest tolerance: they fill the memory. */
  for (unsigned k = 0; k < 5; ++k) {
    bool again = false; /* V 2 and V 3 have fewer VCs */
    for (unsigned before = 0; before < k; ++before) again = again || of_the_open(v, before) == of_the_open(v, k);
    if (open_one(r, n, v, of_the_open(v, k)) != (again ? CLURIMOON_ALREADY_OPEN : CLURIMOON_DONE)) fail("an open was refused");
  }
  greatest_space = greatest_d = greatest_wait = 0;
  const unsigned first = kind == CLURIMOON_NNI ? v + 255 : v - 1;
  r = in_the_last_space(r, n, v, first, kind == CLURIMOON_NNI ? v - 1 : v + 255);
  /* Long enough to use every entry, and for rotation to name every VC and path. */
  for (unsigned k = 0; k < 3 * n + 40 || k < v + 258; ++k) {
    /* One of them alone first: its delays climb to N-1. */
    const unsigned connection = k % 3 == 0 || k < 5 * n / 8 + 8 ? first : of_the_open(v, k);
    write_cell(cell, connection, k);
    const unsigned wrong = damage_header(cell, k);
    r = one_slot(r, n, v, k % 11 == 10 ? 0 : 53, wrong, connection);
  }
  r = one_burst(r, n, v, n, false);
  r = one_burst(r, n, v, n + 3, true);
  now_doing = "audit";
  if (!clurimoon_audit(r, MEMORY)) fail("the audit says no");
  calls_made += 1;
  r = close_again(r, n, v, v - 1);
  r = close_again(r, n, v, v + 255);
  last_entry(r, n);
  if (greatest_space != n - 1 || greatest_d != n - 1) fail("the last space or the last entry was never used");
  all_untouched();
  run_strangers(r, v);
  run_too_small(r, n, v);
  run_damaged(r, n, v);
  all_untouched();
}

/* Counts marked entries by rows of four, the last row loaded whole. */
static unsigned marked_by_rows(const uint16_t *from, unsigned n) {
  unsigned marked = 0;
  for (unsigned row = 0; row < (n + 3) / 4; ++row) {
    volatile uint16_t loaded[8];
    for (unsigned k = 0; k < 8; ++k) loaded[k] = from[8 * row + k];
    for (unsigned k = 0; k < 4 && 4 * row + k < n; ++k) marked += loaded[2 * k] != CLURIMOON_NONE;
  }
  return marked;
}

/* Looks at the entry before, without turning round at entry 0. */
static unsigned marked_before(const uint16_t *from, unsigned n) {
  unsigned marked = 0;
  for (unsigned entry = 0; entry < n; ++entry) {
    const volatile uint16_t *head = from + 2 * entry;
    marked += *(head - 2) != CLURIMOON_NONE;
  }
  return marked;
}

/* Whether the routine, on the calendar for n entries, faults in a child process. */
static bool faults(unsigned (*routine)(const uint16_t *, unsigned), unsigned n) {
  uint16_t *lent = lend(&calendar_fence, 4 * (size_t)n);
  fflush(stdout);
  pid_t child = fork();
  if (child < 0) perror("fork"), exit(2);
  if (child == 0) {
    signal(SIGSEGV, SIG_DFL), signal(SIGBUS, SIG_DFL);
    _exit(routine(lent, n) > n ? 1 : 0);
  }
  int status;
  waitpid(child, &status, 0);
  return WIFSIGNALED(status) && (WTERMSIG(status) == SIGSEGV || WTERMSIG(status) == SIGBUS);
}

/* The careless routines must fault exactly where they leave the buffer. */
static unsigned bite(void) {
  unsigned bitten = 0;
  now_doing = "the routine that loads the last row whole";
  for (unsigned n = 1; n <= 1024; ++n) {
    now_n = n, now_v = 0;
    at_end = true;
    if (faults(marked_by_rows, n) != (n % 4 != 0))
      fail("the fault was not seen, or seen where there is none");
    bitten += n % 4 != 0;
    at_end = false;
    if (!faults(marked_before, n)) fail("the read before the buffer was not seen");
    ++bitten;
  }
  at_end = true, now_n = 37;
  if (!faults(marked_by_rows, 37)) fail("N 37 did not fault");
  return bitten;
}

int main(void) {
  page = (size_t)sysconf(_SC_PAGESIZE);
  make_fences();
  const unsigned bitten = bite();
  printf("guard: careless routines faulted %u times of %u, N 37 among them\n", bitten, bitten);
  signal(SIGSEGV, on_fault), signal(SIGBUS, on_fault);
  for (int side = 0; side < rounds; ++side) {
    at_end = side % 2 == 0, raw = side >= 2;
    /* Where the policer may be raw, each N has both line kinds on either side. */
    for (unsigned n = 1; n <= 1024; ++n) {
      static const unsigned edges[] = {2, 3, 64, 1023, 1024};
      kind = (n + (raw ? 1 : 0)) % 2 ? CLURIMOON_NNI : CLURIMOON_UNI;
      run_policer(n, n % 8 == 0 ? edges[n / 8 % 5] : 2 + n * 7 % 121);
    }
    for (unsigned v = 2; v <= 1024; ++v) {
      kind = (v + (raw ? 1 : 0)) % 2 ? CLURIMOON_NNI : CLURIMOON_UNI;
      run_policer(1 + v % 9, v);
    }
    printf("  every N and every V%s with buffers %s\n", raw ? ", raw," : "",
           at_end ? "ending at an unreadable page" : "beginning after one");
    fflush(stdout);
  }
  printf("guard: N 1 to 1,024 and V 2 to 1,024, twice%s: %llu calls (%llu refused), %llu slots, %llu "
         "cells sent, %llu of them tallied, %llu mended, %llu dropped, %llu tagged, %llu above a sustainable rate without the flag, %llu and %llu of paths at the UNI and the NNI, no octet touched outside\n",
         rounds == 4 ? ", raw and not" : "", calls_made, refused, slots_served, cells_sent, cells_tallied, mended, dropped, tagged, not_sustained,
         of_paths[CLURIMOON_UNI], of_paths[CLURIMOON_NNI]);
  if (tagged < 10000 || not_sustained < 10000) fail("too few cells were above a sustainable rate");
  if (cells_tallied < 100000) fail("too few cells were tallied");
  if (of_paths[CLURIMOON_UNI] < 10000 || of_paths[CLURIMOON_NNI] < 10000) fail("too few cells were of paths");
  return 0;
}
