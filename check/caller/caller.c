/*
 * A caller's view of the archive: sizes and offsets of every struct, every
 * function called, each refusal number got by a caller's mistake, NULL for every
 * slice of length 0. The same file is compiled as C99 and as C++.
 */
#include <stddef.h>
#include <stdint.h>
#include <stdio.h>
#include <string.h>

#include "clurimoon.h"

static unsigned long checks, failures;

static void check(int holds, const char *what, int line) {
  ++checks;
  if (holds) return;
  ++failures;
  printf("caller: FAILED, line %d: %s\n", line, what);
}
#define CHECK(holds) check((holds) ? 1 : 0, #holds, __LINE__)

/* Natural alignment, fields in the header's order: held here against the text of
   the interface, so that a compiler or a header that lays them otherwise is seen. */
#define LAID(type, field, offset, size)                                                                      \
  CHECK(offsetof(type, field) == (offset));                                                                  \
  CHECK(sizeof(((type *)0)->field) == (size))

static void structs(void) {
  CHECK(sizeof(clurimoon_record) == 28);
  LAID(clurimoon_record, n, 0, 2);
  LAID(clurimoon_record, v, 2, 2);
  LAID(clurimoon_record, t, 4, 4);
  LAID(clurimoon_record, T, 8, 2);
  LAID(clurimoon_record, rotation, 10, 2);
  LAID(clurimoon_record, free, 12, 2);
  LAID(clurimoon_record, out_head, 14, 2);
  LAID(clurimoon_record, out_tail, 16, 2);
  LAID(clurimoon_record, raw, 18, 2);
  LAID(clurimoon_record, mode, 20, 2);
  LAID(clurimoon_record, kind, 22, 2);
  LAID(clurimoon_record, split_vci, 24, 2);
  LAID(clurimoon_record, split_path, 26, 2);
  CHECK(sizeof(clurimoon_answer) == 12);
  LAID(clurimoon_answer, number, 0, 2);
  LAID(clurimoon_answer, verdict, 2, 2);
  LAID(clurimoon_answer, vci, 4, 2);
  LAID(clurimoon_answer, d, 6, 2);
  LAID(clurimoon_answer, space, 8, 2);
  LAID(clurimoon_answer, out_vci, 10, 2);
  CHECK(sizeof(clurimoon_set) == 32);
  LAID(clurimoon_set, number, 0, 2);
  LAID(clurimoon_set, record, 4, 28);
  CHECK(sizeof(clurimoon_served) == 40);
  LAID(clurimoon_served, record, 0, 28);
  LAID(clurimoon_served, answer, 28, 12);
  CHECK(sizeof(clurimoon_part) == 3 * sizeof(size_t));
  LAID(clurimoon_part, from_idle, 0, 2);
  LAID(clurimoon_part, start, sizeof(size_t), sizeof(size_t));
  LAID(clurimoon_part, length, 2 * sizeof(size_t), sizeof(size_t));
  CHECK(sizeof(clurimoon_burst_end) == 32 + sizeof(size_t));
  LAID(clurimoon_burst_end, record, 0, 28);
  LAID(clurimoon_burst_end, number, 28, 2);
  LAID(clurimoon_burst_end, done, 32, sizeof(size_t));
  CHECK(sizeof(clurimoon_wait) == 4);
  LAID(clurimoon_wait, number, 0, 2);
  LAID(clurimoon_wait, slots, 2, 2);
  CHECK(sizeof(clurimoon_tally) == 520 && CLURIMOON_BINS == 64);
  LAID(clurimoon_tally, bins, 0, 512);
  LAID(clurimoon_tally, cells, 512, 8);
  CHECK(sizeof(clurimoon_tallied) == 528);
  LAID(clurimoon_tallied, number, 0, 2);
  LAID(clurimoon_tallied, tally, 8, 520);
  CHECK(sizeof(clurimoon_bin) == 4);
  LAID(clurimoon_bin, number, 0, 2);
  LAID(clurimoon_bin, bin, 2, 2);
  CHECK(sizeof(clurimoon_burst_tally) == 552 + sizeof(size_t));
  LAID(clurimoon_burst_tally, end, 0, sizeof(clurimoon_burst_end));
  LAID(clurimoon_burst_tally, tally, sizeof(clurimoon_burst_end), 520);
  CHECK(sizeof(clurimoon_tat) == 24);
  LAID(clurimoon_tat, tat, 0, 8);
  LAID(clurimoon_tat, arrival, 8, 8);
  LAID(clurimoon_tat, started, 16, 1);
  CHECK(sizeof(clurimoon_timed) == 48);
  LAID(clurimoon_timed, number, 0, 2);
  LAID(clurimoon_timed, verdict, 2, 2);
  LAID(clurimoon_timed, early, 8, 8);
  LAID(clurimoon_timed, due, 16, 8);
  LAID(clurimoon_timed, tat, 24, 24);
}

static void macros(void) {
  CHECK(CLURIMOON_CELLS(1024) == 54272 && CLURIMOON_LINKS(76) == 76);
  CHECK(CLURIMOON_CALENDAR(76) == 152 && CLURIMOON_VCS(64) == 3840 && CLURIMOON_VCS(1024) == 15360);
  CHECK(CLURIMOON_OCTETS(76, 64) == 20404 && CLURIMOON_BITS == 32 && CLURIMOON_ENTRY_BITS == 16);
  CHECK(CLURIMOON_OCTETS(76, 64) ==
        CLURIMOON_CELLS(76) + 2 * CLURIMOON_LINKS(76) + 2 * CLURIMOON_CALENDAR(76) + 4 * CLURIMOON_VCS(64) +
            8 * CLURIMOON_BITS + 4 * CLURIMOON_ARRIVED(76));
  CHECK(CLURIMOON_ARRIVED(1024) == 1024 && CLURIMOON_TALLY_MAX == 4294967296u && CLURIMOON_SHARE == 15);
  CHECK(CLURIMOON_SHARE_MIN == 1 && CLURIMOON_SHARE_MAX == 1000);
  CHECK(CLURIMOON_DONE == 0 && CLURIMOON_RANGE == 1 && CLURIMOON_LENGTH == 2 && CLURIMOON_STORED == 3);
  CHECK(CLURIMOON_VCI == 4 && CLURIMOON_ALREADY_OPEN == 5 && CLURIMOON_RULES == 6 && CLURIMOON_NOT_OPEN == 7);
  CHECK(CLURIMOON_WAITING == 8 && CLURIMOON_CELL_LENGTH == 9 && CLURIMOON_UNREADABLE == 10);
  CHECK(CLURIMOON_SECOND == 11 && CLURIMOON_NOT_AFTER == 12 && CLURIMOON_C2_MAX == 1073741824);
  CHECK(CLURIMOON_NOT_OWNER == 16 && CLURIMOON_OWNER_FIRST == 0 && CLURIMOON_OWNER_SECOND == 1);
  CHECK(CLURIMOON_KIND == 13 && CLURIMOON_UNI == 0 && CLURIMOON_NNI == 1 && CLURIMOON_PATHS == 256);
  CHECK(CLURIMOON_PATH_MIN == 1 && CLURIMOON_PATH_MAX == 255 && CLURIMOON_PATH_NUMBER(1024, 255) == 1279);
  CHECK(CLURIMOON_NOTHING == 0 && CLURIMOON_ACCEPTED == 1 && CLURIMOON_EXCESS == 2 && CLURIMOON_UNKNOWN == 3);
  CHECK(CLURIMOON_WORD_M2 == 7 && CLURIMOON_WORD_F2 == 8 && CLURIMOON_WORD_C2 == 9 && CLURIMOON_WORD_S2 == 10);
  CHECK(CLURIMOON_WORD_TAG == 11 && CLURIMOON_TAGGED == 5);
  CHECK(CLURIMOON_DROPPED == 4 && CLURIMOON_CORRECTION == 0 && CLURIMOON_DETECTION == 1);
}

enum { N = 5, V = 8, WORDS = 12 * (V + 256) };
static uint8_t cells[53 * N], idle[53];
static uint16_t links[N], calendar[2 * N];
static uint32_t vcs[12 * (V + 256)];
static uint64_t bits[32];
static uint32_t arrived[N];

#define MEMORY cells, sizeof cells, links, N, calendar, 2 * N, vcs, WORDS, bits, 32, arrived, N
#define NO_MEMORY NULL, 0, NULL, 0, NULL, 0, NULL, 0, NULL, 0, NULL, 0

static int same_record(clurimoon_record a, clurimoon_record b) {
  return a.n == b.n && a.v == b.v && a.t == b.t && a.T == b.T && a.rotation == b.rotation && a.free == b.free &&
         a.out_head == b.out_head && a.out_tail == b.out_tail && a.raw == b.raw &&
         a.mode == b.mode && a.kind == b.kind && a.split_vci == b.split_vci && a.split_path == b.split_path;
}

static int refused(clurimoon_answer a, unsigned number) {
  return a.number == number && a.verdict == 0 && a.vci == 0 && a.d == 0 && a.space == CLURIMOON_NONE &&
         a.out_vci == 0;
}

static void put_cell(uint8_t *cell, unsigned vci, unsigned fill) {
  memset(cell, (int)fill, 53);
  cell[0] = 0, cell[1] = (uint8_t)(vci >> 12), cell[2] = (uint8_t)(vci >> 4),
  cell[3] = (uint8_t)((vci & 15) << 4);
}

static void setup_fields(bool raw, uint16_t kind) {
  unsigned k;
  clurimoon_set set;
  memset(cells, 7, sizeof cells), memset(links, 7, sizeof links), memset(vcs, 7, sizeof vcs);
  memset(bits, 7, sizeof bits), memset(arrived, 7, sizeof arrived);
  set = clurimoon_setup(N, V, raw, kind, 1, 1, MEMORY);
  CHECK(set.number == CLURIMOON_DONE);
  CHECK(set.record.n == N && set.record.v == V && set.record.t == 4294967295u);
  CHECK(set.record.T == N - 1 && set.record.rotation == V + 255 && set.record.kind == kind);
  CHECK(set.record.free == N && set.record.split_vci == 1 && set.record.split_path == 1);
  CHECK(set.record.out_head == CLURIMOON_NONE && set.record.out_tail == CLURIMOON_NONE);
  CHECK(set.record.raw == (raw ? 1 : 0) && set.record.mode == CLURIMOON_CORRECTION);
  CHECK(clurimoon_audit(set.record, MEMORY));
  for (k = 0; k < sizeof cells; ++k) CHECK(cells[k] == 0);
  for (k = 0; k < N; ++k) CHECK(links[k] == 0 && arrived[k] == 0);
  for (k = 0; k < 32; ++k) CHECK(bits[k] == (k == 0 ? 31 : 0));
  for (k = 0; k < 2 * N; ++k) CHECK(calendar[k] == CLURIMOON_NONE);
  for (k = 0; k < WORDS; ++k) CHECK(vcs[k] == 0);
}

/* Each field of a record by value must arrive in its own place and come back so. */
static void record_fields(void) {
  clurimoon_record r = {1111, 2222, 3333333333u, 4444, 5555, 6666, 8888, 9999, 1212, 1313, 1414, 1515, 1616};
  clurimoon_served s = clurimoon_slot(r, MEMORY, NULL, 0);
  clurimoon_burst_end e;
  CHECK(refused(s.answer, CLURIMOON_RANGE) && same_record(s.record, r));
  e = clurimoon_burst(r, MEMORY, NULL, 0, NULL, 0, NULL, 0, NULL, 0);
  CHECK(e.number == CLURIMOON_RANGE && e.done == 0 && same_record(e.record, r));
  /* N and V right: then it is T, rotation, the Output List's tail that are wrong. */
  r.n = N, r.v = V;
  s = clurimoon_slot(r, MEMORY, NULL, 0);
  CHECK(refused(s.answer, CLURIMOON_STORED) && same_record(s.record, r));
  r.T = 2, r.rotation = 3;
  s = clurimoon_slot(r, MEMORY, NULL, 0);
  CHECK(refused(s.answer, CLURIMOON_STORED) && same_record(s.record, r));
  r.out_head = r.out_tail = CLURIMOON_NONE;
  s = clurimoon_slot(r, MEMORY, NULL, 0);
  /* The number of free spaces is not read in a slot that neither accepts nor sends. */
  CHECK(s.answer.number == CLURIMOON_DONE && s.record.t == 3333333334u && s.record.T == 3 &&
        s.record.rotation == 4);
  CHECK(s.record.n == N && s.record.v == V && s.record.free == 6666);
  /* Nor are raw and mode, where no cell is lent, and kind, where no header is read. */
  CHECK(s.record.raw == 1212 && s.record.mode == 1313 && s.record.kind == 1414);
  /* No slot reads the splits. */
  CHECK(s.record.split_vci == 1515 && s.record.split_path == 1616);
  CHECK(s.record.out_head == CLURIMOON_NONE && s.record.out_tail == CLURIMOON_NONE);
  CHECK(clurimoon_audit(s.record, MEMORY) == false);
}

static void every_number(void) {
  uint8_t cell[54];
  clurimoon_set set = clurimoon_setup(0, V, true, CLURIMOON_UNI, 1, 1, MEMORY);
  clurimoon_record zeros, r;
  clurimoon_served s;
  memset(&zeros, 0, sizeof zeros), memset(cell, 0, sizeof cell);
  CHECK(set.number == CLURIMOON_RANGE && same_record(set.record, zeros));
  set = clurimoon_setup(N, V, true, CLURIMOON_UNI, 1, 1, cells, sizeof cells - 1, links, N, calendar, 2 * N, vcs, WORDS, bits, 32, arrived, N);
  CHECK(set.number == CLURIMOON_LENGTH && same_record(set.record, zeros));
  /* The line kind after N and V, and before the lengths. */
  set = clurimoon_setup(N, V, true, 2, 1, 1, MEMORY);
  CHECK(set.number == CLURIMOON_KIND && same_record(set.record, zeros));
  CHECK(clurimoon_setup(N, V, false, 65535, 1, 1, MEMORY).number == CLURIMOON_KIND);
  CHECK(clurimoon_setup(N, 1, false, 2, 1, 1, MEMORY).number == CLURIMOON_RANGE);
  CHECK(clurimoon_setup(N, V, false, 2, 1, 1, NO_MEMORY).number == CLURIMOON_KIND);
  CHECK(clurimoon_setup(N, V, false, 1, 1, 1, cells, sizeof cells, links, N, calendar, 2 * N, vcs, 12 * V, bits, 32, arrived, N).number == CLURIMOON_LENGTH);
  CHECK(clurimoon_setup(N, V, false, 1, 1, 1, cells, sizeof cells, links, N, calendar, 2 * N, vcs, WORDS, bits, 16, arrived, N).number == CLURIMOON_LENGTH);
  CHECK(clurimoon_setup(N, V, false, 1, 1, 1, cells, sizeof cells, links, N, calendar, 2 * N, vcs, WORDS, bits, 32, arrived, N - 1).number == CLURIMOON_LENGTH);
  CHECK(clurimoon_setup(N, V, false, 1, 1, 1, cells, sizeof cells, links, N, calendar, 2 * N, vcs, WORDS, bits, 32, NULL, 0).number == CLURIMOON_LENGTH);
  set = clurimoon_setup(N, V, false, CLURIMOON_UNI, 1, 1, MEMORY);
  r = set.record;
  CHECK(clurimoon_open(r, vcs, WORDS - 1, 1, 1, 2, 10, 26) == CLURIMOON_LENGTH);
  CHECK(clurimoon_open(r, vcs, WORDS, 1, V, 2, 10, 26) == CLURIMOON_VCI);
  CHECK(clurimoon_open(r, vcs, WORDS, 1, 1, 2, 10, 30) == CLURIMOON_RULES);
  CHECK(clurimoon_open(r, vcs, WORDS, 1, 1, 2, 10, 29) == CLURIMOON_DONE);
  CHECK(vcs[12 + CLURIMOON_WORD_OPEN] == 1 && vcs[12 + CLURIMOON_WORD_M] == 2 &&
        vcs[12 + CLURIMOON_WORD_F] == 10);
  CHECK(vcs[12 + CLURIMOON_WORD_C] == 29 && vcs[12 + CLURIMOON_WORD_S] == 0);
  CHECK(vcs[12 + CLURIMOON_WORD_LAST] == 4294967295u && vcs[12 + CLURIMOON_WORD_WAITING] == 0);
  CHECK(clurimoon_open(r, vcs, WORDS, 1, 1, 2, 10, 26) == CLURIMOON_ALREADY_OPEN);
  CHECK(clurimoon_close(r, vcs, WORDS, 1, 2) == CLURIMOON_NOT_OPEN);
  CHECK(clurimoon_close(r, vcs, WORDS, 1, 0) == CLURIMOON_VCI);
  put_cell(cell, 1, 0x11);
  CHECK(refused(clurimoon_slot(r, MEMORY, cell, 54).answer, CLURIMOON_CELL_LENGTH));
  r = clurimoon_slot(r, MEMORY, cell, 53).record;
  s = clurimoon_slot(r, MEMORY, cell, 53);
  CHECK(s.answer.verdict == CLURIMOON_ACCEPTED && s.answer.vci == 1 && s.answer.d == 1 &&
        s.answer.space == CLURIMOON_NONE);
  r = s.record;
  CHECK(clurimoon_close(r, vcs, WORDS, 1, 1) == CLURIMOON_WAITING);
  vcs[24] = 2;
  CHECK(clurimoon_open(r, vcs, WORDS, 1, 2, 2, 10, 26) == CLURIMOON_STORED);
  CHECK(clurimoon_close(r, vcs, WORDS, 1, 2) == CLURIMOON_STORED);
  CHECK(!clurimoon_audit(r, MEMORY));
  vcs[24] = 0;
  CHECK(clurimoon_audit(r, MEMORY));
}

/* A close that is refused leaves all words as they came: neither S nor last has moved. */
static int close_keeps(clurimoon_record r, uint16_t vci, unsigned number) {
  uint32_t before[WORDS];
  memcpy(before, vcs, sizeof vcs);
  return clurimoon_close(r, vcs, WORDS, 1, vci) == number && memcmp(before, vcs, sizeof vcs) == 0;
}

/* m 2, F 10, C 16, cells in slots 0 and 1: close is 8 up to slot 4, and 0 in slot 5,
   where the debt of 16 parts is paid. */
static void debts(void) {
  uint8_t cell[53];
  unsigned slot, k;
  clurimoon_record r = clurimoon_setup(N, V, false, CLURIMOON_UNI, 1, 1, MEMORY).record;
  clurimoon_served s;
  put_cell(cell, 1, 0x11);
  CHECK(clurimoon_open(r, vcs, WORDS, 1, 1, 2, 10, 16) == CLURIMOON_DONE);
  for (slot = 0; slot < 5; ++slot) {
    s = clurimoon_slot(r, MEMORY, slot < 2 ? cell : NULL, slot < 2 ? 53 : 0);
    r = s.record;
    /* The first cell leaves at once, the second in slot 2; the debt is left. */
    CHECK(s.answer.space == (slot == 0 || slot == 2 ? 0 : CLURIMOON_NONE));
    CHECK(vcs[12 + CLURIMOON_WORD_WAITING] == (slot == 1));
    CHECK(close_keeps(r, 1, CLURIMOON_WAITING));
    CHECK(clurimoon_open(r, vcs, WORDS, 1, 1, 2, 10, 16) == CLURIMOON_ALREADY_OPEN);
  }
  /* The words still hold slot 1's S, and C is held against that: 3 comes before 8. */
  CHECK(vcs[12 + CLURIMOON_WORD_S] == 16 && vcs[12 + CLURIMOON_WORD_LAST] == 1);
  vcs[12 + CLURIMOON_WORD_S] = 17;
  CHECK(close_keeps(r, 1, CLURIMOON_STORED));
  vcs[12 + CLURIMOON_WORD_S] = 16;
  r = clurimoon_slot(r, MEMORY, NULL, 0).record;
  CHECK(clurimoon_close(r, vcs, WORDS, 1, 1) == CLURIMOON_DONE);
  for (k = 0; k < 12; ++k) CHECK(vcs[12 + k] == 0);
  CHECK(close_keeps(r, 1, CLURIMOON_NOT_OPEN));
  /* Reopened at once, it owes nothing. */
  CHECK(clurimoon_open(r, vcs, WORDS, 1, 1, 2, 10, 16) == CLURIMOON_DONE);
  s = clurimoon_slot(r, MEMORY, cell, 53);
  CHECK(s.answer.verdict == CLURIMOON_ACCEPTED && s.answer.d == 0 && s.answer.out_vci == 1);
  CHECK(close_keeps(s.record, 1, CLURIMOON_WAITING));
  CHECK(clurimoon_audit(s.record, MEMORY));
}

/* A cell that leaves late: its VC has no debt any more, and yet a cell of it waits. */
static void waits_alone(void) {
  static const uint8_t arrives[9] = {2, 2, 3, 3, 0, 1, 1, 0, 0};
  uint8_t cell[53];
  unsigned slot;
  clurimoon_record r = clurimoon_setup(N, V, false, CLURIMOON_UNI, 1, 1, MEMORY).record;
  CHECK(clurimoon_open(r, vcs, WORDS, 1, 1, 0, 1, 1) == CLURIMOON_DONE);
  CHECK(clurimoon_open(r, vcs, WORDS, 1, 2, 0, 5, 9) == CLURIMOON_DONE);
  CHECK(clurimoon_open(r, vcs, WORDS, 1, 3, 0, 3, 5) == CLURIMOON_DONE);
  for (slot = 0; slot < 9; ++slot) {
    put_cell(cell, arrives[slot], slot);
    r = clurimoon_slot(r, MEMORY, cell, arrives[slot] ? 53 : 0).record;
    /* Slot 6: a debt of 1, and a cell waits; slot 7: the cell alone; slot 8: it has left. */
    if (slot == 6 || slot == 7) CHECK(close_keeps(r, 1, CLURIMOON_WAITING));
  }
  CHECK(clurimoon_close(r, vcs, WORDS, 1, 1) == CLURIMOON_DONE);
}

/* Four verdicts, and all six numbers of each answer. */
static int answers_with(clurimoon_answer a, unsigned verdict, unsigned vci, unsigned d, unsigned space,
                        unsigned out_vci) {
  return a.number == 0 && a.verdict == verdict && a.vci == vci && a.d == d && a.space == space &&
         a.out_vci == out_vci;
}

static void verdicts(void) {
  uint8_t cell[53];
  clurimoon_record r = clurimoon_setup(N, V, false, CLURIMOON_UNI, 1, 1, MEMORY).record;
  clurimoon_served s;
  CHECK(clurimoon_open(r, vcs, WORDS, 1, 3, 0, 2, 5) == CLURIMOON_DONE);
  put_cell(cell, 3, 0x33);
  s = clurimoon_slot(r, MEMORY, cell, 53);
  CHECK(answers_with(s.answer, 1, 3, 0, 0, 3));
  s = clurimoon_slot(s.record, MEMORY, cell, 53);
  CHECK(answers_with(s.answer, 1, 3, 1, CLURIMOON_NONE, 0));
  s = clurimoon_slot(s.record, MEMORY, cell, 53);
  CHECK(answers_with(s.answer, 1, 3, 2, 0, 3));
  s = clurimoon_slot(s.record, MEMORY, cell, 53);
  CHECK(answers_with(s.answer, 1, 3, 3, CLURIMOON_NONE, 0));
  s = clurimoon_slot(s.record, MEMORY, cell, 53);
  CHECK(answers_with(s.answer, 2, 3, 0, 1, 3));
  put_cell(cell, 4, 0x44);
  s = clurimoon_slot(s.record, MEMORY, cell, 53);
  CHECK(answers_with(s.answer, 3, 4, 0, CLURIMOON_NONE, 0));
  put_cell(cell, 0, 0);
  s = clurimoon_slot(s.record, MEMORY, cell, 53);
  CHECK(answers_with(s.answer, 0, 0, 0, 0, 3));
}

/* The octet 5 that the first four ask for: long division, a bit at a time. */
static unsigned octet_5(const uint8_t *cell) {
  unsigned rest = 0, k;
  for (k = 0; k < 40; ++k) {
    rest = rest << 1 | (k < 32 ? cell[k / 8] >> (7 - k % 8) & 1u : 0);
    if (rest & 256) rest ^= 0x107;
  }
  return rest ^ 0x55;
}
static void change_bit(uint8_t *cell, unsigned bit) {
  cell[bit / 8] = (uint8_t)(cell[bit / 8] ^ 128 >> bit % 8);
}

/* A cell with its right octet 5, and then so many of its forty header bits wrong. */
static void put_raw(uint8_t *cell, unsigned vci, unsigned fill, unsigned wrong, unsigned bit) {
  unsigned k;
  put_cell(cell, vci, fill);
  cell[4] = (uint8_t)octet_5(cell);
  for (k = 0; k < wrong; ++k) change_bit(cell, (bit + 7 * k) % 40);
}

/* A slot that is lent this cell, and must leave it as it came. */
static clurimoon_served raw_slot(clurimoon_record r, const uint8_t *cell) {
  uint8_t before[53];
  clurimoon_served s;
  memcpy(before, cell, 53);
  s = clurimoon_slot(r, MEMORY, cell, 53);
  CHECK(memcmp(before, cell, 53) == 0);
  CHECK(s.record.raw == r.raw);
  return s;
}
static int shown(clurimoon_answer a, const uint8_t *cell) {
  clurimoon_part part = clurimoon_line(cells, sizeof cells, idle, 53, a.space);
  return part.from_idle == 0 && part.length == 53 && memcmp(cells + part.start, cell, 53) == 0;
}

static void known_octets(void) {
  static const uint8_t unassigned[4] = {0, 0, 0, 0}, idle_cell[4] = {0, 0, 0, 1};
  CHECK(octet_5(unassigned) == 0x55 && octet_5(idle_cell) == 0x52);
}

/* Each of the forty bits wrong, in correction and in detection. */
static void raw_single(unsigned bit) {
  uint8_t clean[53], cell[53];
  clurimoon_served s;
  clurimoon_record r = clurimoon_setup(N, V, true, CLURIMOON_UNI, 1, 1, MEMORY).record;
  CHECK(clurimoon_open(r, vcs, WORDS, 1, 3, 0, 1, 1) == CLURIMOON_DONE);
  put_raw(clean, 3, 0x33, 0, 0), put_raw(cell, 3, 0x33, 1, bit);
  s = raw_slot(r, cell);
  CHECK(answers_with(s.answer, CLURIMOON_ACCEPTED, 3, 0, 0, 3) && s.record.mode == CLURIMOON_DETECTION);
  CHECK(shown(s.answer, clean));
  s = raw_slot(s.record, cell);
  CHECK(answers_with(s.answer, CLURIMOON_DROPPED, 0, 0, CLURIMOON_NONE, 0) &&
        s.record.mode == CLURIMOON_DETECTION);
  /* No cell: the mode stays. */
  s = clurimoon_slot(s.record, MEMORY, NULL, 0);
  CHECK(answers_with(s.answer, 0, 0, 0, CLURIMOON_NONE, 0) && s.record.mode == CLURIMOON_DETECTION);
  s = raw_slot(s.record, clean);
  CHECK(answers_with(s.answer, CLURIMOON_ACCEPTED, 3, 0, 0, 3) && s.record.mode == CLURIMOON_CORRECTION);
  s = raw_slot(s.record, cell);
  CHECK(answers_with(s.answer, CLURIMOON_ACCEPTED, 3, 0, 0, 3) && shown(s.answer, clean));
  CHECK(clurimoon_audit(s.record, MEMORY));
}

/* Two wrong bits drop the cell, though another of the VC departs; not raw, nothing is looked at. */
static void raw_double(unsigned bit) {
  uint8_t clean[53], cell[53];
  clurimoon_served s;
  clurimoon_record r = clurimoon_setup(N, V, true, CLURIMOON_UNI, 1, 1, MEMORY).record;
  CHECK(clurimoon_open(r, vcs, WORDS, 1, 3, 0, 2, 5) == CLURIMOON_DONE);
  put_raw(clean, 3, 0x33, 0, 0), put_raw(cell, 3, 0x33, 2, bit);
  r = raw_slot(r, clean).record;
  s = raw_slot(r, clean);
  CHECK(answers_with(s.answer, CLURIMOON_ACCEPTED, 3, 1, CLURIMOON_NONE, 0));
  s = raw_slot(s.record, cell);
  CHECK(answers_with(s.answer, CLURIMOON_DROPPED, 0, 0, 0, 3) && s.record.mode == CLURIMOON_DETECTION);
  CHECK(vcs[3 * 12 + CLURIMOON_WORD_WAITING] == 0);
  r = clurimoon_setup(N, V, false, CLURIMOON_UNI, 1, 1, MEMORY).record;
  put_cell(cell, 3, 0x33), cell[4] = (uint8_t)(octet_5(cell) ^ bit);
  CHECK(clurimoon_open(r, vcs, WORDS, 1, 3, 0, 2, 5) == CLURIMOON_DONE);
  s = raw_slot(r, cell);
  CHECK(answers_with(s.answer, CLURIMOON_ACCEPTED, 3, 0, 0, 3) && shown(s.answer, cell));
  CHECK(s.record.raw == 0 && s.record.mode == 0);
}

/* Idle and unassigned cells are checked, too: clean, mended, dropped. */
static void raw_idle(void) {
  uint8_t cell[53], wrong[53];
  clurimoon_served s;
  clurimoon_record r = clurimoon_setup(N, V, true, CLURIMOON_UNI, 1, 1, MEMORY).record;
  unsigned last;
  for (last = 0; last < 2; ++last) {
    memset(cell, 0x6a, 53), memset(cell, 0, 4);
    cell[3] = (uint8_t)last, cell[4] = last ? 0x52 : 0x55;
    memcpy(wrong, cell, 53), change_bit(wrong, 26);
    s = raw_slot(r, wrong);
    CHECK(answers_with(s.answer, CLURIMOON_NOTHING, 0, 0, CLURIMOON_NONE, 0) && s.record.mode == 1);
    s = raw_slot(s.record, wrong);
    CHECK(answers_with(s.answer, CLURIMOON_DROPPED, 0, 0, CLURIMOON_NONE, 0) && s.record.mode == 1);
    s = raw_slot(s.record, cell);
    CHECK(answers_with(s.answer, CLURIMOON_NOTHING, 0, 0, CLURIMOON_NONE, 0) && s.record.mode == 0);
    r = s.record;
  }
}

/* raw is read when a cell is lent, mode when raw is 1: 3 then, and after 1, 2 and 9. */
static void raw_unfit(void) {
  uint8_t cell[54];
  clurimoon_served s;
  clurimoon_record good = clurimoon_setup(N, V, true, CLURIMOON_UNI, 1, 1, MEMORY).record, r = good;
  put_raw(cell, 3, 0x33, 0, 0);
  r.raw = 2;
  CHECK(!clurimoon_audit(r, MEMORY));
  s = raw_slot(r, cell);
  CHECK(refused(s.answer, CLURIMOON_STORED) && same_record(s.record, r));
  s = clurimoon_slot(r, MEMORY, NULL, 0);
  CHECK(s.answer.number == CLURIMOON_DONE && s.record.raw == 2);
  CHECK(refused(clurimoon_slot(r, MEMORY, cell, 52).answer, CLURIMOON_CELL_LENGTH));
  CHECK(refused(clurimoon_slot(r, NULL, 0, links, N, calendar, 2 * N, vcs, WORDS, bits, 32, arrived, N, cell, 53).answer,
                CLURIMOON_LENGTH));
  r.n = 0;
  CHECK(refused(clurimoon_slot(r, MEMORY, cell, 53).answer, CLURIMOON_RANGE));
  r = good, r.mode = 2;
  CHECK(!clurimoon_audit(r, MEMORY));
  s = raw_slot(r, cell);
  CHECK(refused(s.answer, CLURIMOON_STORED) && same_record(s.record, r));
  CHECK(clurimoon_slot(r, MEMORY, NULL, 0).answer.number == CLURIMOON_DONE);
  r.raw = 0;
  CHECK(!clurimoon_audit(r, MEMORY));
  s = raw_slot(r, cell);
  CHECK(s.answer.number == CLURIMOON_DONE && s.answer.verdict == CLURIMOON_UNKNOWN && s.record.mode == 2);
  r = good, r.raw = 0, r.mode = 1;
  CHECK(clurimoon_audit(r, MEMORY));
  /* A slot that is refused keeps the mode, though its header would have moved it. */
  r = good, r.T = N, change_bit(cell, 17);
  s = raw_slot(r, cell);
  CHECK(refused(s.answer, CLURIMOON_STORED) && same_record(s.record, r));
}

/* A burst goes on in the mode of the slot before; its departures are the mended cells. */
static void raw_burst(void) {
  enum { K = 6 };
  static const unsigned wrong[K] = {1, 1, 0, 1, 0, 2}, verdict[K] = {1, 4, 1, 1, 1, 4};
  static uint8_t arrivals[53 * K], before[53 * K], sizes[K], departures[53 * K];
  static uint16_t answers[6 * K];
  uint8_t clean[53];
  unsigned k;
  clurimoon_burst_end e;
  clurimoon_record r = clurimoon_setup(N, V, true, CLURIMOON_UNI, 1, 1, MEMORY).record;
  CHECK(clurimoon_open(r, vcs, WORDS, 1, 3, 0, 1, 1) == CLURIMOON_DONE);
  for (k = 0; k < K; ++k) put_raw(arrivals + 53 * k, 3, 0x40 + k, wrong[k], 5 * k + 30), sizes[k] = 53;
  memcpy(before, arrivals, sizeof before), memset(departures, 0xee, sizeof departures);
  e = clurimoon_burst(r, MEMORY, arrivals, sizeof arrivals, sizes, K, departures, sizeof departures, answers,
                      6 * K);
  CHECK(e.number == CLURIMOON_DONE && e.done == K);
  CHECK(e.record.mode == CLURIMOON_DETECTION && e.record.raw == 1);
  CHECK(memcmp(before, arrivals, sizeof before) == 0);
  for (k = 0; k < K; ++k) {
    put_raw(clean, 3, 0x40 + k, 0, 0);
    CHECK(answers[6 * k + CLURIMOON_ANSWER_VERDICT] == verdict[k]);
    CHECK(answers[6 * k + CLURIMOON_ANSWER_VCI] == (verdict[k] == 1 ? 3 : 0));
    if (verdict[k] == 1) CHECK(memcmp(departures + 53 * k, clean, 53) == 0);
    else CHECK(departures[53 * k] == 0xee && departures[53 * k + 52] == 0xee);
  }
}

/* Opens VC 1 with a second bucket, which is to be refused with this number, and nothing written. */
static int opens_with(clurimoon_record r, uint8_t m, uint32_t f, uint32_t c, uint8_t m2, uint32_t f2, uint32_t c2,
                      uint8_t tag, unsigned number) {
  uint32_t before[WORDS];
  memcpy(before, vcs, sizeof vcs);
  return clurimoon_open_sustained(r, vcs, WORDS, 1, 1, m, f, c, m2, f2, c2, tag) == number &&
         (number == 0 || memcmp(before, vcs, sizeof vcs) == 0);
}

/* Every limit of 11, on both sides; 6 comes before it, and 5 before both. */
static void second_limits(void) {
  clurimoon_record r = clurimoon_setup(N, V, false, CLURIMOON_UNI, 1, 1, MEMORY).record, small = r;
  unsigned k;
  small.v = 1;
  CHECK(opens_with(small, 0, 1, 1, 0, 1, 1, 0, CLURIMOON_RANGE));
  CHECK(clurimoon_open_sustained(r, vcs, 7 * V, 1, 1, 0, 1, 1, 0, 1, 1, 0) == CLURIMOON_LENGTH);
  CHECK(clurimoon_open_sustained(r, vcs, WORDS, 1, V, 0, 1, 1, 16, 1, 1, 0) == CLURIMOON_VCI);
  CHECK(opens_with(r, 2, 10, 30, 16, 1, 1, 2, CLURIMOON_RULES));
  CHECK(opens_with(r, 2, 10, 29, 16, 1, 1, 0, CLURIMOON_SECOND));
  CHECK(opens_with(r, 2, 10, 29, 0, 0, 1, 0, CLURIMOON_SECOND));
  CHECK(opens_with(r, 2, 10, 29, 1, 0, 0, 0, CLURIMOON_SECOND));
  CHECK(opens_with(r, 2, 10, 29, 0, 0, 0, 1, CLURIMOON_SECOND));
  CHECK(opens_with(r, 2, 10, 29, 0, 16777217, 16777217, 0, CLURIMOON_SECOND));
  CHECK(opens_with(r, 2, 10, 29, 0, 2, 1, 0, CLURIMOON_SECOND));
  CHECK(opens_with(r, 2, 10, 29, 0, 2, CLURIMOON_C2_MAX + 1u, 0, CLURIMOON_SECOND));
  CHECK(opens_with(r, 2, 10, 29, 0, 2, 2, 2, CLURIMOON_SECOND));
  /* F below L, the greatest C, and all twelve words in their places. */
  CHECK(opens_with(r, 2, 10, 29, 15, 3, CLURIMOON_C2_MAX, 1, CLURIMOON_DONE));
  CHECK(vcs[12 + CLURIMOON_WORD_OPEN] == 1 && vcs[12 + CLURIMOON_WORD_M] == 2 && vcs[12 + CLURIMOON_WORD_F] == 10);
  CHECK(vcs[12 + CLURIMOON_WORD_C] == 29 && vcs[12 + CLURIMOON_WORD_S] == 0 && vcs[12 + CLURIMOON_WORD_WAITING] == 0);
  CHECK(vcs[12 + CLURIMOON_WORD_LAST] == 4294967295u && vcs[12 + CLURIMOON_WORD_M2] == 15);
  CHECK(vcs[12 + CLURIMOON_WORD_F2] == 3 && vcs[12 + CLURIMOON_WORD_C2] == CLURIMOON_C2_MAX);
  CHECK(vcs[12 + CLURIMOON_WORD_S2] == 0 && vcs[12 + CLURIMOON_WORD_TAG] == 1);
  CHECK(opens_with(r, 2, 10, 30, 16, 1, 1, 2, CLURIMOON_ALREADY_OPEN));
  CHECK(clurimoon_audit(r, MEMORY));
  /* Each of the five words as stored: 3 in open and close, no to the audit. */
  for (k = 7; k < 12; ++k) {
    const uint32_t before = vcs[12 + k];
    vcs[12 + k] = k == 7 ? 16 : k == 8 ? 0 : k == 9 ? 2 : k == 10 ? CLURIMOON_C2_MAX + 1u : 2;
    CHECK(opens_with(r, 2, 10, 29, 0, 1, 1, 0, CLURIMOON_STORED) && close_keeps(r, 1, CLURIMOON_STORED));
    CHECK(!clurimoon_audit(r, MEMORY));
    vcs[12 + k] = before;
  }
  CHECK(clurimoon_close(r, vcs, WORDS, 1, 1) == CLURIMOON_DONE);
  for (k = 0; k < 12; ++k) CHECK(vcs[12 + k] == 0);
  CHECK(opens_with(r, 15, 32768, 32768, 0, 0, 0, 0, CLURIMOON_DONE) && vcs[12 + CLURIMOON_WORD_C] == 32768);
}

/* A cell with this VPI, of twelve bits at the NNI; at the UNI the high four are the GFC. */
static void put_path_cell(uint8_t *cell, unsigned vpi, unsigned vci, unsigned fill) {
  put_cell(cell, vci, fill);
  cell[0] = (uint8_t)(vpi >> 4), cell[1] = (uint8_t)(cell[1] | (vpi & 15) << 4);
}

/* Every refusal of a path's open and close, and all twelve words in their places. */
static void path_calls(void) {
  static const uint16_t outside[4] = {0, 256, 257, 65535};
  enum { P = 12 * (V + 7) };
  uint32_t before[WORDS];
  clurimoon_record r = clurimoon_setup(N, V, false, CLURIMOON_UNI, 1, 1, MEMORY).record, small = r;
  unsigned k;
  small.v = 1;
  CHECK(clurimoon_open_path(small, vcs, WORDS, 1, 7, 2, 10, 29, 0, 0, 0, 0) == CLURIMOON_RANGE);
  CHECK(clurimoon_close_path(small, vcs, WORDS, 1, 7) == CLURIMOON_RANGE);
  CHECK(clurimoon_open_path(r, vcs, 12 * V, 1, 7, 2, 10, 29, 0, 0, 0, 0) == CLURIMOON_LENGTH);
  CHECK(clurimoon_close_path(r, vcs, WORDS - 12, 1, 7) == CLURIMOON_LENGTH);
  for (k = 0; k < 4; ++k) {
    CHECK(clurimoon_open_path(r, vcs, WORDS, 1, outside[k], 16, 0, 0, 16, 0, 0, 2) == CLURIMOON_VCI);
    CHECK(clurimoon_close_path(r, vcs, WORDS, 1, outside[k]) == CLURIMOON_VCI);
  }
  CHECK(clurimoon_open_path(r, vcs, WORDS, 1, 7, 2, 10, 30, 16, 1, 1, 0) == CLURIMOON_RULES);
  CHECK(clurimoon_open_path(r, vcs, WORDS, 1, 7, 2, 10, 29, 16, 1, 1, 0) == CLURIMOON_SECOND);
  CHECK(clurimoon_close_path(r, vcs, WORDS, 1, 7) == CLURIMOON_NOT_OPEN);
  memcpy(before, vcs, sizeof vcs);
  CHECK(clurimoon_open_path(r, vcs, WORDS, 1, 7, 2, 10, 29, 15, 3, CLURIMOON_C2_MAX, 1) == CLURIMOON_DONE);
  CHECK(vcs[P + CLURIMOON_WORD_OPEN] == 1 && vcs[P + CLURIMOON_WORD_M] == 2 && vcs[P + CLURIMOON_WORD_F] == 10);
  CHECK(vcs[P + CLURIMOON_WORD_C] == 29 && vcs[P + CLURIMOON_WORD_S] == 0 && vcs[P + CLURIMOON_WORD_WAITING] == 0);
  CHECK(vcs[P + CLURIMOON_WORD_LAST] == 4294967295u && vcs[P + CLURIMOON_WORD_M2] == 15);
  CHECK(vcs[P + CLURIMOON_WORD_F2] == 3 && vcs[P + CLURIMOON_WORD_C2] == CLURIMOON_C2_MAX);
  CHECK(vcs[P + CLURIMOON_WORD_S2] == 0 && vcs[P + CLURIMOON_WORD_TAG] == 1);
  CHECK(clurimoon_open_path(r, vcs, WORDS, 1, 7, 16, 0, 0, 16, 0, 0, 2) == CLURIMOON_ALREADY_OPEN);
  /* Path 7 is not VC 7, and not VC V + 7. */
  CHECK(clurimoon_close(r, vcs, WORDS, 1, 7) == CLURIMOON_NOT_OPEN && clurimoon_close(r, vcs, WORDS, 1, V + 7) == CLURIMOON_VCI);
  CHECK(clurimoon_audit(r, MEMORY));
  vcs[P] = 2;
  CHECK(clurimoon_open_path(r, vcs, WORDS, 1, 7, 16, 0, 0, 16, 0, 0, 2) == CLURIMOON_STORED);
  CHECK(clurimoon_close_path(r, vcs, WORDS, 1, 7) == CLURIMOON_STORED && !clurimoon_audit(r, MEMORY));
  vcs[P] = 1;
  CHECK(clurimoon_close_path(r, vcs, WORDS, 1, 7) == CLURIMOON_DONE && memcmp(before, vcs, sizeof vcs) == 0);
  /* The words of numbers 0 and V are nobody's. */
  vcs[0] = vcs[12 * V] = 2, vcs[12 * V + CLURIMOON_WORD_WAITING] = 99;
  CHECK(clurimoon_audit(r, MEMORY));
  r.rotation = V - 1;
  CHECK(clurimoon_slot(r, MEMORY, NULL, 0).answer.number == CLURIMOON_DONE);
  r.rotation = V + 256;
  CHECK(!clurimoon_audit(r, MEMORY) && refused(clurimoon_slot(r, MEMORY, NULL, 0).answer, CLURIMOON_STORED));
}

/* One bucket for a path's cells, whatever their VCI, beside a VC whose VCI they may have. */
static void path_traffic(uint16_t kind, bool raw) {
  static const unsigned vcis[5] = {3, 0, 65535, V, 1};
  const unsigned gfc = kind == CLURIMOON_UNI ? 0xa00 : 0; /* above the eight bits of the VPI */
  uint8_t cell[53];
  unsigned k;
  clurimoon_record r = clurimoon_setup(N, V, raw, kind, 1, 1, MEMORY).record;
  clurimoon_served s;
  CHECK(clurimoon_open(r, vcs, WORDS, 1, 3, 0, 1, 1) == CLURIMOON_DONE);
  CHECK(clurimoon_open_path(r, vcs, WORDS, 1, 255, 0, 2, 4, 0, 0, 0, 0) == CLURIMOON_DONE);
  for (k = 0; k < 5; ++k) {
    /* A cell in each slot, of a path with one in two: D 0, 1, 2, excess, 2. */
    static const unsigned d[5] = {0, 1, 2, 0, 2}, space[5] = {0, CLURIMOON_NONE, 0, CLURIMOON_NONE, 1};
    put_path_cell(cell, 255 | gfc, vcis[k], k), cell[4] = (uint8_t)octet_5(cell);
    s = raw_slot(r, cell);
    CHECK(answers_with(s.answer, k == 3 ? CLURIMOON_EXCESS : CLURIMOON_ACCEPTED, V + 255, d[k], space[k], space[k] == CLURIMOON_NONE ? 0 : V + 255));
    r = s.record;
  }
  CHECK(clurimoon_audit(r, MEMORY) && vcs[12 * (V + 255) + CLURIMOON_WORD_WAITING] == 1);
  CHECK(clurimoon_close_path(r, vcs, WORDS, 1, 255) == CLURIMOON_WAITING);
  /* VC 3 has its own bucket, and its cells have VPI 0; a closed path is unknown, with the VCI as read. */
  put_path_cell(cell, gfc, 3, 0x44), cell[4] = (uint8_t)octet_5(cell);
  s = raw_slot(r, cell);
  CHECK(answers_with(s.answer, CLURIMOON_ACCEPTED, 3, 0, 1, 3) && shown(s.answer, cell));
  put_path_cell(cell, 254 | gfc, 3, 0x44), cell[4] = (uint8_t)octet_5(cell);
  s = raw_slot(s.record, cell);
  CHECK(answers_with(s.answer, CLURIMOON_UNKNOWN, 3, 0, 0, V + 255));
  put_path_cell(cell, 254 | gfc, 0, 0x44), cell[4] = (uint8_t)octet_5(cell);
  s = raw_slot(s.record, cell);
  CHECK(answers_with(s.answer, CLURIMOON_UNKNOWN, 0, 0, CLURIMOON_NONE, 0));
  /* Four bits above a VC's header, and above the path's: GFC at the UNI, VPI at the NNI. */
  put_path_cell(cell, 0x100, 3, 0x45), cell[4] = (uint8_t)octet_5(cell);
  s = raw_slot(s.record, cell);
  CHECK(kind == CLURIMOON_UNI ? answers_with(s.answer, CLURIMOON_ACCEPTED, 3, 0, 0, 3)
                              : answers_with(s.answer, CLURIMOON_UNKNOWN, 3, 0, CLURIMOON_NONE, 0));
  put_path_cell(cell, 0xfff, 3, 0x46), cell[4] = (uint8_t)octet_5(cell);
  s = raw_slot(s.record, cell);
  CHECK(s.answer.verdict == (kind == CLURIMOON_UNI ? CLURIMOON_ACCEPTED : CLURIMOON_UNKNOWN));
  CHECK(s.answer.vci == (kind == CLURIMOON_UNI ? V + 255 : 3));
  put_path_cell(cell, 0x800, 0, 0x47), cell[4] = (uint8_t)octet_5(cell);
  s = raw_slot(s.record, cell);
  CHECK(s.answer.verdict == (kind == CLURIMOON_UNI ? CLURIMOON_NOTHING : CLURIMOON_UNKNOWN) && s.answer.vci == 0);
  CHECK(clurimoon_audit(s.record, MEMORY));
}

/* The kind is read where a header is: of a cell that was not dropped, and of one that departs. */
static void kind_unfit(void) {
  uint8_t cell[54];
  clurimoon_served s;
  clurimoon_record good = clurimoon_setup(N, V, true, CLURIMOON_NNI, 1, 1, MEMORY).record, r;
  memset(cell, 0, sizeof cell), put_raw(cell, 3, 0x33, 0, 0);
  CHECK(clurimoon_open(good, vcs, WORDS, 1, 3, 0, 2, 5) == CLURIMOON_DONE);
  r = good, r.kind = 2;
  CHECK(!clurimoon_audit(r, MEMORY));
  s = raw_slot(r, cell);
  CHECK(refused(s.answer, CLURIMOON_STORED) && same_record(s.record, r));
  CHECK(clurimoon_close(r, vcs, WORDS, 1, 3) == CLURIMOON_DONE && clurimoon_open(r, vcs, WORDS, 1, 3, 0, 2, 5) == CLURIMOON_DONE);
  CHECK(refused(clurimoon_slot(r, MEMORY, cell, 54).answer, CLURIMOON_CELL_LENGTH));
  s = clurimoon_slot(r, MEMORY, NULL, 0);
  CHECK(answers_with(s.answer, 0, 0, 0, CLURIMOON_NONE, 0) && s.record.kind == 2);
  change_bit(cell, 3), change_bit(cell, 17);
  s = raw_slot(r, cell);
  CHECK(answers_with(s.answer, CLURIMOON_DROPPED, 0, 0, CLURIMOON_NONE, 0) && s.record.kind == 2);
  /* An idle cell has a header, too. */
  memset(cell, 0, 53), cell[4] = 0x55;
  CHECK(refused(raw_slot(r, cell).answer, CLURIMOON_STORED));
  put_raw(cell, 3, 0x33, 0, 0);
  r = raw_slot(good, cell).record;
  r = raw_slot(r, cell).record;
  /* The second is due in the next slot: then its header is read. */
  r.kind = 65535;
  s = clurimoon_slot(r, MEMORY, NULL, 0);
  CHECK(refused(s.answer, CLURIMOON_STORED) && same_record(s.record, r));
  r.kind = CLURIMOON_NNI;
  CHECK(answers_with(clurimoon_slot(r, MEMORY, NULL, 0).answer, 0, 0, 0, 0, 3));
}

/* A path with a second bucket: above it a cell is tagged, whatever its VCI. */
static void path_tags(void) {
  uint8_t cell[53], line[53];
  clurimoon_record r = clurimoon_setup(N, V, false, CLURIMOON_NNI, 1, 1, MEMORY).record;
  clurimoon_served s;
  CHECK(clurimoon_open_path(r, vcs, WORDS, 1, 9, 0, 1, 1, 0, 9, 9, 1) == CLURIMOON_DONE);
  put_path_cell(cell, 9, 77, 0x31);
  s = clurimoon_slot(r, MEMORY, cell, 53);
  CHECK(answers_with(s.answer, CLURIMOON_ACCEPTED, V + 9, 0, 0, V + 9) && shown(s.answer, cell));
  put_path_cell(cell, 9, 78, 0x32);
  memcpy(line, cell, 53), line[3] = (uint8_t)(line[3] | 1), line[4] = (uint8_t)octet_5(line);
  s = clurimoon_slot(s.record, MEMORY, cell, 53);
  CHECK(answers_with(s.answer, CLURIMOON_TAGGED, V + 9, 0, 0, V + 9) && shown(s.answer, line));
}

/* VC 3 at line rate, beside one CLP 0 cell in four slots and a tolerance of four: with and without the flag. */
static void tagging(bool tags, bool raw) {
  static const unsigned clp[8] = {0, 0, 0, 1, 0, 0, 0, 1}, fits[8] = {1, 1, 0, 1, 1, 0, 0, 1};
  uint8_t cell[53], line[53];
  unsigned k;
  clurimoon_record r = clurimoon_setup(N, V, raw, CLURIMOON_UNI, 1, 1, MEMORY).record;
  CHECK(clurimoon_open_sustained(r, vcs, WORDS, 1, 3, 0, 1, 1, 2, 16, 32, tags ? 1 : 0) == CLURIMOON_DONE);
  for (k = 0; k < 8; ++k) {
    const unsigned verdict = fits[k] ? CLURIMOON_ACCEPTED : tags ? CLURIMOON_TAGGED : CLURIMOON_EXCESS;
    clurimoon_served s;
    put_cell(cell, 3, 0x60 + k);
    cell[3] = (uint8_t)(cell[3] | 14 | clp[k]);
    cell[4] = (uint8_t)(raw ? octet_5(cell) : 0x77);
    memcpy(line, cell, 53);
    if (verdict == CLURIMOON_TAGGED) line[3] = (uint8_t)(line[3] | 1), line[4] = (uint8_t)octet_5(line);
    s = raw_slot(r, cell);
    if (verdict == CLURIMOON_EXCESS) {
      CHECK(answers_with(s.answer, CLURIMOON_EXCESS, 3, 0, CLURIMOON_NONE, 0));
    } else {
      CHECK(answers_with(s.answer, verdict, 3, 0, 0, 3) && shown(s.answer, line) && arrived[0] == k);
    }
    r = s.record;
  }
  /* Slots 0, 1 and 4 filled the second bucket, and 20 are left in it. Closing looks at the peak alone, whose debt is paid
     in slot 8. */
  CHECK(vcs[36 + CLURIMOON_WORD_S2] == 20 && vcs[36 + CLURIMOON_WORD_LAST] == 7);
  CHECK(close_keeps(r, 3, CLURIMOON_WAITING));
  r = clurimoon_slot(r, MEMORY, NULL, 0).record;
  CHECK(clurimoon_close(r, vcs, WORDS, 1, 3) == CLURIMOON_DONE && clurimoon_audit(r, MEMORY));
  for (k = 0; k < 12; ++k) CHECK(vcs[36 + k] == 0);
}

/* Above both buckets a cell is excess, whatever the flag. */
static void above_both(void) {
  uint8_t cell[53];
  clurimoon_record r = clurimoon_setup(N, V, false, CLURIMOON_UNI, 1, 1, MEMORY).record;
  clurimoon_served s;
  CHECK(clurimoon_open_sustained(r, vcs, WORDS, 1, 3, 0, 2, 2, 0, 9, 9, 1) == CLURIMOON_DONE);
  put_cell(cell, 3, 0x33);
  s = clurimoon_slot(r, MEMORY, cell, 53);
  CHECK(answers_with(s.answer, CLURIMOON_ACCEPTED, 3, 0, 0, 3));
  s = clurimoon_slot(s.record, MEMORY, cell, 53);
  CHECK(answers_with(s.answer, CLURIMOON_EXCESS, 3, 0, CLURIMOON_NONE, 0));
  CHECK(vcs[36 + CLURIMOON_WORD_S] == 1 && vcs[36 + CLURIMOON_WORD_S2] == 8);
  s = clurimoon_slot(s.record, MEMORY, cell, 53);
  CHECK(answers_with(s.answer, CLURIMOON_TAGGED, 3, 0, 0, 3));
  CHECK(vcs[36 + CLURIMOON_WORD_S] == 2 && vcs[36 + CLURIMOON_WORD_S2] == 7);
}

static void line_parts(void) {
  clurimoon_part part = clurimoon_line(cells, sizeof cells, idle, 53, 4);
  CHECK(part.from_idle == 0 && part.start == 4 * 53 && part.length == 53);
  part = clurimoon_line(cells, sizeof cells, idle, 53, CLURIMOON_NONE);
  CHECK(part.from_idle == 1 && part.start == 0 && part.length == 53);
  part = clurimoon_line(cells, sizeof cells, idle, 53, 5);
  CHECK(part.from_idle == 1 && part.start == 0 && part.length == 0);
  part = clurimoon_line(cells, sizeof cells - 53 + 1, idle, 53, 0);
  CHECK(part.from_idle == 1 && part.start == 0 && part.length == 0);
}

/* All that a refused slot must leave as it came. */
static int refused_unchanged(clurimoon_record r, const uint8_t *cell, size_t length) {
  static uint8_t cells_before[sizeof cells];
  static uint16_t links_before[N], calendar_before[2 * N];
  static uint32_t vcs_before[WORDS];
  static uint64_t bits_before[32];
  static uint32_t arrived_before[N];
  clurimoon_served s;
  memcpy(cells_before, cells, sizeof cells), memcpy(links_before, links, sizeof links);
  memcpy(calendar_before, calendar, sizeof calendar), memcpy(vcs_before, vcs, sizeof vcs);
  memcpy(bits_before, bits, sizeof bits), memcpy(arrived_before, arrived, sizeof arrived);
  s = clurimoon_slot(r, MEMORY, cell, length);
  return refused(s.answer, CLURIMOON_STORED) && same_record(s.record, r) && memcmp(cells_before, cells, sizeof cells) == 0 &&
         memcmp(links_before, links, sizeof links) == 0 && memcmp(calendar_before, calendar, sizeof calendar) == 0 &&
         memcmp(vcs_before, vcs, sizeof vcs) == 0 && memcmp(bits_before, bits, sizeof bits) == 0 &&
         memcmp(arrived_before, arrived, sizeof arrived) == 0;
}

/* Bits and number of free spaces: 3 where a space is taken, and where one is freed; not read elsewhere. */
static void free_spaces(void) {
  static const uint16_t numbers[6] = {0, N - 2, N, N + 1, 1024, 65535};
  uint8_t cell[53];
  unsigned k;
  clurimoon_served s;
  clurimoon_record good = clurimoon_setup(N, V, false, CLURIMOON_UNI, 1, 1, MEMORY).record, r;
  CHECK(clurimoon_open(good, vcs, WORDS, 1, 3, 0, 2, 5) == CLURIMOON_DONE);
  put_cell(cell, 3, 0x33);
  /* The second of two cells waits in space 0, due in the next slot, which would also accept one. */
  good = clurimoon_slot(good, MEMORY, cell, 53).record;
  CHECK(good.free == N && bits[0] == 0x1f);
  good = clurimoon_slot(good, MEMORY, cell, 53).record;
  CHECK(good.free == N - 1 && bits[0] == 0x1e && clurimoon_audit(good, MEMORY));
  for (k = N; k < 1024; ++k) {
    /* A bit at or above N, counted or not. */
    bits[k / 64] |= (uint64_t)1 << k % 64;
    for (r = good; r.free < N + 1; ++r.free) {
      CHECK(refused_unchanged(r, cell, 53) && refused_unchanged(r, NULL, 0) && !clurimoon_audit(r, MEMORY));
    }
    bits[k / 64] ^= (uint64_t)1 << k % 64;
  }
  for (k = 0; k < 6; ++k) {
    r = good, r.free = numbers[k];
    CHECK(refused_unchanged(r, cell, 53) && refused_unchanged(r, NULL, 0) && !clurimoon_audit(r, MEMORY));
  }
  /* None free for a cell: a space that is neither free nor queued is lost, for the audit too. */
  bits[0] = 0, r = good, r.free = 0;
  CHECK(refused_unchanged(r, cell, 53) && !clurimoon_audit(r, MEMORY));
  /* A freed space already free. Taken first it is no longer free when it departs. */
  bits[0] = 0x1f, r.free = N;
  CHECK(refused_unchanged(r, NULL, 0) && !clurimoon_audit(r, MEMORY));
  s = clurimoon_slot(r, MEMORY, cell, 53);
  CHECK(answers_with(s.answer, CLURIMOON_ACCEPTED, 3, 2, 0, 3) && s.record.free == N && bits[0] == 0x1f);
  /* Neither taken nor freed: nothing is read. */
  r = clurimoon_setup(N, V, false, CLURIMOON_UNI, 1, 1, MEMORY).record;
  memset(bits, 0xff, sizeof bits), r.free = 6666;
  s = clurimoon_slot(r, MEMORY, cell, 53);
  CHECK(answers_with(s.answer, CLURIMOON_UNKNOWN, 3, 0, CLURIMOON_NONE, 0) && s.record.free == 6666);
  for (k = 0; k < 32; ++k) CHECK(bits[k] == UINT64_MAX);
}

/* Splits at setup: both sides of each edge, before the kind and the lengths. */
static void splits(void) {
  static const uint16_t vcis[6] = {0, 1, V - 1, V, V + 1, 65535}, paths[6] = {0, 1, 255, 256, 257, 65535};
  unsigned k, j;
  for (k = 0; k < 6; ++k) {
    for (j = 0; j < 6; ++j) {
      const int fit = (k == 1 || k == 2) && (j == 1 || j == 2);
      clurimoon_set set = clurimoon_setup(N, V, false, CLURIMOON_NNI, vcis[k], paths[j], MEMORY);
      clurimoon_record zeros;
      memset(&zeros, 0, sizeof zeros);
      CHECK(set.number == (fit ? CLURIMOON_DONE : CLURIMOON_RANGE));
      if (fit) CHECK(set.record.split_vci == vcis[k] && set.record.split_path == paths[j] && clurimoon_audit(set.record, MEMORY));
      else CHECK(same_record(set.record, zeros));
      CHECK(clurimoon_setup(N, V, false, 2, vcis[k], paths[j], MEMORY).number == (fit ? CLURIMOON_KIND : CLURIMOON_RANGE));
      CHECK(clurimoon_setup(N, V, false, 1, vcis[k], paths[j], NO_MEMORY).number == (fit ? CLURIMOON_LENGTH : CLURIMOON_RANGE));
    }
  }
  CHECK(clurimoon_setup(N, 2, false, 1, 1, 1, cells, sizeof cells, links, N, calendar, 2 * N, vcs, 12 * 258, bits, 32, arrived, N).number == CLURIMOON_DONE);
  CHECK(clurimoon_setup(N, 2, false, 1, 2, 1, cells, sizeof cells, links, N, calendar, 2 * N, vcs, 12 * 258, bits, 32, arrived, N).number == CLURIMOON_RANGE);
}

/* Each of the five calls by each operator, on each connection: only its owner is let through, whatever the words hold. */
static int refuses(clurimoon_record r, uint16_t owner, unsigned path, uint16_t number, unsigned with) {
  static uint32_t before[WORDS];
  unsigned holds;
  memcpy(before, vcs, sizeof vcs);
  if (path) {
    holds = clurimoon_open_path(r, vcs, WORDS, owner, number, 16, 0, 0, 16, 0, 0, 2) == with && clurimoon_close_path(r, vcs, WORDS, owner, number) == with;
  } else {
    holds = clurimoon_open(r, vcs, WORDS, owner, number, 16, 0, 0) == with && clurimoon_close(r, vcs, WORDS, owner, number) == with &&
            clurimoon_open_sustained(r, vcs, WORDS, owner, number, 16, 0, 0, 16, 0, 0, 2) == with;
  }
  return holds && memcmp(before, vcs, sizeof vcs) == 0;
}

static void operators(void) {
  static const uint16_t nobody[5] = {2, 3, 255, 256, 65535};
  clurimoon_record r = clurimoon_setup(N, V, false, CLURIMOON_UNI, 4, 200, MEMORY).record, small;
  unsigned c, k;
  for (c = 1; c < V; ++c) {
    const uint16_t owner = c < 4 ? 0 : 1, other = c < 4 ? 1 : 0;
    CHECK(refuses(r, other, 0, (uint16_t)c, CLURIMOON_NOT_OWNER));
    CHECK(clurimoon_open(r, vcs, WORDS, owner, (uint16_t)c, 0, 2, 5) == CLURIMOON_DONE);
    CHECK(refuses(r, other, 0, (uint16_t)c, CLURIMOON_NOT_OWNER));
    for (k = 0; k < 5; ++k) CHECK(refuses(r, nobody[k], 0, (uint16_t)c, CLURIMOON_NOT_OWNER));
    /* Before any word is read: 16, where the owner would get 3. */
    vcs[12 * c] = 2;
    CHECK(refuses(r, other, 0, (uint16_t)c, CLURIMOON_NOT_OWNER) && refuses(r, owner, 0, (uint16_t)c, CLURIMOON_STORED));
    vcs[12 * c] = 1;
    CHECK(clurimoon_close(r, vcs, WORDS, owner, (uint16_t)c) == CLURIMOON_DONE);
  }
  for (c = 1; c < 256; ++c) {
    const uint16_t owner = c < 200 ? 0 : 1, other = c < 200 ? 1 : 0;
    CHECK(refuses(r, other, 1, (uint16_t)c, CLURIMOON_NOT_OWNER) && refuses(r, 2, 1, (uint16_t)c, CLURIMOON_NOT_OWNER));
    CHECK(clurimoon_open_path(r, vcs, WORDS, owner, (uint16_t)c, 0, 2, 5, 0, 0, 0, 0) == CLURIMOON_DONE);
    vcs[12 * (V + c) + 1] = 16;
    CHECK(refuses(r, other, 1, (uint16_t)c, CLURIMOON_NOT_OWNER) && refuses(r, owner, 1, (uint16_t)c, CLURIMOON_STORED));
    vcs[12 * (V + c) + 1] = 0;
    CHECK(clurimoon_close_path(r, vcs, WORDS, owner, (uint16_t)c) == CLURIMOON_DONE);
  }
  /* 4 comes before 16, and 2 before 4; 1 is for a stored split out of its range, too, before 2. */
  for (k = 0; k < 2; ++k) {
    CHECK(refuses(r, 2, k, 0, CLURIMOON_VCI) && refuses(r, 0, k, k ? 256 : V, CLURIMOON_VCI) && refuses(r, 1, k, 65535, CLURIMOON_VCI));
    small = r, small.split_vci = k ? V : 0;
    CHECK(refuses(small, 1, k, 5, CLURIMOON_RANGE) && refuses(small, 2, k, 0, CLURIMOON_RANGE) && !clurimoon_audit(small, MEMORY));
    CHECK(clurimoon_open(small, NULL, 0, 1, 1, 0, 1, 1) == CLURIMOON_RANGE && clurimoon_close(small, NULL, 0, 1, 1) == CLURIMOON_RANGE);
    small = r, small.split_path = k ? 256 : 0;
    CHECK(refuses(small, 1, k, 5, CLURIMOON_RANGE) && refuses(small, 2, k, 0, CLURIMOON_RANGE) && !clurimoon_audit(small, MEMORY));
    /* Neither a slot nor next reads them. */
    CHECK(clurimoon_slot(small, MEMORY, NULL, 0).answer.number == CLURIMOON_DONE);
    CHECK(clurimoon_next(small, calendar, 2 * N, bits, 32).number == CLURIMOON_DONE);
  }
  CHECK(clurimoon_open(r, vcs, 12 * V, 2, 0, 0, 1, 1) == CLURIMOON_LENGTH);
}

/* How long until a cell leaves; a refusal has no slots. */
static int waits(clurimoon_record r, unsigned number, unsigned slots) {
  uint16_t calendar_before[2 * N];
  uint64_t bits_before[32];
  clurimoon_wait w;
  memcpy(calendar_before, calendar, sizeof calendar), memcpy(bits_before, bits, sizeof bits);
  w = clurimoon_next(r, calendar, 2 * N, bits, 32);
  return w.number == number && w.slots == slots && memcmp(calendar_before, calendar, sizeof calendar) == 0 &&
         memcmp(bits_before, bits, sizeof bits) == 0;
}

/* A VC with one cell in three slots: its cells are due in slots 0, 3 and 6, and one that is excess. */
static void next_leaves(void) {
  static const unsigned left[8] = {1, 0, 0, 1, 0, 0, 1, 0}, slots[8] = {0, 2, 1, 3, 2, 1, 0, 0};
  uint8_t cell[53];
  unsigned k;
  clurimoon_record r = clurimoon_setup(N, V, false, CLURIMOON_UNI, 1, 1, MEMORY).record;
  clurimoon_served s;
  CHECK(waits(r, CLURIMOON_DONE, 0));
  CHECK(clurimoon_open(r, vcs, WORDS, 1, 3, 0, 3, 7) == CLURIMOON_DONE && waits(r, CLURIMOON_DONE, 0));
  put_cell(cell, 3, 0x33);
  for (k = 0; k < 8; ++k) {
    /* Slots 0, 1, 2 and 3 have a cell. T is k modulo 5, so that the entry of slot 6 stands behind the ring's end. */
    static const unsigned entries[8] = {0, 8, 8 | 2, 2, 2, 2, 0, 0};
    s = clurimoon_slot(r, MEMORY, k < 4 ? cell : NULL, k < 4 ? 53 : 0);
    r = s.record;
    CHECK(s.answer.number == 0 && (s.answer.space != CLURIMOON_NONE) == (left[k] == 1));
    CHECK(s.answer.verdict == (k < 3 ? CLURIMOON_ACCEPTED : k == 3 ? CLURIMOON_EXCESS : CLURIMOON_NOTHING));
    CHECK(bits[16] == entries[k] && waits(r, CLURIMOON_DONE, slots[k]) && clurimoon_audit(r, MEMORY));
  }
}

/* Every refusal of next, in its order, and what is not looked at. */
static void next_refusals(void) {
  static const uint16_t outside[4] = {N, N + 1, 1024, 65535};
  clurimoon_record good = clurimoon_setup(N, V, false, CLURIMOON_UNI, 1, 1, MEMORY).record, r = good;
  unsigned k;
  good.T = 2, good.rotation = 65535, good.raw = good.mode = good.kind = good.free = 7;
  /* T is 2, and entry 1 is four slots away. No other number of the record is read. */
  calendar[2] = 0, calendar[3] = 4, bits[16] = 2;
  CHECK(waits(good, CLURIMOON_DONE, 4));
  r = good, r.n = 0, r.T = 65535;
  CHECK(waits(r, CLURIMOON_RANGE, 0));
  r = good, r.n = 1025;
  CHECK(waits(r, CLURIMOON_RANGE, 0));
  r = good, r.v = 1;
  CHECK(waits(r, CLURIMOON_RANGE, 0));
  r.v = 1025;
  CHECK(clurimoon_next(r, NULL, 0, NULL, 0).number == CLURIMOON_RANGE);
  r = good, r.T = 65535;
  CHECK(clurimoon_next(r, calendar, 2 * N - 1, bits, 32).number == CLURIMOON_LENGTH);
  CHECK(clurimoon_next(r, calendar, 2 * N, bits, 31).number == CLURIMOON_LENGTH);
  CHECK(clurimoon_next(r, calendar, 2 * N, bits, 16).slots == 0 && clurimoon_next(r, calendar, 2 * N, bits, 16).number == CLURIMOON_LENGTH);
  CHECK(clurimoon_next(r, NULL, 0, bits, 32).number == CLURIMOON_LENGTH);
  CHECK(clurimoon_next(r, calendar, 2 * N, NULL, 0).number == CLURIMOON_LENGTH);
  for (k = 0; k < 4; ++k) {
    r = good, r.T = outside[k];
    CHECK(waits(r, CLURIMOON_STORED, 0));
    r = good, r.out_head = outside[k];
    CHECK(waits(r, outside[k] == 65535 ? CLURIMOON_DONE : CLURIMOON_STORED, outside[k] == 65535 ? 4 : 0));
    r.out_head = 0, r.out_tail = outside[k];
    CHECK(waits(r, CLURIMOON_STORED, 0));
    r.out_head = outside[k], r.out_tail = 0;
    CHECK(waits(r, CLURIMOON_STORED, 0));
  }
  /* Where the Output List has a cell no bit is read, and no entry. */
  r = good, r.out_head = r.out_tail = 4, bits[16] = 1;
  CHECK(waits(r, CLURIMOON_DONE, 1));
  /* The entry that is named: empty, half empty, unfit. Another farther on is not asked. */
  bits[16] = 8 | 2;
  CHECK(waits(good, CLURIMOON_STORED, 0));
  for (k = 0; k < 4; ++k) {
    calendar[6] = outside[k], calendar[7] = 0;
    CHECK(waits(good, CLURIMOON_STORED, 0));
    calendar[6] = 0, calendar[7] = outside[k];
    CHECK(waits(good, CLURIMOON_STORED, 0));
  }
  calendar[6] = calendar[7] = N - 1;
  CHECK(waits(good, CLURIMOON_DONE, 1));
  /* Bit T, bits at N and above, and an entry without its bit are not looked at. */
  bits[16] = 0;
  CHECK(waits(good, CLURIMOON_DONE, 0));
  bits[16] = 4 | 2;
  CHECK(waits(good, CLURIMOON_DONE, 4));
  for (k = N; k < 1024; ++k) {
    bits[16] = 4, memset(bits + 17, 0, 15 * sizeof *bits);
    bits[16 + k / 64] |= (uint64_t)1 << k % 64;
    CHECK(waits(good, CLURIMOON_DONE, 0) && !clurimoon_audit(good, MEMORY));
    bits[16] |= 2;
    CHECK(waits(good, CLURIMOON_DONE, 4));
  }
}

/* N 1 has no entry after T: a cell leaves in the slot of its arrival. */
static void next_at_n_1(void) {
  clurimoon_record r = clurimoon_setup(1, 2, false, CLURIMOON_UNI, 1, 1, cells, 53, links, 1, calendar, 2, vcs, 12 * 258, bits, 32, arrived, 1).record;
  clurimoon_wait w;
  memset(bits + 16, 255, 16 * sizeof *bits);
  w = clurimoon_next(r, calendar, 2, bits, 32);
  CHECK(w.number == CLURIMOON_DONE && w.slots == 0);
  r.out_head = r.out_tail = 0;
  w = clurimoon_next(r, calendar, 2, bits, 32);
  CHECK(w.number == CLURIMOON_DONE && w.slots == 1);
}

/* The greatest N: the first entry, the last, and each first one of a word, from every T; the ring closes at N. */
static void next_far(void) {
  static uint16_t wide[2048];
  static const unsigned at[6] = {0, 1, 63, 64, 960, 1023};
  clurimoon_record r = clurimoon_setup(N, V, false, CLURIMOON_UNI, 1, 1, MEMORY).record;
  unsigned k, T;
  r.n = 1024;
  for (k = 0; k < 2048; ++k) wide[k] = CLURIMOON_NONE;
  for (k = 0; k < 6; ++k) {
    memset(bits + 16, 0, 16 * sizeof *bits);
    bits[16 + at[k] / 64] = (uint64_t)1 << at[k] % 64;
    wide[2 * at[k]] = wide[2 * at[k] + 1] = 7;
    for (T = 0; T < 1024; ++T) {
      clurimoon_wait w;
      r.T = (uint16_t)T;
      w = clurimoon_next(r, wide, 2048, bits, 32);
      CHECK(w.number == CLURIMOON_DONE && w.slots == (at[k] + 1024 - T) % 1024);
    }
    wide[2 * at[k]] = wide[2 * at[k] + 1] = CLURIMOON_NONE;
  }
}

/* What a slot does to the bits of the entries, whatever they hold: it sets, clears and judges none. */
static void marks(void) {
  uint8_t cell[53];
  clurimoon_served s;
  clurimoon_record good = clurimoon_setup(N, V, false, CLURIMOON_UNI, 1, 1, MEMORY).record, r;
  unsigned k;
  CHECK(clurimoon_open(good, vcs, WORDS, 1, 3, 0, 2, 5) == CLURIMOON_DONE);
  put_cell(cell, 3, 0x33);
  memset(bits + 16, 255, 16 * sizeof *bits);
  /* D 0: set and cleared in one slot, where it was set before. T is 0. */
  s = clurimoon_slot(good, MEMORY, cell, 53);
  CHECK(answers_with(s.answer, CLURIMOON_ACCEPTED, 3, 0, 0, 3) && bits[16] == ~(uint64_t)1);
  for (k = 17; k < 32; ++k) CHECK(bits[k] == UINT64_MAX);
  CHECK(!clurimoon_audit(s.record, MEMORY));
  memset(bits + 16, 0, 16 * sizeof *bits);
  CHECK(clurimoon_audit(s.record, MEMORY));
  /* D 1 joins entry 2, and an empty entry T keeps its bit. */
  bits[16] = 2;
  s = clurimoon_slot(s.record, MEMORY, cell, 53);
  CHECK(answers_with(s.answer, CLURIMOON_ACCEPTED, 3, 1, CLURIMOON_NONE, 0) && bits[16] == 6);
  CHECK(!clurimoon_audit(s.record, MEMORY));
  bits[16] = 0;
  CHECK(!clurimoon_audit(s.record, MEMORY));
  bits[16] = 4;
  CHECK(clurimoon_audit(s.record, MEMORY));
  for (k = 0; k < 1024; ++k) {
    /* Each bit of the 1,024 against its entry. */
    bits[16 + k / 64] ^= (uint64_t)1 << k % 64;
    CHECK(!clurimoon_audit(s.record, MEMORY));
    bits[16 + k / 64] ^= (uint64_t)1 << k % 64;
  }
  /* A refused slot has set none, and the transfer clears a bit that may be clear already. */
  r = s.record, r.kind = 2;
  CHECK(refused_unchanged(r, cell, 53) && refused_unchanged(r, NULL, 0));
  bits[16] = 16;
  s = clurimoon_slot(s.record, MEMORY, NULL, 0);
  CHECK(answers_with(s.answer, CLURIMOON_NOTHING, 0, 0, 0, 3) && bits[16] == 16 && bits[0] == 31);
}

static const clurimoon_tally no_cells = {{0}, 0};

static int same_tally(clurimoon_tally a, clurimoon_tally b) { return a.cells == b.cells && memcmp(a.bins, b.bins, sizeof a.bins) == 0; }

/* A tally that differs from another in one bin alone, by one cell. */
static int took_one(clurimoon_tally before, clurimoon_tally after, unsigned bin) {
  before.bins[bin] += 1, before.cells += 1;
  return same_tally(before, after);
}

/* Slots 0 to 3 bring a cell each that is accepted, with D 0 to 3, slot 4 one that is excess: where each arrival slot is kept, and
   how long each cell waited. */
static void arrival_slots(unsigned filler) {
  static const uint32_t kept[7][3] = {{0, 0, 0}, {1, 0, 0}, {1, 2, 0}, {3, 2, 0}, {3, 2, 0}, {3, 2, 0}, {3, 2, 0}};
  static const unsigned waited[7] = {0, 9, 1, 9, 2, 9, 3}; /* 9: nothing leaves */
  uint8_t cell[53];
  clurimoon_record r = clurimoon_setup(N, V, false, CLURIMOON_UNI, 1, 1, MEMORY).record;
  clurimoon_tally of_3 = no_cells, of_4 = no_cells;
  unsigned slot, k;
  CHECK(clurimoon_open(r, vcs, WORDS, 1, 3, 0, 2, 5) == CLURIMOON_DONE);
  for (k = 0; k < N; ++k) arrived[k] = filler; /* they may hold anything: the audit says yes, and no verdict is another */
  CHECK(clurimoon_audit(r, MEMORY));
  for (slot = 0; slot < 7; ++slot) {
    clurimoon_served s;
    clurimoon_tallied t;
    put_cell(cell, slot < 5 ? 3 : 4, slot);
    s = clurimoon_slot(r, MEMORY, cell, slot < 6 ? 53 : 0);
    r = s.record;
    CHECK(s.answer.verdict == (slot < 4 ? CLURIMOON_ACCEPTED : slot == 4 ? CLURIMOON_EXCESS : slot == 5 ? CLURIMOON_UNKNOWN : CLURIMOON_NOTHING));
    CHECK((s.answer.space == CLURIMOON_NONE) == (waited[slot] == 9) && clurimoon_audit(r, MEMORY));
    for (k = 0; k < N; ++k) CHECK(arrived[k] == (k == 0 || (k == 1 && slot >= 2) ? kept[slot][k] : filler));
    t = clurimoon_tally_slot(of_3, r, arrived, N, 3, s.answer.space, s.answer.out_vci);
    CHECK(t.number == CLURIMOON_DONE && (waited[slot] == 9 ? same_tally(t.tally, of_3) : took_one(of_3, t.tally, waited[slot])));
    of_3 = t.tally;
    /* Of VC 4, which isn't open, and whose cells are none of these. */
    t = clurimoon_tally_slot(of_4, r, arrived, N, 4, s.answer.space, s.answer.out_vci);
    CHECK(t.number == CLURIMOON_DONE && same_tally(t.tally, no_cells));
  }
  CHECK(of_3.cells == 4 && clurimoon_percentile(of_3, 500).bin == 1 && clurimoon_percentile(of_3, 501).bin == 2);
  CHECK(clurimoon_percentile(of_4, 500).number == CLURIMOON_SHARE);
}

/* One arrival slot too many, or too few, in each call that takes them. */
static void arrived_lengths(void) {
  enum { K = 1 };
  static uint32_t many[N + 1];
  static uint8_t cell[53], size = 53, departures[53];
  static uint16_t answers[6];
  unsigned k;
  clurimoon_record r = clurimoon_setup(N, V, false, CLURIMOON_UNI, 1, 1, MEMORY).record;
  for (k = 0; k < 3; ++k) {
    const size_t length = k == 0 ? N - 1 : k == 1 ? N + 1 : 0;
#define OTHERS cells, sizeof cells, links, N, calendar, 2 * N, vcs, WORDS, bits, 32, many, length
    CHECK(clurimoon_setup(N, V, false, CLURIMOON_UNI, 1, 1, OTHERS).number == CLURIMOON_LENGTH && !clurimoon_audit(r, OTHERS));
    CHECK(refused(clurimoon_slot(r, OTHERS, NULL, 0).answer, CLURIMOON_LENGTH));
    CHECK(clurimoon_burst(r, OTHERS, cell, 53, &size, K, departures, 53, answers, 6).number == CLURIMOON_LENGTH);
    CHECK(clurimoon_burst_tallied(no_cells, 3, r, OTHERS, cell, 53, &size, K, departures, 53, answers, 6).end.number == CLURIMOON_LENGTH);
    CHECK(clurimoon_tally_slot(no_cells, r, many, length, 3, 0, 3).number == CLURIMOON_LENGTH);
  }
}

/* All 32 bits of the clock are kept, over its wrap too; and a slot that is refused where the cell would join has kept none. */
static void arrival_clock(void) {
  static const uint32_t clocks[6] = {255, 65535, 65536, 305419896, UINT32_MAX - 1, UINT32_MAX};
  uint8_t cell[53];
  unsigned k;
  put_cell(cell, 3, 0x33);
  for (k = 0; k < 6; ++k) {
    clurimoon_record r = clurimoon_setup(N, V, false, CLURIMOON_UNI, 1, 1, MEMORY).record;
    clurimoon_served s;
    r.t = clocks[k];
    CHECK(clurimoon_open(r, vcs, WORDS, 1, 3, 0, 2, 5) == CLURIMOON_DONE);
    calendar[0] = N, arrived[0] = 77;
    CHECK(refused_unchanged(r, cell, 53) && arrived[0] == 77);
    calendar[0] = CLURIMOON_NONE;
    s = clurimoon_slot(r, MEMORY, cell, 53);
    CHECK(answers_with(s.answer, CLURIMOON_ACCEPTED, 3, 0, 0, 3) && s.record.t == (uint32_t)(clocks[k] + 1) && arrived[0] == s.record.t);
  }
}

/* A cell waits, and its arrival slot is damaged: the audit says yes, the cell leaves as it would have, and is tallied by what stands
   there. */
static void arrival_damaged(uint32_t kept, unsigned bin) {
  uint8_t cell[53];
  clurimoon_record r = clurimoon_setup(N, V, false, CLURIMOON_UNI, 1, 1, MEMORY).record;
  clurimoon_served s;
  clurimoon_tallied t;
  CHECK(clurimoon_open(r, vcs, WORDS, 1, 3, 0, 2, 5) == CLURIMOON_DONE);
  put_cell(cell, 3, 0x33);
  r = clurimoon_slot(r, MEMORY, cell, 53).record;
  r = clurimoon_slot(r, MEMORY, cell, 53).record;
  CHECK(arrived[0] == 1 && r.free == N - 1);
  arrived[0] = kept;
  CHECK(clurimoon_audit(r, MEMORY));
  s = clurimoon_slot(r, MEMORY, NULL, 0);
  CHECK(answers_with(s.answer, CLURIMOON_NOTHING, 0, 0, 0, 3) && arrived[0] == kept);
  t = clurimoon_tally_slot(no_cells, s.record, arrived, N, 3, s.answer.space, s.answer.out_vci);
  CHECK(t.number == CLURIMOON_DONE && took_one(no_cells, t.tally, bin));
}

/* A refused tally comes back as it was, and nothing is written. */
static int tally_refuses(clurimoon_tally tally, clurimoon_record r, size_t length, unsigned connection, unsigned space, unsigned out,
                         unsigned number) {
  uint32_t before[N];
  clurimoon_tallied t;
  memcpy(before, arrived, sizeof arrived);
  t = clurimoon_tally_slot(tally, r, length == 0 ? NULL : arrived, length, (uint16_t)connection, (uint16_t)space, (uint16_t)out);
  return t.number == number && same_tally(t.tally, tally) && memcmp(before, arrived, sizeof arrived) == 0;
}

/* 1, 2, 4 and 3, each with all that come after it. */
static void tally_refusals(void) {
  static const unsigned none_named[6] = {0, V, V + 256, V + 257, 1280, 65535}, past[4] = {N, N + 1, 1024, 65535};
  static const unsigned named[4] = {1, V - 1, V + 1, V + 255};
  clurimoon_record good = clurimoon_setup(N, V, false, CLURIMOON_UNI, 4, 200, MEMORY).record, r;
  clurimoon_tally unfit = no_cells, fit = no_cells;
  unsigned k, j;
  unfit.cells = 1, fit.bins[7] = 5, fit.bins[63] = 2, fit.cells = 7;
  /* No number of the record is read but N, V and t. */
  good.t = 1000, good.T = good.rotation = good.free = good.out_head = good.raw = good.mode = good.kind = 7777;
  good.split_vci = good.split_path = 0, good.out_tail = 3;
  for (k = 0; k < N; ++k) arrived[k] = 1000 - 7;
  for (k = 0; k < 4; ++k) {
    static const uint16_t outside[4] = {0, 1025, 1, 1025};
    r = good;
    if (k < 2) r.n = outside[k];
    else r.v = outside[k];
    CHECK(tally_refuses(unfit, r, 0, 0, N, 0, CLURIMOON_RANGE) && tally_refuses(fit, r, N, 3, 0, 3, CLURIMOON_RANGE));
  }
  CHECK(tally_refuses(unfit, good, 0, 0, N, 0, CLURIMOON_LENGTH) && tally_refuses(fit, good, N - 1, 3, 0, 3, CLURIMOON_LENGTH));
  r = good, r.n = N + 1;
  CHECK(tally_refuses(fit, r, N, 3, 0, 3, CLURIMOON_LENGTH));
  r.n = N - 1;
  CHECK(tally_refuses(fit, r, N, 3, 0, 3, CLURIMOON_LENGTH) && tally_refuses(fit, r, N, 3, 0, 4, CLURIMOON_LENGTH));
  for (k = 0; k < 6; ++k) CHECK(tally_refuses(unfit, good, N, none_named[k], N, none_named[k], CLURIMOON_VCI));
  for (k = 0; k < 4; ++k) {
    clurimoon_tallied t = clurimoon_tally_slot(fit, good, arrived, N, (uint16_t)named[k], N - 1, (uint16_t)named[k]);
    CHECK(t.number == CLURIMOON_DONE && took_one(fit, t.tally, 7));
    CHECK(tally_refuses(unfit, good, N, named[k], 0, named[k], CLURIMOON_STORED));
    /* Judged also where another's cell leaves, or none. */
    CHECK(tally_refuses(unfit, good, N, named[k], CLURIMOON_NONE, 0, CLURIMOON_STORED) && tally_refuses(unfit, good, N, named[k], 0, 2, CLURIMOON_STORED));
    for (j = 0; j < 4; ++j) {
      CHECK(tally_refuses(fit, good, N, named[k], past[j], named[k], CLURIMOON_STORED));
      CHECK(tally_refuses(fit, good, N, named[k], past[j], 0, CLURIMOON_DONE) && tally_refuses(fit, good, N, named[k], past[j], 2, CLURIMOON_DONE));
    }
  }
}

/* Which tallies are 3, for both calls: the sum must not wrap, and 2^32 is the most. */
static void tallies_fit(void) {
  clurimoon_record r = clurimoon_setup(N, V, false, CLURIMOON_UNI, 1, 1, MEMORY).record;
  const uint64_t most = (uint64_t)1 << 32;
  unsigned k;
  for (k = 0; k < 14; ++k) {
    clurimoon_tally t = no_cells;
    clurimoon_tallied after;
    const int fit = k == 0 || k == 1 || k == 2 || k == 9;
    if (k == 0) t.bins[63] = most, t.cells = most;
    if (k == 1) t.bins[0] = most - 1, t.bins[40] = 1, t.cells = most;
    if (k == 2) t.bins[5] = most - 1, t.cells = most - 1;
    if (k == 3) t.bins[5] = most + 1, t.cells = most + 1;
    if (k == 4) t.bins[5] = 8, t.cells = 7;
    if (k == 5) t.bins[5] = 8, t.cells = 9;
    if (k == 6) t.bins[5] = most + 8, t.cells = 8;
    if (k == 7) t.bins[0] = t.bins[63] = (uint64_t)1 << 63, t.bins[5] = 8, t.cells = 8;
    if (k == 8) t.bins[0] = (uint64_t)0 - 8, t.bins[1] = 10, t.cells = 2;
    if (k == 9) memset(t.bins, 0, sizeof t.bins);
    if (k == 10) t.cells = (uint64_t)0 - 1;
    if (k == 11) t.bins[5] = (uint64_t)1 << 40, t.cells = (uint64_t)1 << 40;
    if (k == 12) t.bins[5] = 8, t.bins[63] = 1, t.cells = 8;
    if (k == 13) t.bins[0] = 1, t.bins[5] = 8, t.cells = 8;
    after = clurimoon_tally_slot(t, r, arrived, N, 3, CLURIMOON_NONE, 0);
    CHECK(after.number == (fit ? CLURIMOON_DONE : CLURIMOON_STORED) && same_tally(after.tally, t));
    CHECK(clurimoon_percentile(t, 1000).number == (!fit ? CLURIMOON_STORED : k == 9 ? CLURIMOON_SHARE : CLURIMOON_DONE));
    CHECK(clurimoon_percentile(t, 0).number == (!fit ? CLURIMOON_STORED : CLURIMOON_SHARE) && clurimoon_percentile(t, 0).bin == 0);
    CHECK(clurimoon_percentile(t, 1001).number == (!fit ? CLURIMOON_STORED : CLURIMOON_SHARE));
    /* One more: a tally of 2^32 takes none. */
    r.t = 3, arrived[2] = 3;
    after = clurimoon_tally_slot(t, r, arrived, N, 3, 2, 3);
    CHECK(after.number == (fit ? CLURIMOON_DONE : CLURIMOON_STORED));
    CHECK(fit && t.cells != most ? took_one(t, after.tally, 0) : same_tally(after.tally, t));
  }
}

/* Delays at the edges of the bins, and over the clock's wrap. */
static void tally_bins(void) {
  static const uint32_t waited[12] = {0, 1, 61, 62, 63, 64, 127, 128, 1023, 65536, 65541, UINT32_MAX}, clocks[4] = {0, 5, 62, 2000000000};
  clurimoon_record r = clurimoon_setup(N, V, false, CLURIMOON_UNI, 1, 1, MEMORY).record;
  unsigned k, j;
  for (k = 0; k < 12; ++k) {
    for (j = 0; j < 4; ++j) {
      clurimoon_tallied t;
      r.t = clocks[j], arrived[k % N] = clocks[j] - waited[k];
      t = clurimoon_tally_slot(no_cells, r, arrived, N, V + 9, (uint16_t)(k % N), V + 9);
      CHECK(t.number == CLURIMOON_DONE && took_one(no_cells, t.tally, waited[k] < 63 ? waited[k] : 63));
    }
  }
}

/* Ten cells, at 2, 2, 2, 3, 3, 5, 8, 8, 62 and 63 and more: the share asks for the n-th of them, rounded up. */
static void percentiles(void) {
  static const unsigned sorted[10] = {2, 2, 2, 3, 3, 5, 8, 8, 62, 63};
  clurimoon_tally t = no_cells;
  unsigned k, share;
  for (k = 0; k < 10; ++k) t.bins[sorted[k]] += 1, t.cells += 1;
  for (share = 1; share <= 1000; ++share) {
    const clurimoon_bin b = clurimoon_percentile(t, (uint16_t)share);
    CHECK(b.number == CLURIMOON_DONE && b.bin == sorted[(share + 99) / 100 - 1]);
  }
  for (k = 0; k < 64; ++k) {
    /* One cell alone, and 2^32 of them: every share asks for it. */
    memset(&t, 0, sizeof t), t.bins[k] = t.cells = 1;
    CHECK(clurimoon_percentile(t, 1).bin == k && clurimoon_percentile(t, 500).bin == k && clurimoon_percentile(t, 1000).bin == k);
    t.bins[k] = t.cells = (uint64_t)1 << 32;
    CHECK(clurimoon_percentile(t, 1).bin == k && clurimoon_percentile(t, 999).bin == k && clurimoon_percentile(t, 1000).bin == k);
  }
}

/* All memories, the record and the tally after a refused burst are as they were. */
static int burst_refuses(clurimoon_tally tally, unsigned connection, clurimoon_record r, size_t cells_lent, size_t arrived_lent, uint8_t size, unsigned number) {
  static uint8_t cells_before[sizeof cells], departures[53], cell[53];
  static uint32_t vcs_before[WORDS], arrived_before[N];
  static uint64_t bits_before[32];
  static uint16_t answers[6];
  clurimoon_burst_tally t;
  memcpy(cells_before, cells, sizeof cells), memcpy(vcs_before, vcs, sizeof vcs), memcpy(arrived_before, arrived, sizeof arrived);
  memcpy(bits_before, bits, sizeof bits), memset(departures, 7, sizeof departures), memset(answers, 7, sizeof answers);
  put_cell(cell, 3, 0x33);
  t = clurimoon_burst_tallied(tally, (uint16_t)connection, r, cells, cells_lent, links, N, calendar, 2 * N, vcs, WORDS, bits, 32, arrived,
                              arrived_lent, cell, 53, &size, 1, departures, 53, answers, 6);
  return t.end.number == number && t.end.done == 0 && same_record(t.end.record, r) && same_tally(t.tally, tally) &&
         memcmp(cells_before, cells, sizeof cells) == 0 && memcmp(vcs_before, vcs, sizeof vcs) == 0 &&
         memcmp(arrived_before, arrived, sizeof arrived) == 0 && memcmp(bits_before, bits, sizeof bits) == 0 && departures[0] == 7 &&
         departures[52] == 7 && answers[0] == 0x0707 && answers[5] == 0x0707;
}

static void burst_tally_refusals(void) {
  static const unsigned none_named[5] = {0, V, V + 256, V + 257, 65535};
  clurimoon_record good = clurimoon_setup(N, V, false, CLURIMOON_UNI, 1, 1, MEMORY).record, r = good;
  clurimoon_tally unfit = no_cells, full = no_cells;
  unsigned k;
  CHECK(clurimoon_open(good, vcs, WORDS, 1, 3, 0, 2, 5) == CLURIMOON_DONE);
  unfit.bins[3] = 1, full.bins[9] = full.cells = (uint64_t)1 << 32;
  r.n = 0;
  /* The tally's own come first, then the burst's. */
  CHECK(burst_refuses(unfit, 0, r, sizeof cells - 1, N - 1, 52, CLURIMOON_RANGE));
  CHECK(burst_refuses(unfit, 0, good, sizeof cells - 1, N - 1, 52, CLURIMOON_LENGTH));
  for (k = 0; k < 5; ++k) CHECK(burst_refuses(unfit, none_named[k], good, sizeof cells - 1, N, 52, CLURIMOON_VCI));
  CHECK(burst_refuses(unfit, 3, good, sizeof cells - 1, N, 52, CLURIMOON_STORED) && burst_refuses(unfit, 3, good, sizeof cells, N, 53, CLURIMOON_STORED));
  CHECK(burst_refuses(no_cells, 3, good, sizeof cells - 1, N, 52, CLURIMOON_LENGTH) && burst_refuses(full, 3, good, sizeof cells - 53, N, 53, CLURIMOON_LENGTH));
  CHECK(burst_refuses(no_cells, 3, good, sizeof cells, N, 52, CLURIMOON_CELL_LENGTH));
  r = good, r.T = N;
  CHECK(burst_refuses(no_cells, 3, r, sizeof cells, N, 53, CLURIMOON_STORED) && burst_refuses(full, V + 255, r, sizeof cells, N, 0, CLURIMOON_STORED));
}

/* A policer of three spaces under bursts: each space is taken again within a burst, so that after it the arrival slots would say
   another delay. The tally is that of the slots one by one, and of the arrivals that the answers tell of. */
static void bursts_tallied(void) {
  enum { K = 40, M = 3, W = 12 * (V + 256) };
  static uint8_t arrivals[53 * K], sizes[K], departures[53 * K];
  static uint16_t answers[6 * K];
  clurimoon_record r = clurimoon_setup(M, V, false, CLURIMOON_UNI, 1, 1, cells, 53 * M, links, M, calendar, 2 * M, vcs, W, bits, 32, arrived, M).record;
  clurimoon_burst_tally t;
  clurimoon_tally counted = no_cells, after;
  unsigned k, came[K], first = 0, next = 0, again = 0;
  CHECK(clurimoon_open(r, vcs, W, 1, 3, 0, 1, 1) == CLURIMOON_DONE && clurimoon_open_path(r, vcs, W, 1, 7, 0, 2, 4, 0, 0, 0, 0) == CLURIMOON_DONE);
  for (k = 0; k < K; ++k) put_path_cell(arrivals + 53 * k, k % 3 == 0 ? 0 : 7, 3, k), sizes[k] = k % 8 == 7 ? 0 : 53;
  sizes[35] = 54;
  t = clurimoon_burst_tallied(counted, V + 7, r, cells, 53 * M, links, M, calendar, 2 * M, vcs, W, bits, 32, arrived, M, arrivals, sizeof arrivals,
                              sizes, K, departures, sizeof departures, answers, 6 * K);
  CHECK(t.end.number == CLURIMOON_CELL_LENGTH && t.end.done == 35 && t.end.record.t == 34);
  for (k = 0; k < 35; ++k) {
    const uint16_t *a = answers + 6 * k;
    if (a[CLURIMOON_ANSWER_VERDICT] == CLURIMOON_ACCEPTED && a[CLURIMOON_ANSWER_VCI] == V + 7) came[next++] = k;
    if (a[CLURIMOON_ANSWER_OUT_VCI] != V + 7) continue;
    again += arrived[a[CLURIMOON_ANSWER_SPACE]] != came[first];
    counted.bins[k - came[first++]] += 1, counted.cells += 1;
  }
  CHECK(same_tally(t.tally, counted) && counted.cells > 5 && again > 5);
  /* A tally goes on in the next burst, and one that fills up takes no more. */
  after = t.tally, after.bins[63] += (uint64_t)4294967296u - after.cells - 2, after.cells = (uint64_t)4294967296u - 2, sizes[35] = 53;
  t = clurimoon_burst_tallied(after, V + 7, t.end.record, cells, 53 * M, links, M, calendar, 2 * M, vcs, W, bits, 32, arrived, M, arrivals,
                              sizeof arrivals, sizes, K, departures, sizeof departures, answers, 6 * K);
  CHECK(t.end.number == CLURIMOON_DONE && t.end.done == K && t.tally.cells == 4294967296u);
  after.cells = 0;
  for (k = 0; k < CLURIMOON_BINS; ++k) after.cells += t.tally.bins[k] - after.bins[k];
  CHECK(after.cells == 2);
}

/* Every slice, of length 0, as NULL. */
static void nulls(void) {
  clurimoon_set set = clurimoon_setup(N, V, false, CLURIMOON_UNI, 1, 1, NO_MEMORY);
  clurimoon_record r;
  clurimoon_part part;
  clurimoon_burst_end e;
  CHECK(set.number == CLURIMOON_LENGTH);
  set = clurimoon_setup(N, V, false, CLURIMOON_UNI, 1, 1, MEMORY);
  r = set.record;
  CHECK(clurimoon_open(r, NULL, 0, 1, 1, 2, 10, 26) == CLURIMOON_LENGTH);
  CHECK(clurimoon_open_sustained(r, NULL, 0, 1, 1, 2, 10, 26, 0, 0, 0, 0) == CLURIMOON_LENGTH);
  CHECK(clurimoon_close(r, NULL, 0, 1, 1) == CLURIMOON_LENGTH);
  CHECK(clurimoon_open_path(r, NULL, 0, 1, 1, 2, 10, 26, 0, 0, 0, 0) == CLURIMOON_LENGTH);
  CHECK(clurimoon_close_path(r, NULL, 0, 1, 1) == CLURIMOON_LENGTH);
  CHECK(refused(clurimoon_slot(r, NO_MEMORY, NULL, 0).answer, CLURIMOON_LENGTH));
  CHECK(clurimoon_slot(r, MEMORY, NULL, 0).answer.number == CLURIMOON_DONE);
  part = clurimoon_line(NULL, 0, NULL, 0, 0);
  CHECK(part.from_idle == 1 && part.start == 0 && part.length == 0);
  CHECK(!clurimoon_audit(r, NO_MEMORY));
  e = clurimoon_burst(r, MEMORY, NULL, 0, NULL, 0, NULL, 0, NULL, 0);
  CHECK(e.number == CLURIMOON_DONE && e.done == 0 && same_record(e.record, r));
  e = clurimoon_burst(r, NO_MEMORY, NULL, 0, NULL, 0, NULL, 0, NULL, 0);
  CHECK(e.number == CLURIMOON_LENGTH && e.done == 0 && same_record(e.record, r));
  CHECK(clurimoon_tally_slot(no_cells, r, NULL, 0, 3, 0, 3).number == CLURIMOON_LENGTH);
  e = clurimoon_burst_tallied(no_cells, 3, r, MEMORY, NULL, 0, NULL, 0, NULL, 0, NULL, 0).end;
  CHECK(e.number == CLURIMOON_DONE && e.done == 0 && same_record(e.record, r));
  e = clurimoon_burst_tallied(no_cells, 3, r, NO_MEMORY, NULL, 0, NULL, 0, NULL, 0, NULL, 0).end;
  CHECK(e.number == CLURIMOON_LENGTH && e.done == 0 && same_record(e.record, r));
}

/* A burst whose space is used again: each departing cell keeps its own octets. */
static void bursts(void) {
  enum { K = 9 };
  static uint8_t arrivals[53 * K], sizes[K], departures[53 * K];
  static uint16_t answers[6 * K];
  unsigned k;
  enum { W = 12 * 258 };
  clurimoon_record r = clurimoon_setup(1, 2, false, CLURIMOON_NNI, 1, 1, cells, 53, links, 1, calendar, 2, vcs, W, bits, 32, arrived, 1).record;
  clurimoon_burst_end e;
  CHECK(clurimoon_open(r, vcs, W, 1, 1, 0, 1, 1) == CLURIMOON_DONE && clurimoon_open_path(r, vcs, W, 1, 5, 0, 1, 1, 0, 0, 0, 0) == CLURIMOON_DONE);
  memset(departures, 0xee, sizeof departures), memset(answers, 0xee, sizeof answers);
  for (k = 0; k < K; ++k) put_path_cell(arrivals + 53 * k, k == 2 ? 5 : 0, 1, 100 + k), sizes[k] = k == 4 ? 0 : 53;
  sizes[7] = 52;
  e = clurimoon_burst(r, cells, 53, links, 1, calendar, 2, vcs, W, bits, 32, arrived, 1, arrivals, sizeof arrivals, sizes, K,
                      departures, sizeof departures, answers, 6 * K);
  CHECK(e.number == CLURIMOON_CELL_LENGTH && e.done == 7 && e.record.t == 6);
  for (k = 0; k < K; ++k) {
    const int served = k < 7, left = served && k != 4;
    CHECK(answers[6 * k + CLURIMOON_ANSWER_NUMBER] == (served ? 0 : 0xeeee));
    CHECK(answers[6 * k + CLURIMOON_ANSWER_VERDICT] == (left ? CLURIMOON_ACCEPTED : served ? 0 : 0xeeee));
    CHECK(answers[6 * k + CLURIMOON_ANSWER_VCI] == (left ? k == 2 ? 7 : 1 : served ? 0 : 0xeeee));
    CHECK(answers[6 * k + CLURIMOON_ANSWER_D] == (served ? 0 : 0xeeee));
    CHECK(answers[6 * k + CLURIMOON_ANSWER_SPACE] == (left ? 0 : served ? CLURIMOON_NONE : 0xeeee));
    CHECK(answers[6 * k + CLURIMOON_ANSWER_OUT_VCI] == (left ? k == 2 ? 7 : 1 : served ? 0 : 0xeeee));
    if (left) CHECK(memcmp(departures + 53 * k, arrivals + 53 * k, 53) == 0);
    else CHECK(departures[53 * k] == 0xee && departures[53 * k + 52] == 0xee);
  }
  e = clurimoon_burst(r, cells, 53, links, 1, calendar, 2, vcs, W, bits, 32, arrived, 1, arrivals, sizeof arrivals, sizes, K,
                      departures, sizeof departures - 1, answers, 6 * K);
  CHECK(e.number == CLURIMOON_LENGTH && e.done == 0 && same_record(e.record, r));
}

/* Source 003, Tables I and II: a cell every 120 slots, and how early each is. */
static void engine_table(uint16_t n, uint32_t c, const char *conforming, const int *early) {
  clurimoon_tat state = {0, 0, false};
  int k;
  for (k = 0; k < 10; ++k) {
    clurimoon_timed t = clurimoon_time(state, n, 0, 125, c, (uint64_t)k * 120);
    CHECK(t.number == CLURIMOON_DONE && t.early == early[k]);
    CHECK(t.verdict == (conforming[k] == 'y' ? CLURIMOON_ACCEPTED : CLURIMOON_EXCESS));
    CHECK(t.due == (conforming[k] != 'y' ? 0 : (uint64_t)(120 * k + (early[k] > 0 ? early[k] : 0))));
    CHECK(t.tat.started && t.tat.arrival == (uint64_t)k * 120);
    CHECK(t.tat.tat == (conforming[k] == 'y' ? t.due + 125 : state.tat));
    state = t.tat;
  }
}

/* A refusal gives the state back as it came, and zeros. */
static int engine_refuses(clurimoon_tat s, uint16_t n, uint8_t m, uint32_t f, uint32_t c, uint64_t arrival,
                          unsigned number) {
  clurimoon_timed t = clurimoon_time(s, n, m, f, c, arrival);
  return t.number == number && t.verdict == 0 && t.early == 0 && t.due == 0 && t.tat.tat == s.tat &&
         t.tat.arrival == s.arrival && t.tat.started == s.started;
}

static void engine(void) {
  static const int early_i[10] = {0, 5, -115, 5, -115, 5, -115, 5, -115, 5};
  static const int early_ii[10] = {0, 5, 10, 15, -105, 5, 10, 15, -105, 5};
  const uint64_t run = (uint64_t)1 << 32, far = (uint64_t)1 << 48;
  clurimoon_tat s = {0, 0, true}, fresh = {0, 0, false};
  clurimoon_timed t;
  engine_table(1, 125, "ynynynynyn", early_i);
  engine_table(12, 136, "yyynyyynyy", early_ii);
  /* Each refusal with all that come after it. */
  s.tat = far, s.arrival = run;
  CHECK(engine_refuses(s, 0, 16, 0, 0, run, CLURIMOON_RANGE) && engine_refuses(s, 1025, 2, 10, 26, 5, CLURIMOON_RANGE));
  CHECK(engine_refuses(s, 5, 16, 65536, 65536, run, CLURIMOON_RULES) && engine_refuses(s, 5, 2, 10, 30, run, CLURIMOON_RULES));
  CHECK(engine_refuses(s, 5, 2, 10, 26, run, CLURIMOON_STORED));
  s.tat = far - 1;
  CHECK(engine_refuses(s, 5, 2, 10, 26, 5, CLURIMOON_STORED));
  s.tat = 10, s.arrival = 7;
  CHECK(engine_refuses(s, 5, 2, 10, 26, 7, CLURIMOON_NOT_AFTER) && engine_refuses(s, 5, 2, 10, 26, 6, CLURIMOON_NOT_AFTER));
  CHECK(engine_refuses(s, 5, 2, 10, 26, run, CLURIMOON_NOT_AFTER) && engine_refuses(fresh, 5, 2, 10, 26, run, CLURIMOON_NOT_AFTER));
  t = clurimoon_time(s, 5, 2, 10, 26, 8);
  CHECK(t.number == CLURIMOON_DONE && t.verdict == CLURIMOON_ACCEPTED && t.early == -22 && t.due == 32 && t.tat.tat == 42);
  /* Before the first cell no stored number is read. */
  fresh.tat = far, fresh.arrival = run;
  t = clurimoon_time(fresh, 5, 2, 10, 26, 4);
  CHECK(t.number == CLURIMOON_DONE && t.early == 0 && t.due == 16 && t.tat.tat == 26 && t.tat.arrival == 4);
}

int main(void) {
  unsigned bit;
  structs();
  macros();
  setup_fields(false, CLURIMOON_UNI);
  setup_fields(true, CLURIMOON_NNI);
  record_fields();
  every_number();
  debts();
  waits_alone();
  verdicts();
  known_octets();
  for (bit = 0; bit < 40; ++bit) raw_single(bit), raw_double(bit);
  raw_idle();
  raw_unfit();
  raw_burst();
  second_limits();
  for (bit = 0; bit < 4; ++bit) tagging(bit % 2 == 1, bit >= 2);
  above_both();
  path_calls();
  for (bit = 0; bit < 4; ++bit) path_traffic(bit % 2 == 1 ? CLURIMOON_NNI : CLURIMOON_UNI, bit >= 2);
  kind_unfit();
  path_tags();
  free_spaces();
  splits();
  operators();
  next_leaves();
  next_refusals();
  next_at_n_1();
  next_far();
  marks();
  arrival_slots(0), arrival_slots(12345), arrival_slots(UINT32_MAX);
  arrival_damaged(2, 0), arrival_damaged(0, 2), arrival_damaged(3, 63), arrival_damaged(12345, 63);
  arrival_clock();
  arrived_lengths();
  tally_refusals();
  tallies_fit();
  tally_bins();
  percentiles();
  burst_tally_refusals();
  bursts_tallied();
  line_parts();
  nulls();
  bursts();
  engine();
  if (failures == 0)
    printf("caller (%s): %lu checks hold\n",
#ifdef __cplusplus
           "C++",
#else
           "C99",
#endif
           checks);
  return failures != 0;
}
