/*
 * Clurimoon: the spacing policer of Wallmeier and Worster (ISS 1992).
 *
 * A policer has N cell spaces and polices connections: VCs named by their VCI, 1
 * to V-1, at VPI 0, and whole paths named by their VPI, 1 to 255, of which all
 * cells share one bucket, whatever their VCI. A connection has a number: a VC its
 * VCI, a path V + VPI. Two operators may share a policer: each connection is one's
 * alone, by two numbers that are fixed at setup. The caller lends all memory and
 * keeps the control record: the library has no memory of its own, allocates nothing
 * and keeps no pointer.
 *
 * Every call answers for every argument and every content of the lent memory.
 * A refused call leaves everything as it came. What each call does is said over
 * its declaration; docs/REFERENCE.md has the exact rules.
 *
 * Rules of lending:
 *  - a pointer is followed by the length of what it points to, in elements;
 *  - lent buffers don't overlap one another, and the arriving cell does not lie
 *    in the cell memory;
 *  - links, calendar and answers are aligned to 2 octets, VC words and arrival slots to
 *    4, bits to 8;
 *  - the pointer of a length of 0 is not followed and may be NULL.
 *
 * Widths: a value is judged as the parameter's type holds it. C cuts a wider
 * value before the call, and the call can't see that: 65,537 handed over as N
 * arrives as 1. Compile with -Wconversion, which warns of it.
 */
#ifndef CLURIMOON_H
#define CLURIMOON_H

#include <stddef.h>
#include <stdint.h>
#ifndef __cplusplus
#include <stdbool.h>
#endif

/* Octets of a cell, and the number that marks an empty head or tail, and no space. */
#define CLURIMOON_CELL 53
#define CLURIMOON_NONE 65535

/* The ranges: N, V, m (with L = 2^m) and F (from L on). */
#define CLURIMOON_N_MIN 1
#define CLURIMOON_N_MAX 1024
#define CLURIMOON_V_MIN 2
#define CLURIMOON_V_MAX 1024
#define CLURIMOON_M_MAX 15
#define CLURIMOON_F_MAX 16777216

/* Paths: their VPIs, 1 to 255, and how many records they have, with the first unused. */
#define CLURIMOON_PATH_MIN 1
#define CLURIMOON_PATH_MAX 255
#define CLURIMOON_PATHS 256

/* The second bucket's ranges, where there is one: m as above, F from 1 to
   CLURIMOON_F_MAX, whatever L is, and C from F to this. */
#define CLURIMOON_C2_MAX 1073741824

/* How much to lend, in elements: octets, 16-bit, 16-bit, 32-bit, 64-bit and 32-bit
   numbers. The last are the arrival slots, one for each space. */
#define CLURIMOON_CELLS(n) ((size_t)53 * (size_t)(n))
#define CLURIMOON_LINKS(n) ((size_t)(n))
#define CLURIMOON_CALENDAR(n) ((size_t)2 * (size_t)(n))
#define CLURIMOON_VCS(v) ((size_t)12 * ((size_t)(v) + CLURIMOON_PATHS))
#define CLURIMOON_BITS ((size_t)32)
#define CLURIMOON_ARRIVED(n) ((size_t)(n))

/* Of the words of bits, where those of the calendar entries begin: words 0 to 15 have a
   bit for each space, set where it is free, words 16 to 31 one for each calendar
   entry, set where it is not empty. */
#define CLURIMOON_ENTRY_BITS ((size_t)16)

/* The octets of all six memories together; the record is kept apart. */
#define CLURIMOON_OCTETS(n, v) ((size_t)63 * (size_t)(n) + (size_t)48 * ((size_t)(v) + CLURIMOON_PATHS) + (size_t)256)

/* The number of a path in answers, and the place of its words: 12 * that number. */
#define CLURIMOON_PATH_NUMBER(v, vpi) ((size_t)(v) + (size_t)(vpi))

/* What a burst of k slots takes, in elements: octets, octets, 16-bit numbers. */
#define CLURIMOON_ARRIVALS(k) ((size_t)53 * (size_t)(k))
#define CLURIMOON_DEPARTURES(k) ((size_t)53 * (size_t)(k))
#define CLURIMOON_ANSWERS(k) ((size_t)6 * (size_t)(k))

/* A tally's bins, the last of which has all delays from 63 slots up, and the most cells
   that it takes. A share is in thousandths: 500 is the median, 999 all but one in a
   thousand, 1,000 the longest. */
#define CLURIMOON_BINS 64
#define CLURIMOON_TALLY_MAX ((uint64_t)1 << 32)
#define CLURIMOON_SHARE_MIN 1
#define CLURIMOON_SHARE_MAX 1000

/* Refusal numbers. 10 is the trace reader's; no call of this header gives it.
   clurimoon_text says each in words. */
enum clurimoon_number {
  CLURIMOON_DONE = 0,                 /* done */
  CLURIMOON_REFUSED_RANGE = 1,        /* N or V outside its range; setup, open, close: a split outside its range */
  CLURIMOON_REFUSED_LENGTH = 2,       /* a lent buffer has another length than it must */
  CLURIMOON_REFUSED_STORED = 3,       /* the call would read a stored number outside its range */
  CLURIMOON_REFUSED_VCI = 4,          /* VCI outside 1 to V-1, or path number outside 1 to 255; tally: no connection's number */
  CLURIMOON_REFUSED_ALREADY_OPEN = 5, /* open: already open */
  CLURIMOON_REFUSED_RULES = 6,        /* open: m, F or C against the rules */
  CLURIMOON_REFUSED_NOT_OPEN = 7,     /* close: not open */
  CLURIMOON_REFUSED_WAITING = 8,      /* close: a cell of it waits, or it has a debt: not yet */
  CLURIMOON_REFUSED_CELL_LENGTH = 9,  /* slot: cell length neither 0 nor 53 */
  CLURIMOON_REFUSED_UNREADABLE = 10,  /* trace: record unreadable */
  CLURIMOON_REFUSED_SECOND = 11,      /* open_sustained, open_path: second bucket against its limits */
  CLURIMOON_REFUSED_NOT_AFTER = 12,   /* time: arrival not after the previous one, or outside the run */
  CLURIMOON_REFUSED_KIND = 13,        /* setup: line kind unknown */
  CLURIMOON_REFUSED_SHARE = 15,       /* percentile: share outside 1 to 1,000, or no cell sent */
  CLURIMOON_REFUSED_NOT_OWNER = 16,   /* open, close: not this operator's connection */

  /* The same by their names of before. Write those above: CLURIMOON_CELL is an
     amount, 53, and CLURIMOON_CELL_LENGTH looks like one and is a refusal. */
  CLURIMOON_RANGE = CLURIMOON_REFUSED_RANGE,
  CLURIMOON_LENGTH = CLURIMOON_REFUSED_LENGTH,
  CLURIMOON_STORED = CLURIMOON_REFUSED_STORED,
  CLURIMOON_VCI = CLURIMOON_REFUSED_VCI,
  CLURIMOON_ALREADY_OPEN = CLURIMOON_REFUSED_ALREADY_OPEN,
  CLURIMOON_RULES = CLURIMOON_REFUSED_RULES,
  CLURIMOON_NOT_OPEN = CLURIMOON_REFUSED_NOT_OPEN,
  CLURIMOON_WAITING = CLURIMOON_REFUSED_WAITING,
  CLURIMOON_CELL_LENGTH = CLURIMOON_REFUSED_CELL_LENGTH,
  CLURIMOON_UNREADABLE = CLURIMOON_REFUSED_UNREADABLE,
  CLURIMOON_SECOND = CLURIMOON_REFUSED_SECOND,
  CLURIMOON_NOT_AFTER = CLURIMOON_REFUSED_NOT_AFTER,
  CLURIMOON_KIND = CLURIMOON_REFUSED_KIND,
  CLURIMOON_SHARE = CLURIMOON_REFUSED_SHARE,
  CLURIMOON_NOT_OWNER = CLURIMOON_REFUSED_NOT_OWNER
};

/* Line kinds: how a header is read. At the UNI octet 1 is GFC (high four bits),
   which doesn't matter, and VPI, which has eight bits; at the NNI there is no GFC,
   and the VPI has twelve. VCI, PTI and CLP stand at the same places. */
enum clurimoon_line_kind {
  CLURIMOON_UNI = 0,
  CLURIMOON_NNI = 1
};

/* The operators, who open and close: the first has the VCs below the split VCI and the
   paths below the split path number, the second has all others. */
enum clurimoon_owner {
  CLURIMOON_OWNER_FIRST = 0,
  CLURIMOON_OWNER_SECOND = 1
};

/* Verdicts on what arrived. */
enum clurimoon_verdict {
  CLURIMOON_NOTHING = 0,  /* no cell, or VPI 0 with VCI 0: the slot counts as empty */
  CLURIMOON_ACCEPTED = 1, /* accepted; it is due D slots from now */
  CLURIMOON_EXCESS = 2,   /* above the connection's peak, or above its sustainable rate and not tagged; not stored */
  CLURIMOON_UNKNOWN = 3,  /* VPI 0 with VCI of V or more, VPI above 255, or a VC or path not open; not stored */
  CLURIMOON_DROPPED = 4,  /* the header check dropped it: its slot counts as empty */
  CLURIMOON_TAGGED = 5    /* above the sustainable rate: let in with CLP 1; it is due D slots from now */
};

/* The twelve words of connection number x, from word 12 * x of the VC words on: V
   records of VCs, then 256 of paths. Those of numbers 0 and V are unused: they are
   never open and never read. A connection without a second bucket has 0 in the last
   five. */
enum clurimoon_word {
  CLURIMOON_WORD_OPEN = 0,    /* 0 or 1 */
  CLURIMOON_WORD_M = 1,       /* the peak bucket: L = 2^m */
  CLURIMOON_WORD_F = 2,       /* what a cell fills in */
  CLURIMOON_WORD_C = 3,       /* what the bucket holds */
  CLURIMOON_WORD_S = 4,       /* what is in it */
  CLURIMOON_WORD_LAST = 5,    /* the slot in which both S were last brought up to date */
  CLURIMOON_WORD_WAITING = 6, /* accepted and tagged cells that have not left */
  CLURIMOON_WORD_M2 = 7,      /* the second bucket: its own L = 2^m */
  CLURIMOON_WORD_F2 = 8,      /* what a CLP 0 cell fills in */
  CLURIMOON_WORD_C2 = 9,      /* what it holds */
  CLURIMOON_WORD_S2 = 10,     /* what is in it */
  CLURIMOON_WORD_TAG = 11     /* 1: what is above it is tagged; 0: it is excess */
};

/* The six numbers of slot k in a burst's answers, from number 6 * k on. */
enum clurimoon_answer_place {
  CLURIMOON_ANSWER_NUMBER = 0,
  CLURIMOON_ANSWER_VERDICT = 1,
  CLURIMOON_ANSWER_VCI = 2,
  CLURIMOON_ANSWER_D = 3,
  CLURIMOON_ANSWER_SPACE = 4,
  CLURIMOON_ANSWER_OUT_VCI = 5
};

/* The header check's modes. It runs where the policer is raw. */
enum clurimoon_mode {
  CLURIMOON_CORRECTION = 0, /* one wrong bit is mended, more than one drops the cell */
  CLURIMOON_DETECTION = 1   /* every error drops the cell */
};

/* The control record, 28 octets. The caller keeps it, hands it in and takes it
   back; it need not look inside. t is the last slot's number, modulo 2^32. free is
   the number of free spaces, which is the number of ones in words 0 to 15 of the
   bits; it is read by a slot that takes a space or frees one.
   raw is 1 where headers are checked, and mode is then the check's mode; raw is read
   only by a slot that is lent a cell, mode only where raw is also 1. kind is the
   line kind; it is read where a header is read: by a slot whose cell left the check,
   and by one in which a cell departs. split_vci and split_path say which connections
   are the first operator's; open and close read both, a slot neither. */
typedef struct {
  uint16_t n, v;
  uint32_t t;
  uint16_t T, rotation, free, out_head, out_tail, raw, mode, kind, split_vci, split_path;
} clurimoon_record;

/* What a slot did: refusal number; verdict; VCI (0 for nothing and for a dropped
   cell): V + VPI for a cell of an open path, else as read, or as mended where the
   header check mended it; D (0 unless accepted or tagged); the departing space
   (65,535 for none); the departing VCI, V + VPI for a path's (0 for none). In a
   refusal all but the number are 0, and the space is 65,535. */
typedef struct {
  uint16_t number, verdict, vci, d, space, out_vci;
} clurimoon_answer;

/* What setup answers. */
typedef struct {
  uint16_t number;
  clurimoon_record record;
} clurimoon_set;

/* What a slot answers. */
typedef struct {
  clurimoon_record record;
  clurimoon_answer answer;
} clurimoon_served;

/* Where the line's cell lies: in the idle cell (from_idle 1) or in the cell
   memory (from_idle 0), from octet `start` on, `length` octets. */
typedef struct {
  uint16_t from_idle;
  size_t start, length;
} clurimoon_part;

/* What a burst answers: `done` slots were served, and then came `number`. */
typedef struct {
  clurimoon_record record;
  uint16_t number;
  size_t done;
} clurimoon_burst_end;

/* The delays of one connection's cells, 520 octets: how many of its cells left 0, 1, ..
   62 slots after the slot of their arrival, how many 63 or more, and how many they are
   together. The caller keeps it; all zeros is a tally of no cell. */
typedef struct {
  uint64_t bins[CLURIMOON_BINS];
  uint64_t cells;
} clurimoon_tally;

/* What a tally answers: refusal number, and the tally after it; in a refusal as it came. */
typedef struct {
  uint16_t number;
  clurimoon_tally tally;
} clurimoon_tallied;

/* What a percentile answers: refusal number, and a bin, 0 to 63: so many slots, or 63 and
   more. 0 in a refusal. */
typedef struct {
  uint16_t number, bin;
} clurimoon_bin;

/* What a burst answers that keeps a tally. */
typedef struct {
  clurimoon_burst_end end;
  clurimoon_tally tally;
} clurimoon_burst_tally;

/* How long until a cell leaves: refusal number; so many slots from now, 1 to N-1, or 1
   where N is 1; 0 where none waits, and in a refusal. */
typedef struct {
  uint16_t number, slots;
} clurimoon_wait;

/* What the generator's engine keeps between two cells of one connection, 24
   octets: TAT, the theoretical arrival time of the next cell, in parts of 1/L slot;
   the previous cell's slot, which doesn't wrap; and whether a cell came yet. All
   zeros, and anything else whose `started` is false, is a connection before its
   first cell: neither number is read then. */
typedef struct {
  uint64_t tat, arrival;
  bool started;
} clurimoon_tat;

/* What the engine answers: refusal number; verdict (1 conforming, 2 nonconforming);
   earliness, TAT less arrival, negative when late, and due time (0 when
   nonconforming), both in parts of 1/L slot; and the state for the next cell. In a
   refusal verdict, earliness and due time are 0, and the state is as it came. */
typedef struct {
  uint16_t number, verdict;
  int64_t early;
  uint64_t due;
  clurimoon_tat tat;
} clurimoon_timed;

#ifdef __cplusplus
extern "C" {
#endif

/*
 * Sets up a policer with n spaces and VCIs below v. Where raw is true, each cell
 * that arrives has its header checked by octet 5 (clurimoon_slot says how); where
 * it is false, octet 5 is neither read nor changed. kind is the line kind, 0 for
 * the UNI and 1 for the NNI: it says how each header is read. Paths may be opened
 * at either. VCs below split_vci and paths below split_path are the first operator's,
 * all others the second's. Where one operator has the whole card, give 1 and 1 and be
 * the second: then every connection is the second's.
 *
 * Refusals, in this order: 1 if n is not 1 to 1,024 or v not 2 to 1,024, or split_vci
 * is not 1 to v-1, or split_path not 1 to 255; 13 if kind is neither 0 nor 1; 2 if the
 * lengths are not 53 n octets of cells, n links, 2 n calendar numbers, 12 (v + 256) VC
 * words, whatever the kind is, 32 words of bits, whatever n is, and n arrival slots. A
 * refusal writes nothing and hands back a record of zeros.
 *
 * Done: cells, links, VC words and arrival slots are 0; every calendar number is
 * 65,535; the bits of spaces 0 to n-1 are set (space x has bit x % 64 of word x / 64)
 * and no other, those of the calendar entries too (entry e has bit e % 64 of word 16 +
 * e / 64); the Output List is empty. The record has t 2^32-1, T n-1 and rotation v+255,
 * so that the first slot is slot 0; free is n; raw is 1 or 0, the mode is 0,
 * correction; kind and both splits are those that were asked for. No VC and no path is
 * open.
 */
clurimoon_set clurimoon_setup(uint16_t n, uint16_t v, bool raw, uint16_t kind,
                              uint16_t split_vci, uint16_t split_path,
                              uint8_t *cells, size_t cells_length,
                              uint16_t *links, size_t links_length,
                              uint16_t *calendar, size_t calendar_length,
                              uint32_t *vcs, size_t vcs_length,
                              uint64_t *bits, size_t bits_length,
                              uint32_t *arrived, size_t arrived_length);

/*
 * Opens VC vci with L = 2^m, fill F and capacity C: a peak rate of L/F cells a
 * slot, and a tolerance of (C-F)/L slots. It has no second bucket. owner is the
 * operator who asks for it: 0 the first, 1 the second.
 *
 * Refusals, in this order: 1 if the record's N or V is outside its range, or its
 * split_vci is not 1 to V-1 or its split_path not 1 to 255; 2 if the VC words are not
 * 12 (V + 256); 4 if vci is not 1 to V-1; 16 if the VC is not the owner's: owner is 0
 * and vci not below split_vci, or owner is 1 and vci below it, or owner is any other
 * number; no word is read then; 3 if the VC's open word is neither 0 nor 1, or it is
 * open and its m, F and C break the rules, or S is above C, or waiting above N, or the
 * second bucket's m, F, C and flag are against their limits, or its S is above its C;
 * 5 if it is open; 6 unless m is at most 15, F from L to 16,777,216, C at least F and
 * floor((C-F)/L) at most N-1.
 *
 * Done: the VC's twelve words are 1, m, F, C, 0, the record's t, 0 and five times
 * 0. No other word changes. The record does not change and so isn't handed back.
 */
uint16_t clurimoon_open(clurimoon_record record, uint32_t *vcs, size_t vcs_length,
                        uint16_t owner, uint16_t vci, uint8_t m, uint32_t f, uint32_t c);

/*
 * Opens VC vci as clurimoon_open does, with a second bucket for its CLP 0 cells:
 * m2, f2 and c2, with L2 = 2^m2, are a sustainable rate of L2/F2 cells a slot and
 * a burst tolerance of (C2-F2)/L2 slots. tag is 1 where CLP 0 cells above that
 * rate are to be tagged, 0 where they are to be excess. m2, f2, c2 and tag all 0
 * are no second bucket: then it is clurimoon_open.
 *
 * Refusals, in this order: 1, 2, 4, 16, 3, 5 and 6 as for clurimoon_open; 11 unless
 * m2, f2, c2 and tag are all 0, or m2 is at most 15, F2 from 1 to 16,777,216, C2
 * from F2 to 1,073,741,824 and tag 0 or 1. F2 may be below L2, and C2 has no rule
 * of N: the second bucket delays no cell.
 *
 * Done: the VC's twelve words are 1, m, F, C, 0, the record's t, 0, m2, F2, C2, 0,
 * tag. No other word changes. The record does not change and so isn't handed back.
 */
uint16_t clurimoon_open_sustained(clurimoon_record record,
                                  uint32_t *vcs, size_t vcs_length, uint16_t owner,
                                  uint16_t vci, uint8_t m, uint32_t f, uint32_t c,
                                  uint8_t m2, uint32_t f2, uint32_t c2, uint8_t tag);

/*
 * Opens the path on VPI vpi, with one or two buckets for all its cells, whatever
 * their VCI. A path is opened as a VC is by clurimoon_open_sustained, with its VPI
 * in place of the VCI; m2, f2, c2 and tag all 0 are no second bucket. While it is
 * open, each cell with that VPI is the path's, also one with VCI 0 or with the VCI
 * of an open VC: VCs are at VPI 0.
 *
 * Refusals, in this order: 1; 2; 4 if vpi is not 1 to 255; 16 if the path is not the
 * owner's, by split_path; 3, 5, 6 and 11 as for clurimoon_open_sustained, with the
 * path's words in place of the VC's.
 *
 * Done: the twelve words of number V + vpi are 1, m, F, C, 0, the record's t, 0,
 * m2, F2, C2, 0, tag. No other word changes. The record does not change and so
 * isn't handed back.
 */
uint16_t clurimoon_open_path(clurimoon_record record,
                             uint32_t *vcs, size_t vcs_length, uint16_t owner,
                             uint16_t vpi, uint8_t m, uint32_t f, uint32_t c,
                             uint8_t m2, uint32_t f2, uint32_t c2, uint8_t tag);

/*
 * Closes VC vci, unless cells of it wait or it has a debt. A debt is what is left
 * of the peak bucket's S when the VC is brought up to date as of the record's t,
 * the last slot that was served: without it a VC closed and reopened at once could
 * send twice its peak.
 *
 * Refusals, in this order: 1, 2, 4, 16 and 3 as for open, 3 on the words as they are
 * stored; 7 if it is not open; 8 if waiting is not 0, or S brought up to date is
 * not 0. A refusal writes nothing: neither S nor `last` moves.
 *
 * Done: the VC's twelve words are 0. No other word changes. The record does not
 * change and so isn't handed back.
 *
 * Closing looks at the peak bucket only: what is in the second bucket keeps nobody
 * from closing, and is gone with the close. A VC that is closed and reopened starts
 * with an empty second bucket.
 *
 * After an 8 ask again later. Once no further cell of the VC is accepted, the
 * debt is gone after exactly ceil(S/L) more slots, S as of t; the last cell
 * leaves at most D + N-1 slots after its arrival.
 */
uint16_t clurimoon_close(clurimoon_record record, uint32_t *vcs, size_t vcs_length,
                         uint16_t owner, uint16_t vci);

/*
 * Closes the path on VPI vpi, as clurimoon_close closes a VC: unless cells of it
 * wait or it has a debt.
 *
 * Refusals, in this order: 1; 2; 4 if vpi is not 1 to 255; 16, 3, 7 and 8 as for
 * clurimoon_close, with the path's words in place of the VC's. A refusal writes
 * nothing.
 *
 * Done: the twelve words of number V + vpi are 0. No other word changes. The record
 * does not change and so isn't handed back.
 */
uint16_t clurimoon_close_path(clurimoon_record record,
                              uint32_t *vcs, size_t vcs_length, uint16_t owner,
                              uint16_t vpi);

/*
 * Serves one slot. `cell` is what arrived: 53 octets, or none (length 0).
 *
 * Refusals, in this order: 1 if the record's N or V is outside its range; 2 if
 * one of the six memories has another length than at setup; 9 if the cell's
 * length is neither 0 nor 53; 3 if the slot would read a stored number outside
 * its range, raw, mode and kind among them: raw is read when 53 octets are lent,
 * mode when raw is then 1, kind when the cell is not dropped and when one departs,
 * and each must be 0 or 1. A refusal writes nothing and hands the record back as it
 * came, its mode too.
 *
 * 3 covers the free spaces where the slot takes one, for a cell that is accepted or
 * tagged, and where it frees one, when a cell departs: a bit at or above N, in any of
 * words 0 to 15; a number `free` other than the ones in these words; none free
 * for a cell; a freed space already free. Number and bits are read as earlier steps
 * of the slot left them, and not at all in a slot that neither takes nor frees. No
 * slot judges a bit of a calendar entry, whatever words 16 to 31 hold, nor an arrival
 * slot, which has any value.
 *
 * The header check comes first, where raw is 1 and a cell is lent, idle and
 * unassigned cells too. Octet 5 must be the remainder of the first four octets
 * times x^8 by x^8 + x^2 + x + 1, with 01010101 added bit by bit (ITU-T I.432).
 *  - It is: the cell goes on as it came, and the mode is correction from now on.
 *  - One of the forty bits is wrong, in correction: that bit is mended, the cell
 *    goes on so, and the mode is detection from now on.
 *  - Any other error, and every error in detection: the cell is dropped, verdict 4
 *    with VCI 0; the slot is an empty one otherwise, and the mode is detection
 *    from now on.
 * The caller's cell is not changed: what is stored, sent and shown is the mended
 * cell. Mended to VPI 0 and VCI 0 it makes the slot empty, verdict 0. A slot that
 * is lent no cell keeps the mode.
 *
 * The header of a cell that goes on is read by the line kind, and names
 *  - with VPI 0 and VCI 0 no connection: it is no user cell, verdict 0;
 *  - with VPI 0 and VCI 1 to V-1 that VC;
 *  - with VPI 1 to 255 that path, whatever its VCI, at the UNI and at the NNI.
 * A cell that names no connection or one that isn't open is unknown, with its VCI
 * as read, and no word of another connection is read for it. A cell of an open
 * connection has the connection's number for its VCI in every verdict, and when it
 * departs: the VCI of a VC, V + VPI of a path. Its 53 octets leave as they came, or
 * as mended or tagged.
 *
 * A cell of an open connection is judged by both its buckets, before either is filled:
 *  - above the peak (S above C-F): excess;
 *  - CLP 0, within the peak and above the sustainable rate (the second S above the
 *    second C-F): tagged where the flag is 1, otherwise excess;
 *  - else accepted. A CLP 1 cell does not look at the second bucket.
 * An accepted CLP 0 cell fills both buckets; an accepted CLP 1 cell and a tagged
 * one only the peak bucket; an excess one neither. A tagged cell is stored, sent
 * and shown with CLP 1 and with octet 5 computed anew, also where the policer is
 * not raw; nothing else of it changes, and D is the peak bucket's. Of a cell that
 * isn't tagged octet 5 leaves as it came or was mended. Both buckets of a connection
 * are brought up to date together; that reads its words but waiting, so that 3
 * covers the second bucket's words too: m, F, C and flag by the limits of
 * clurimoon_open_sustained, and S at most C.
 *
 * Done: the clock, T and rotation grow by one, rotation over all V + 256 numbers; the
 * connection that rotation names, if open, is brought up to date (0 and V name none);
 * the arriving cell is judged and, if accepted or tagged, stored in the lowest free
 * space, whose bit is cleared while the number `free` falls by one, and whose arrival
 * slot becomes the clock's t, and joined to the head of calendar entry T+D, whose bit
 * is set; entry T, where it is not empty, goes to the end of the Output List, and its
 * bit is cleared; the head of the Output List departs, its space's bit is set, and the
 * number grows by one. No octet and no word changes but those that these steps name.
 *
 * The departing cell stays in its space, `answer.space`, until a later slot
 * stores another there, which may be the next: show it with clurimoon_line before
 * the next slot. So does its arrival slot, number `answer.space` of the arrival slots:
 * it waited t less that, modulo 2^32; clurimoon_tally_slot counts it.
 */
clurimoon_served clurimoon_slot(clurimoon_record record,
                                uint8_t *cells, size_t cells_length,
                                uint16_t *links, size_t links_length,
                                uint16_t *calendar, size_t calendar_length,
                                uint32_t *vcs, size_t vcs_length,
                                uint64_t *bits, size_t bits_length,
                                uint32_t *arrived, size_t arrived_length,
                                const uint8_t *cell, size_t cell_length);

/*
 * Says where the cell for the line lies; nothing is copied and nothing written.
 * `number` is a slot's answer.space.
 *
 * If the cell memory's length isn't 53 N for an N of 1 to 1,024, or the idle
 * cell isn't 53 long, or the number is neither below N nor 65,535: the empty
 * part, {1, 0, 0}. Otherwise, number below N: {0, 53 number, 53}, that space of
 * the cell memory; 65,535: {1, 0, 53}, the whole idle cell.
 */
clurimoon_part clurimoon_line(const uint8_t *cells, size_t cells_length,
                              const uint8_t *idle, size_t idle_length,
                              uint16_t number);

/*
 * Says whether the state is sound; writes nothing.
 *
 * True exactly when lengths and ranges hold throughout, no bit of a space at or above
 * N is set and the number `free` is the ones in words 0 to 15, the bit of a calendar
 * entry is set exactly where the entry is below N and not empty, a space whose bit is
 * set is in no chain and every other in exactly one of the Output List and the time
 * slot queues, each chain ends at its tail, entry T is empty, each queued header, read
 * by the line kind, names an open VC or path, and the waiting of each of these is the
 * number of its queued cells; raw, mode and kind are among the ranges, each 0 or 1
 * whatever the others are, and so are both splits and the words of a second bucket of
 * an open VC or path. The words of numbers 0 and V don't matter, nor do links that no
 * chain reads, nor what the arrival slots hold: of these the length alone is judged.
 * It is true after every call since a setup that answered 0, where each call got
 * record and memories as the call before left them.
 */
bool clurimoon_audit(clurimoon_record record,
                     const uint8_t *cells, size_t cells_length,
                     const uint16_t *links, size_t links_length,
                     const uint16_t *calendar, size_t calendar_length,
                     const uint32_t *vcs, size_t vcs_length,
                     const uint64_t *bits, size_t bits_length,
                     const uint32_t *arrived, size_t arrived_length);

/*
 * Says how many slots from now, if no cell arrives, the next cell leaves; writes
 * nothing and moves nothing. It is lent the calendar and the bits alone.
 *
 * Refusals, in this order: 1 if the record's N or V is outside its range; 2 if the
 * calendar is not 2 N numbers or the bits are not 32 words; 3 if T is not below N, or
 * the Output List's head and tail are not both below N or both 65,535, or the calendar
 * entry that the bits name is empty or has a head and tail that are not both below N.
 * In a refusal slots is 0.
 *
 * Done: 1 where the Output List has a cell, and no bit is read then. Otherwise the
 * bits of the calendar entries are looked at in ring order after T, below N: T+1 to
 * N-1, then 0 to T-1. The bit of entry T is not looked at, nor are those at N and
 * above. The first entry whose bit is set is the one that the bits name, and the answer
 * is how many entries it stands after T, 1 to N-1; where no bit is set it is 0: none
 * waits. No other entry of the calendar is read.
 *
 * Where the audit says yes, 3 is not given, and the answer is that of a walk over all
 * entries. After calls since a setup that answered 0, where each call got record and
 * memories as the call before left them: if it says k and the slots to come are lent
 * no cell, the next k-1 send nothing and the k-th sends; if it says 0, none of them
 * sends. A card may sleep until then, or until a cell arrives. It still owes the slots
 * of that time: before a cell is handed in, and before an open or a close, serve them,
 * each lent no cell, by clurimoon_slot or in one clurimoon_burst.
 */
clurimoon_wait clurimoon_next(clurimoon_record record,
                              const uint16_t *calendar, size_t calendar_length,
                              const uint64_t *bits, size_t bits_length);

/*
 * Serves slot after slot in one call: `sizes` has an octet a slot, the length of
 * the cell that arrived (0 or 53); `arrivals` 53 octets a slot, not read where
 * the size is 0; `departures` 53 octets a slot; `answers` six numbers a slot, in
 * the order of clurimoon_answer.
 *
 * Refusals, in this order: 1 if the record's N or V is outside its range; 2 if
 * one of the six memories has another length than at setup, or arrivals and
 * departures are not 53 times, answers not 6 times as long as sizes. Each leaves
 * everything as it came, with done 0.
 *
 * Otherwise it is that many calls of clurimoon_slot, each followed by copying the
 * departing cell, if any, into the slot's own 53 octets of departures (since its
 * space may be taken again within the burst). Where nothing departs these octets
 * keep their values. The header check's mode goes on from slot to slot; arrivals
 * are not changed. The burst stops before the first slot that would be refused,
 * with 9 or 3: record and memories are those after `done` served slots, answers
 * and departures of these are written, and all others keep their values. If all
 * slots are served, and for no sizes, the number is 0.
 */
clurimoon_burst_end clurimoon_burst(clurimoon_record record,
                                    uint8_t *cells, size_t cells_length,
                                    uint16_t *links, size_t links_length,
                                    uint16_t *calendar, size_t calendar_length,
                                    uint32_t *vcs, size_t vcs_length,
                                    uint64_t *bits, size_t bits_length,
                                    uint32_t *arrived, size_t arrived_length,
                                    const uint8_t *arrivals, size_t arrivals_length,
                                    const uint8_t *sizes, size_t sizes_length,
                                    uint8_t *departures, size_t departures_length,
                                    uint16_t *answers, size_t answers_length);

/*
 * Tallies what a slot has sent, for the delay summary of one connection. Call it after the
 * slot and before the next: record is what the slot handed back, `space` and `out_vci` are
 * its answer's, `arrived` the policer's arrival slots, n of them. connection is the
 * number of the VC or path that the tally is of: a VCI, or V + VPI. It writes nothing; the
 * tally goes in and out by value.
 *
 * Refusals, in this order: 1 if the record's N or V is outside its range; 2 if there are
 * not N arrival slots; 4 if connection is the number of none, that is not 1 to V-1 nor
 * V+1 to V+255; 3 if the tally's cells are above 2^32 or are not the sum of its bins, or
 * if out_vci is connection and space is not below N. In a refusal the tally is as it came.
 * Whether the connection is open doesn't matter, and no word of it is read.
 *
 * Done: where out_vci is not connection, the tally is as it came: another's cell left, or
 * none. Otherwise the delay is the record's t less the arrival slot of space, modulo 2^32;
 * bin 0 to 62 of that delay, or bin 63 where it is 63 or more, grows by one, and so do the
 * cells. A tally of 2^32 cells takes no more: it is as it came, with 0.
 *
 * Over a run that begins where no cell of the connection waits, called after each slot
 * with the tally of the call before, from zeros on: each bin is how many of the
 * connection's cells waited so long, the k-th accepted or tagged one being the k-th to
 * leave; 3 is not given.
 */
clurimoon_tallied clurimoon_tally_slot(clurimoon_tally tally, clurimoon_record record,
                                       const uint32_t *arrived, size_t arrived_length,
                                       uint16_t connection, uint16_t space,
                                       uint16_t out_vci);

/*
 * The percentile of a tally: the lowest bin at which 1,000 times the sum of the bins up to
 * it is at least share times the cells. 500 asks for the median, 999 for the delay that at
 * most one cell in a thousand exceeds, 1,000 for the longest. Bin 63 is 63 slots or more.
 *
 * Refusals, in this order: 3 if the tally's cells are above 2^32 or are not the sum of
 * its bins; 15 if share is not 1 to 1,000, or the tally has no cell. The bin is then 0.
 */
clurimoon_bin clurimoon_percentile(clurimoon_tally tally, uint16_t share);

/*
 * clurimoon_burst with a tally of one connection: what a card calls that polls and wants
 * that connection's delays. After the burst it would be too late, since a space may be
 * taken again within it and its arrival slot written anew.
 *
 * Refusals, in this order: those of clurimoon_tally_slot after a slot that sent nothing,
 * once: 1; 2 if there are not N arrival slots; 4 if connection is the number of none; 3 if
 * the tally's cells are above 2^32 or are not the sum of its bins; then 2 if another lent
 * length does not fit, as for clurimoon_burst. Each leaves everything as it came, the tally
 * too, with done 0.
 *
 * Otherwise it is clurimoon_burst, slot by slot, and after each slot that is served
 * clurimoon_tally_slot with its answer. Where a slot would be refused, with 9 or 3, the
 * burst stops before it, and the tally is that after `done` slots.
 */
clurimoon_burst_tally clurimoon_burst_tallied(clurimoon_tally tally, uint16_t connection,
                                              clurimoon_record record,
                                              uint8_t *cells, size_t cells_length,
                                              uint16_t *links, size_t links_length,
                                              uint16_t *calendar, size_t calendar_length,
                                              uint32_t *vcs, size_t vcs_length,
                                              uint64_t *bits, size_t bits_length,
                                              uint32_t *arrived, size_t arrived_length,
                                              const uint8_t *arrivals, size_t arrivals_length,
                                              const uint8_t *sizes, size_t sizes_length,
                                              uint8_t *departures, size_t departures_length,
                                              uint16_t *answers, size_t answers_length);

/*
 * Judges one cell by the generator's own rule, virtual scheduling: a cell of a
 * connection with L = 2^m, fill F and capacity C that arrives in slot `arrival`, at
 * arrival * L in parts of 1/L slot. It needs no policer, reads no memory and writes
 * none. The run has 2^32 slots, 0 to 4,294,967,295, which don't wrap.
 *
 * Refusals, in this order: 1 if n is not 1 to 1,024; 6 unless m is at most 15, F
 * from L to 16,777,216, C at least F and floor((C-F)/L) at most n-1; 3 if the state
 * is started and its TAT is 2^48 or more or its arrival 2^32 or more; 12 if the
 * state is started and the arrival is not after its arrival, or the arrival is 2^32
 * or more. From a state that is not started, where each call gets the state that
 * the call before answered, 3 is never given.
 *
 * Done: the first cell is on time: it is expected when it arrives, earliness 0. Any
 * later one is early by TAT less its arrival. It is nonconforming, verdict 2,
 * exactly when it is early by more than C-F. A conforming one, verdict 1, is due at
 * the later of its arrival and TAT, and TAT becomes its due time plus F; of a
 * nonconforming one TAT stays. The arrival is stored for both.
 *
 * On a VC or path that was opened before the first slot with this m, F and C and
 * without a second bucket, in a policer with this N, and that nobody closes: called
 * for each of its cells, with the slot that it arrives in, the verdict is that of
 * clurimoon_slot, and of a conforming cell D is due / L, rounded down, less the
 * arrival.
 */
clurimoon_timed clurimoon_time(clurimoon_tat state, uint16_t n, uint8_t m,
                               uint32_t f, uint32_t c, uint64_t arrival);

/*
 * A refusal number in words, for a log. Never NULL.
 */
static inline const char *clurimoon_text(unsigned number) {
  switch (number) {
  case CLURIMOON_DONE: return "done";
  case CLURIMOON_REFUSED_RANGE: return "N is not 1 to 1024, V not 2 to 1024, or a split is outside its range";
  case CLURIMOON_REFUSED_LENGTH: return "a lent buffer has another length than it must";
  case CLURIMOON_REFUSED_STORED: return "a stored number is outside its range: the memory was damaged";
  case CLURIMOON_REFUSED_VCI: return "VCI is not 1 to V-1, or VPI of a path not 1 to 255";
  case CLURIMOON_REFUSED_ALREADY_OPEN: return "already open";
  case CLURIMOON_REFUSED_RULES: return "m, F or C against the rules";
  case CLURIMOON_REFUSED_NOT_OPEN: return "not open";
  case CLURIMOON_REFUSED_WAITING: return "not yet: a cell waits or there is a debt";
  case CLURIMOON_REFUSED_CELL_LENGTH: return "a cell is neither 0 nor 53 octets long";
  case CLURIMOON_REFUSED_UNREADABLE: return "a record of the trace can't be read";
  case CLURIMOON_REFUSED_SECOND: return "m, F, C or flag of the second bucket outside its limits";
  case CLURIMOON_REFUSED_NOT_AFTER: return "the arrival is not after the previous one, or outside the run";
  case CLURIMOON_REFUSED_KIND: return "the line kind is neither UNI nor NNI";
  case CLURIMOON_REFUSED_SHARE: return "the share is not 1 to 1000, or no cell was sent";
  case CLURIMOON_REFUSED_NOT_OWNER: return "not this operator's connection";
  default: return "no number of this library";
  }
}

/*
 * Writes octets 1 to 4 of a cell: VPI, VCI, PTI and CLP, each cut to its 12, 16, 3
 * and 1 bits. Octet 5 and the payload are left to the caller: a policer that is not
 * raw doesn't look at octet 5, and for one that is clurimoon_put_hec writes it. At
 * the UNI, with a VPI of up to 255, the GFC becomes 0.
 */
static inline void clurimoon_put_header(uint8_t *cell, unsigned vpi, unsigned vci, unsigned pti, unsigned clp) {
  cell[0] = (uint8_t)(vpi >> 4 & 255u);
  cell[1] = (uint8_t)((vpi & 15u) << 4 | (vci >> 12 & 15u));
  cell[2] = (uint8_t)(vci >> 4 & 255u);
  cell[3] = (uint8_t)((vci & 15u) << 4 | (pti & 7u) << 1 | (clp & 1u));
}

/*
 * Writes octet 5 of a cell, by the first four: their remainder times x^8 by
 * x^8 + x^2 + x + 1, with 01010101 added bit by bit (ITU-T I.432).
 */
static inline void clurimoon_put_hec(uint8_t *cell) {
  unsigned rest = 0;
  int octet, bit;
  for (octet = 0; octet < 4; ++octet) {
    rest ^= cell[octet];
    for (bit = 0; bit < 8; ++bit) rest = (rest & 128u) != 0 ? (rest << 1 ^ 0x107u) : rest << 1;
  }
  cell[4] = (uint8_t)(rest ^ 0x55u);
}

#ifdef __cplusplus
}
#endif

#endif
