/* What both forms share: the words of a VC or path, headers, the leak, a cell's copy. Little endian, since a head and its
   tail are read as one number. */
#ifndef PATH_H
#define PATH_H
#include <stdbool.h>
#include <string.h>

#include "slots.h"

#if __BYTE_ORDER__ != __ORDER_LITTLE_ENDIAN__
#error "the slot path in C reads pairs and headers as a little-endian machine does"
#endif

typedef uint16_t u16;
typedef uint32_t u32;
typedef uint64_t u64;
enum { w_open, w_m, w_F, w_C, w_S, w_last, w_waiting, w_m2, w_F2, w_C2, w_S2, w_tag, words };
static const u32 none = CLURIMOON_NONE, no_pair = 0xffffffff;

#define likely(x) __builtin_expect(!!(x), 1)
#define unlikely(x) __builtin_expect(!!(x), 0)
#define inlined static inline __attribute__((always_inline))
#define exported __attribute__((noinline))

/* Spaces, entries, connections. */
typedef u32 index_t;
enum { paths = CLURIMOON_PATHS };
/* VPI (8 bits at the UNI, 12 at the NNI), then VCI (16 bits), of a cell's header. */
inlined u32 mask_of(u32 kind) { return 0xffffff | kind * 0xf000000; }
inlined index_t name_of(const uint8_t *cell, u32 mask) {
  u32 header;
  memcpy(&header, cell, sizeof header);
  return __builtin_bswap32(header) >> 4 & mask;
}
/* The number of the VC or path that it names; 0 for none. */
inlined index_t number_of(index_t name, index_t v) {
  if (likely(name - 1 < v - 1)) return name;
  const index_t path = name >> 16;
  return path - 1 < paths - 1 ? v + path : 0;
}

/* A head and its tail, two numbers in a row: the head is the low half. */
inlined u32 pair_at(const u16 *at) {
  u32 pair;
  memcpy(&pair, at, sizeof pair);
  return pair;
}
inlined void put_pair(u16 *at, u32 pair) { memcpy(at, &pair, sizeof pair); }

/* S of a bucket brought up to date. */
inlined u32 fallen_by(u32 stored, u32 elapsed, u32 m) {
  u64 s;
  return __builtin_sub_overflow((u64)stored, (u64)elapsed << m, &s) ? 0 : (u32)s;
}
inlined u32 fallen(const u32 *vc, u32 t) { return fallen_by(vc[w_S], t - vc[w_last], vc[w_m]); }
/* An empty one stays so: of a VC without a second bucket neither is read. */
inlined u32 fallen_second(const u32 *vc, u32 t) {
  const u32 stored = vc[w_S2];
  return stored == 0 ? 0 : fallen_by(stored, t - vc[w_last], vc[w_m2]);
}

/* Free spaces: bit k of word w is space 64 w + k. The lowest one, where there is one. */
inlined index_t lowest_free(const u64 *bits) {
  index_t w = 0;
  while (unlikely(bits[w] == 0)) ++w;
  return 64 * w + (index_t)__builtin_ctzll(bits[w]);
}
inlined bool is_free(const u64 *bits, index_t x) { return bits[x / 64] >> x % 64 & 1; }
inlined void take_space(u64 *bits, index_t x) { bits[x / 64] &= ~((u64)1 << x % 64); }
inlined void give_space(u64 *bits, index_t x) { bits[x / 64] |= (u64)1 << x % 64; }
/* Entries that are not empty: their bits stand behind those of the spaces. An entry's number is taken from its place. */
inlined index_t entry_at(const u16 *calendar, const u16 *entry) { return (index_t)((size_t)((const char *)entry - (const char *)calendar) / 4); }
inlined void mark(u64 *bits, index_t e) { bits[CLURIMOON_ENTRY_BITS + e / 64] |= (u64)1 << e % 64; }
inlined void unmark(u64 *bits, index_t e) { bits[CLURIMOON_ENTRY_BITS + e / 64] &= ~((u64)1 << e % 64); }

/* 53 octets: three moves of 16 and one of 8, which overlaps. */
typedef u64 wide __attribute__((vector_size(16), aligned(1), may_alias));
inlined void copy_cell(uint8_t *to, const uint8_t *from) {
  const wide a = *(const wide *)from, b = *(const wide *)(from + 16), c = *(const wide *)(from + 32);
  u64 last;
  memcpy(&last, from + 45, 8);
  *(wide *)to = a, *(wide *)(to + 16) = b, *(wide *)(to + 32) = c;
  memcpy(to + 45, &last, 8);
}

/* Octet 5, by a table for each of the four octets: a path's cell has any VCI. Each table has what its octet's bits leave,
   added up; the first has 01010101 besides. */
#define BIT(b, k, rest) ((b) >> (k)&1 ? (rest) : 0)
#define OF(b, r0, r1, r2, r3, r4, r5, r6, r7)                                                                          \
  (uint8_t)(BIT(b, 0, r0) ^ BIT(b, 1, r1) ^ BIT(b, 2, r2) ^ BIT(b, 3, r3) ^ BIT(b, 4, r4) ^ BIT(b, 5, r5) ^ BIT(b, 6, r6) ^ \
            BIT(b, 7, r7))
#define OF_1(b) (uint8_t)(0x55 ^ OF(b, 0x16, 0x2c, 0x58, 0xb0, 0x67, 0xce, 0x9b, 0x31))
#define OF_2(b) OF(b, 0x6b, 0xd6, 0xab, 0x51, 0xa2, 0x43, 0x86, 0x0b)
#define OF_3(b) OF(b, 0x15, 0x2a, 0x54, 0xa8, 0x57, 0xae, 0x5b, 0xb6)
#define OF_4(b) OF(b, 0x07, 0x0e, 0x1c, 0x38, 0x70, 0xe0, 0xc7, 0x89)
#define FOUR(of, b) of(b), of((b) + 1), of((b) + 2), of((b) + 3)
#define ROW(of, b) FOUR(of, b), FOUR(of, (b) + 4), FOUR(of, (b) + 8), FOUR(of, (b) + 12)
#define ROWS(of, b) ROW(of, b), ROW(of, (b) + 16), ROW(of, (b) + 32), ROW(of, (b) + 48)
#define ALL(of) {ROWS(of, 0), ROWS(of, 64), ROWS(of, 128), ROWS(of, 192)}
static const uint8_t rest[4][256] = {ALL(OF_1), ALL(OF_2), ALL(OF_3), ALL(OF_4)};
inlined uint8_t octet_5(const uint8_t *cell, uint8_t octet_4) {
  return rest[0][cell[0]] ^ rest[1][cell[1]] ^ rest[2][cell[2]] ^ rest[3][octet_4];
}
inlined bool clp_0(const uint8_t *cell) { return (cell[3] & 1) == 0; }
/* Tags what was copied from `cell`. */
inlined void tag(uint8_t *to, const uint8_t *cell) {
  const uint8_t octet_4 = cell[3] | 1;
  to[3] = octet_4, to[4] = octet_5(cell, octet_4);
}

/* The header check of a raw policer. The likely way is a clean header in correction, which changes nothing: raw 1 and mode 0
   are tested as one number. A burst, without a record, is in correction there. */
inlined bool passes(const clurimoon_record *r, const uint8_t *cell) {
  return (r == NULL || likely(pair_at(&r->raw) == 1)) && likely(octet_5(cell, cell[3]) == cell[4]);
}
/* Any header, in either mode: what goes on, the cell or `held`, which is the mended copy, or NULL where it is dropped. */
static __attribute__((noinline, cold)) const uint8_t *checked(u16 *mode, const uint8_t *cell, uint8_t *held) {
  const bool corrects = *mode == CLURIMOON_CORRECTION;
  const uint8_t wrong = octet_5(cell, cell[3]) ^ cell[4];
  *mode = wrong == 0 ? CLURIMOON_CORRECTION : CLURIMOON_DETECTION;
  if (wrong == 0) return cell;
  for (index_t bit = 0; corrects && bit < 40; ++bit) {
    const index_t octet = bit / 8, one = 128 >> bit % 8;
    if (wrong != (octet == 4 ? one : (index_t)(rest[octet][one] ^ rest[octet][0]))) continue;
    copy_cell(held, cell), held[octet] ^= (uint8_t)one;
    return held;
  }
  return NULL;
}

/* A policer. Through a burst its numbers and the places of its memories are kept in locals; for one slot they stay where
   the caller has them, and `record` is not NULL. */
typedef struct {
  clurimoon_record *record;
  const lent_memory *lent;
  bool raw; /* in a burst, for which it is a constant */
  index_t n, v, T, rotation;
  u32 t, mask; /* of a header, by the line kind */
  u16 *entry; /* entry T */
  u32 *turn;  /* the VC or path that rotation names */
  uint8_t *kept_cells;
  u16 *kept_links, *kept_calendar;
  u32 *kept_vcs;
  u64 *kept_bits;
  u32 *kept_arrived;
  index_t kept_free, kept_out_head, kept_out_tail;
} policer;

#define MEMORY(type, name)                                                                                             \
  inlined type *name(const policer *p) { return p->record ? p->lent->name : p->kept_##name; }
MEMORY(uint8_t, cells)
MEMORY(u16, links)
MEMORY(u16, calendar)
MEMORY(u32, vcs)
MEMORY(u64, bits)
MEMORY(u32, arrived)

/* `free_number` is the record's `free`, whose name C has already. */
#define NUMBER(name, field)                                                                                                   \
  inlined index_t name(const policer *p) { return p->record ? p->record->field : p->kept_##field; }                    \
  inlined void set_##name(policer *p, index_t to) {                                                                    \
    if (p->record) p->record->field = (u16)to;                                                                         \
    else p->kept_##field = to;                                                                                         \
  }
NUMBER(free_number, free)
NUMBER(out_head, out_head)
NUMBER(out_tail, out_tail)

inlined bool is_raw(const policer *p) { return p->record ? p->record->raw != 0 : p->raw; }

static const u32 closed[words]; /* stands for records 0 and V, which are never open and whose words are not read */

/* The numbers of the record into locals and back; T and rotation are those of the slot to come. */
inlined index_t stepped(index_t number, index_t modulus) { return number + 1 == modulus ? 0 : number + 1; }
inlined index_t stepped_back(index_t number, index_t modulus) { return (number == 0 ? modulus : number) - 1; }
inlined void take(policer *p, const clurimoon_record *r) {
  p->t = r->t, p->T = stepped(r->T, p->n), p->rotation = stepped(r->rotation, p->v + paths);
  p->kept_free = r->free, p->kept_out_head = r->out_head, p->kept_out_tail = r->out_tail;
}
inlined void give(const policer *p, clurimoon_record *r) {
  r->t = p->t, r->T = (u16)stepped_back(p->T, p->n), r->rotation = (u16)stepped_back(p->rotation, p->v + paths);
  r->free = (u16)p->kept_free, r->out_head = (u16)p->kept_out_head, r->out_tail = (u16)p->kept_out_tail;
}

/* How many slots it is until T or rotation steps round, or rotation comes to V: within a run neither needs a test. */
inlined size_t begin_run(policer *p, size_t slots) {
  const index_t stop = p->rotation < p->v ? p->v : p->v + paths;
  p->entry = calendar(p) + 2 * p->T, p->turn = vcs(p) + words * p->rotation;
  if (p->rotation == 0 || p->rotation == p->v) return p->turn = (u32 *)closed, 1;
  if (slots > p->n - p->T) slots = p->n - p->T;
  return slots > stop - p->rotation ? stop - p->rotation : slots;
}
inlined void end_run(policer *p, index_t slots) {
  p->T = p->T + slots == p->n ? 0 : p->T + slots;
  p->rotation = p->rotation + slots == p->v + paths ? 0 : p->rotation + slots;
}

/* Where the slot's answer and its departing cell go; a slot by itself copies none. */
typedef struct {
  u16 *answer;
  uint8_t *departure;
  bool copied;
} given;

#endif
