/* Any slot of any memory, in the order of document 01: the five steps are worked out on locals, then written. */
#ifndef CAREFUL_H
#define CAREFUL_H
#include "path.h"

/* Both below N or both 65,535. */
static inline bool bad_pair(u32 head, u32 tail, u32 n) {
  return (head >= n || tail >= n) && (head & tail) != none;
}

/* The ones of a word on a processor that has no instruction for it, as the archive's must be. */
inlined u32 ones_of(u64 word) {
  word -= word >> 1 & 0x5555555555555555;
  word = (word & 0x3333333333333333) + (word >> 2 & 0x3333333333333333);
  return (u32)(((word + (word >> 4)) & 0x0f0f0f0f0f0f0f0f) * 0x0101010101010101 >> 56);
}
/* No bit at or above N, and the number is the ones: the words that N reaches are counted, the others tested at once. */
static inline bool spaces_fit(const u64 *bits, u32 n, u32 free) {
  u32 ones = 0, w = 0;
  u64 above = 0;
  for (; w < n / 64; ++w) ones += ones_of(bits[w]);
  if (n % 64 != 0) ones += ones_of(bits[w]), above = bits[w] >> n % 64, ++w;
  for (; w < CLURIMOON_ENTRY_BITS; ++w) above |= bits[w];
  return above == 0 && ones == free;
}

/* Whether m, F, C, S or the flag of a second bucket is out of range, one that isn't all 0. */
static inline bool bad_second(const u32 *vc) {
  const u32 f = vc[w_F2], c = vc[w_C2];
  return vc[w_m2] > 15 || f - 1 >= CLURIMOON_F_MAX || c < f || c > CLURIMOON_C2_MAX || vc[w_S2] > c || vc[w_tag] > 1;
}
/* All its five words as one number, which is 0 where there is none. */
static inline u64 second_of(const u32 *vc) {
  u64 f_and_c, s_and_tag;
  memcpy(&f_and_c, vc + w_F2, 8), memcpy(&s_and_tag, vc + w_S2, 8);
  return f_and_c | s_and_tag | vc[w_m2];
}

/* Whether an open connection's m, F, C or S, or a word of its second bucket, is out of range. */
static inline bool bad_buckets(const u32 *vc, u32 n) {
  const u32 m = vc[w_m], f = vc[w_F], c = vc[w_C];
  if (m > 15 || f >> m == 0 || f > CLURIMOON_F_MAX || c < f || (c - f) >> m >= n || vc[w_S] > c) return true;
  return second_of(vc) != 0 && bad_second(vc);
}

/* False, and nothing is written, for refusal 3. N, V and all lengths are fit. */
static bool careful(clurimoon_record *r, uint8_t *cells, u16 *links, u16 *calendar, u32 *vcs, u64 *bits, u32 *arrived,
                    const uint8_t *cell, size_t cell_length, clurimoon_answer *answer) {
  const u32 n = r->n, v = r->v, t = r->t + 1, mask = mask_of(r->kind);
  if (unlikely(r->T >= n || r->rotation >= v + paths)) return false;
  const u32 T = r->T + 1u == n ? 0 : r->T + 1u, rotation = r->rotation + 1u == v + paths ? 0 : r->rotation + 1u;
  u32 free = r->free, out_head = r->out_head, out_tail = r->out_tail;
  u32 verdict = CLURIMOON_NOTHING, d = 0, seen = 0, sent = 0;

  /* The header check: a dropped cell is none for what follows. */
  uint8_t held[53];
  u16 mode = r->mode;
  if (cell_length != 0 && r->raw != 0) {
    if (r->raw > 1 || mode > 1) return false;
    cell = checked(&mode, cell, held);
    if (cell == NULL) cell_length = 0, verdict = CLURIMOON_DROPPED;
  }

  /* Step 2: the VC or path whose turn it is, and its S afterwards. */
  u32 *turn = NULL, turn_s = 0, turn_second = 0;
  if (rotation != 0 && rotation != v) {
    u32 *vc = vcs + words * rotation;
    if (vc[w_open] > 1) return false;
    if (vc[w_open] == 1) {
      if (bad_buckets(vc, n)) return false;
      turn = vc;
      turn_s = fallen(vc, t), turn_second = fallen_second(vc, t);
    }
  }

  /* Step 3: the VC or path met, the space x taken, entry e with its old head and new tail. */
  u32 *met = NULL, met_s = 0, met_second = 0, x = none, e = none, joined = none, e_tail = none;
  if (cell_length != 0) {
    if (r->kind > 1) return false;
    const u32 name = name_of(cell, mask), number = number_of(name, v);
    if (name != 0) {
      seen = name & 0xffff;
      verdict = CLURIMOON_UNKNOWN;
      u32 *vc = vcs + words * number;
      if (number != 0 && vc[w_open] != 0) {
        if (vc[w_open] != 1 || bad_buckets(vc, n)) return false;
        met = vc, seen = number;
        met_s = fallen(vc, t), met_second = fallen_second(vc, t);
        const bool above = clp_0(cell) && met_second > vc[w_C2] - vc[w_F2];
        verdict = CLURIMOON_EXCESS;
        if (met_s <= vc[w_C] - vc[w_F]) verdict = !above ? CLURIMOON_ACCEPTED : vc[w_tag] ? CLURIMOON_TAGGED : CLURIMOON_EXCESS;
        if (verdict == CLURIMOON_ACCEPTED && clp_0(cell)) met_second += vc[w_F2];
        if (verdict != CLURIMOON_EXCESS) {
          d = met_s >> vc[w_m];
          met_s += vc[w_F];
          if (vc[w_waiting] >= n || !spaces_fit(bits, n, free) || free == 0) return false;
          x = lowest_free(bits), free -= 1;
          e = T + d >= n ? T + d - n : T + d;
          joined = calendar[2 * e], e_tail = calendar[2 * e + 1];
          if (bad_pair(joined, e_tail, n)) return false;
          if (joined == none) e_tail = x;
        }
      }
    }
  }

  /* Step 4: entry T as step 3 left it; `follows` is the old tail whose link changes. */
  u32 head = calendar[2 * T], tail = calendar[2 * T + 1], follows = none;
  if (e == T) head = x, tail = e_tail;
  if (bad_pair(head, tail, n) || bad_pair(out_head, out_tail, n)) return false;
  if (head != none) {
    if (out_head == none) out_head = head;
    else follows = out_tail;
    out_tail = tail;
  }

  /* Step 5: the link and the header are read as steps 3 and 4 left them. */
  const u32 y = out_head;
  u32 *left = NULL;
  if (y != none) {
    if (y == out_tail) {
      out_head = out_tail = none;
    } else {
      out_head = y == follows ? head : y == x && joined != none ? joined : links[y];
      if (out_head >= n) return false;
    }
    sent = number_of(name_of(y == x ? cell : cells + 53 * y, mask), v);
    if (r->kind > 1 || sent == 0) return false;
    left = vcs + words * sent;
    if (left[w_open] != 1 || left[w_waiting] + (x != none && left == met) - 1 >= n) return false;
    /* after a taking the words fit, and the space that was taken is not free */
    if ((x == none && !spaces_fit(bits, n, free)) || (y != x && is_free(bits, y))) return false;
    free += 1;
  }

  /* All is fit: write, in the order of the steps. */
  if (turn) turn[w_S] = turn_s, turn[w_S2] = turn_second, turn[w_last] = t;
  if (met) met[w_S] = met_s, met[w_S2] = met_second, met[w_last] = t;
  if (x != none) {
    met[w_waiting] += 1;
    take_space(bits, x);
    copy_cell(cells + 53 * x, cell), arrived[x] = t;
    if (verdict == CLURIMOON_TAGGED) tag(cells + 53 * x, cell);
    if (joined != none) links[x] = (uint16_t)joined;
    calendar[2 * e] = (uint16_t)x, calendar[2 * e + 1] = (uint16_t)e_tail, mark(bits, e);
  }
  if (head != none) calendar[2 * T] = calendar[2 * T + 1] = (uint16_t)none, unmark(bits, T);
  if (follows != none) links[follows] = (uint16_t)head;
  if (left) left[w_waiting] -= 1, give_space(bits, y);
  r->t = t, r->T = (u16)T, r->rotation = (u16)rotation, r->mode = mode;
  r->free = (u16)free, r->out_head = (u16)out_head, r->out_tail = (u16)out_tail;
  *answer = (clurimoon_answer){0, (u16)verdict, (u16)seen, (u16)d, (u16)y, (u16)sent};
  return true;
}


#endif
