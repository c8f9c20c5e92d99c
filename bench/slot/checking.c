/* The slot path with every test of refusals 1, 2, 9 and 3 before any write. The likely ways through a slot are written
   out, each with its tests first and its writes last. What is unfit or odd (lists that share spaces, a space queued and free)
   leaves them before any write, and careful.h serves that slot or refuses it. So does a cell of a raw policer whose header is
   wrong, or that comes in detection: on the likely ways the header check changes neither cell nor mode.

   Throughout, T is below N, rotation below V + 256 and the line kind 0 or 1; the Output List's head and tail are both below
   N or both 65,535. In a burst the words of free spaces fit as well: the ones are counted when it begins, and each slot keeps
   them so; a slot by itself counts them where it takes a space or frees one. */
#include "careful.h"

/* What arrived, and what rotation names. */
enum kind { nothing, away /* excess, unknown or idle */, later, now /* let in, D above 0 or 0 */ };
typedef struct {
  enum kind kind;
  const uint8_t *cell;
  u32 verdict, s, second; /* what its buckets hold afterwards, S without the cell's F */
  index_t name, d; /* the VCI as read, or the number of the connection met */
  u32 *met;        /* the VC or path brought up to date, or NULL */
  index_t x;       /* the space taken */
  u32 e_pair;      /* what the entry held that it joins, and the entry, unless that is T */
  u16 *e;
  u32 *turn, turn_s, turn_second; /* rotation's VC or path if open, or what takes its place, and what its buckets hold */
} plan;

/* Tests all words of an open connection but waiting, and works out S of both buckets as it will be. That C is at least F needs no
   test of its own: otherwise C-F is above 2^31, which is far more than N leaks. */
inlined bool brought(const u32 *vc, index_t n, u32 t, u32 *s, u32 *second, u32 *room) {
  const u32 m = vc[w_m], f = vc[w_F], c = vc[w_C];
  if (unlikely(m > 15) || unlikely(f > CLURIMOON_F_MAX) || unlikely(f >> m == 0)) return false;
  *room = c - f;
  if (unlikely(*room >> m >= n) || unlikely(vc[w_S] > c)) return false;
  *s = fallen(vc, t), *second = 0;
  if (likely(second_of(vc) == 0)) return true;
  if (unlikely(bad_second(vc))) return false;
  *second = fallen_second(vc, t);
  return true;
}

/* The writes of steps 1 to 3, and the first four numbers of the answer. */
inlined void write_arrival(policer *p, const plan *a, bool stays, u16 *answer) {
  a->turn[w_S] = a->turn_s, a->turn[w_last] = p->t, a->turn[w_S2] = a->turn_second;
  if (p->record) {
    p->record->t = p->t;
    p->record->T = (u16)p->T, p->record->rotation = (u16)p->rotation;
  }
  if (a->kind == nothing) {
    memset(answer, 0, 8);
    return;
  }
  put_pair(answer, a->verdict << 16);
  answer[2] = (u16)a->name, answer[3] = (u16)a->d;
  if (a->kind == away) {
    if (a->met) a->met[w_S] = a->s, a->met[w_last] = p->t, a->met[w_S2] = a->second;
    return;
  }
  a->met[w_S] = a->s + a->met[w_F], a->met[w_last] = p->t, a->met[w_S2] = a->second;
  if (stays) a->met[w_waiting] += 1, take_space(bits(p), a->x);
  copy_cell(cells(p) + 53 * a->x, a->cell), arrived(p)[a->x] = p->t;
  if (unlikely(a->verdict == CLURIMOON_TAGGED)) tag(cells(p) + 53 * a->x, a->cell);
  /* entry T is emptied again in step 4 */
  if (a->e_pair != no_pair) {
    links(p)[a->x] = (u16)a->e_pair;
    if (a->kind == later) a->e[0] = (u16)a->x;
  } else if (a->kind == later) put_pair(a->e, a->x * 0x10001);
  /* set whatever it was, since no bit of an entry is tested; that of entry T is cleared again in step 4 */
  if (a->kind == later) mark(bits(p), entry_at(calendar(p), a->e));
}

/* Tests the departing space's header and its connection's open word and waiting. Where that is the one whose cell was
   just accepted, waiting is below N, and one more is 1 to N. */
inlined u32 *leaving(const policer *p, index_t y, const u32 *met, index_t *sent) {
  *sent = number_of(name_of(cells(p) + 53 * y, p->mask), p->v);
  if (unlikely(*sent == 0)) return NULL;
  u32 *vc = vcs(p) + words * *sent;
  if (unlikely(vc[w_open] != 1)) return NULL;
  if (vc != met && unlikely(vc[w_waiting] - 1 >= p->n)) return NULL;
  return vc;
}

/* Steps 4 and 5 where space y of the Output List departs, and all writes of the slot. The list is `next` to `tail`
   afterwards. Where entry T was marked it is emptied, and `head` of it joins the old tail if that `follows`. */
inlined bool leave(policer *p, const plan *a, given to, index_t y, index_t next, index_t tail, bool marked, bool follows,
                   index_t head) {
  const bool accepted = a->kind >= later;
  if (accepted && unlikely(y == a->x)) return false;
  if (p->record && !accepted && unlikely(!spaces_fit(bits(p), p->n, free_number(p)))) return false;
  if (unlikely(is_free(bits(p), y))) return false;
  index_t sent;
  u32 *left = leaving(p, y, accepted ? a->met : NULL, &sent);
  if (unlikely(left == NULL)) return false;
  const index_t out_last = out_tail(p);
  write_arrival(p, a, true, to.answer);
  if (follows) links(p)[out_last] = (u16)head;
  if (marked) put_pair(p->entry, no_pair);
  if (marked || a->kind == now) unmark(bits(p), entry_at(calendar(p), p->entry));
  left[w_waiting] -= 1;
  if (to.copied) copy_cell(to.departure, cells(p) + 53 * y);
  give_space(bits(p), y), set_out_head(p, next);
  if (!accepted) set_free_number(p, free_number(p) + 1);
  if (marked || follows || tail == none) set_out_tail(p, tail);
  to.answer[4] = (u16)y, to.answer[5] = (u16)sent;
  return true;
}

/* An accepted cell with D 0 that meets an empty Output List leaves at once; what entry T held follows it. */
inlined bool leave_at_once(policer *p, const plan *a, given to) {
  const index_t head = a->e_pair & 0xffff, tail = a->e_pair >> 16;
  if (a->e_pair != no_pair && unlikely(head >= p->n || tail >= p->n || tail == a->x)) return false;
  write_arrival(p, a, false, to.answer);
  unmark(bits(p), entry_at(calendar(p), p->entry));
  if (to.copied) {
    copy_cell(to.departure, a->cell);
    if (unlikely(a->verdict == CLURIMOON_TAGGED)) tag(to.departure, a->cell);
  }
  if (a->e_pair != no_pair) put_pair(p->entry, no_pair), set_out_head(p, head), set_out_tail(p, tail);
  /* taken and freed: bits and number stay */
  to.answer[4] = (u16)a->x, to.answer[5] = (u16)a->name;
  return true;
}

/* Steps 4 and 5, and all writes. */
inlined bool finish(policer *p, plan *a, given to) {
  const u32 pair = pair_at(p->entry);
  const index_t n = p->n, first = out_head(p), last = out_tail(p), head = pair & 0xffff;
  index_t tail = pair >> 16, next;
  if (a->kind == now) {
    a->e_pair = pair;
    if (first == none) return leave_at_once(p, a, to);
    next = a->x;
    if (first != last && unlikely((next = links(p)[first]) >= n)) return false;
    if (pair == no_pair) return leave(p, a, to, first, next, a->x, false, true, a->x);
    if (unlikely(head >= n) || unlikely(tail >= n) || unlikely(tail == first)) return false;
    return leave(p, a, to, first, next, tail, true, true, a->x);
  }
  if (pair == no_pair) {
    if (first == none) {
      write_arrival(p, a, true, to.answer);
      if (a->kind == later) set_free_number(p, free_number(p) - 1);
      put_pair(to.answer + 4, none);
      return true;
    }
    if (first == last) return leave(p, a, to, first, none, none, false, false, none);
    if (unlikely((next = links(p)[first]) >= n)) return false;
    return leave(p, a, to, first, next, last, false, false, none);
  }
  if (unlikely(head >= n) || unlikely(tail >= n)) return false;
  if (first == none) {
    next = none;
    if (head == tail) tail = none;
    else if (unlikely((next = links(p)[head]) >= n)) return false;
    return leave(p, a, to, head, next, tail, true, false, none);
  }
  next = head;
  if (unlikely(tail == first)) return false;
  if (first != last && unlikely((next = links(p)[first]) >= n)) return false;
  return leave(p, a, to, first, next, tail, true, true, head);
}

/* Steps 3 to 5 where the cell names an open VC or path. */
inlined bool meet(policer *p, plan *a, u32 *vc, index_t number, given to) {
  u32 room;
  a->kind = away;
  if (!brought(vc, p->n, p->t, &a->s, &a->second, &room)) return false;
  a->met = vc, a->name = number;
  a->verdict = CLURIMOON_EXCESS;
  if (unlikely(a->s > room)) return finish(p, a, to);
  const u32 c_second = vc[w_C2], f_second = vc[w_F2];
  if (unlikely(c_second != 0) && clp_0(a->cell)) {
    if (a->second <= c_second - f_second) a->second += f_second, a->verdict = CLURIMOON_ACCEPTED;
    else if (vc[w_tag] == 0) return finish(p, a, to);
    else a->verdict = CLURIMOON_TAGGED;
  } else a->verdict = CLURIMOON_ACCEPTED;
  a->d = a->s >> vc[w_m];
  if (unlikely(vc[w_waiting] >= p->n)) return false;
  if (p->record && unlikely(!spaces_fit(bits(p), p->n, free_number(p)))) return false;
  if (unlikely(free_number(p) == 0)) return false;
  a->x = lowest_free(bits(p));
  if (a->d == 0) {
    a->kind = now;
    return finish(p, a, to);
  }
  a->kind = later;
  a->e = p->entry + 2 * a->d;
  if (a->e >= calendar(p) + 2 * p->n) a->e -= 2 * p->n;
  a->e_pair = pair_at(a->e);
  if (a->e_pair != no_pair && (unlikely((u16)a->e_pair >= p->n) || unlikely(a->e_pair >> 16 >= p->n))) return false;
  return finish(p, a, to);
}

/* Steps 3 to 5. */
inlined bool arrive(policer *p, plan *a, size_t size, given to) {
  if (size != 0) {
    if (unlikely(size != 53)) return false;
    if (is_raw(p) && unlikely(!passes(p->record, a->cell))) return false;
    a->name = name_of(a->cell, p->mask);
    /* a raw line has idle cells where another has none */
    if (is_raw(p) && a->name == 0) goto idle;
    const index_t number = number_of(a->name, p->v);
    u32 *vc = vcs(p) + words * number;
    a->d = 0, a->met = NULL;
    if (likely(number != 0) && likely(vc[w_open] == 1)) return meet(p, a, vc, number, to);
    if (number != 0 && vc[w_open] != 0) return false;
    a->kind = away, a->verdict = CLURIMOON_UNKNOWN;
    if (likely(a->name != 0)) return finish(p, a, to);
  }
idle:
  a->kind = nothing;
  return finish(p, a, to);
}

/* Steps 2 to 5. False, and nothing is written, for `careful`. */
inlined bool serve(policer *p, const uint8_t *cell, size_t size, given to) {
  u32 unused[words];
  plan a = {.cell = cell, .turn = unused, .turn_s = 0, .turn_second = 0};
  if (p->turn[w_open] == 1) {
    u32 room;
    if (!brought(p->turn, p->n, p->t, &a.turn_s, &a.turn_second, &room)) return false;
    a.turn = p->turn;
  } else if (unlikely(p->turn[w_open] != 0)) return false;
  return arrive(p, &a, size, to);
}

static u16 refusal_of(u32 n, u32 v, const lent_memory *lent) {
  if (n - 1 >= 1024 || v - 2 >= 1023) return 1;
  if (lent->cells_length != 53 * n || lent->links_length != n || lent->calendar_length != 2 * n ||
      lent->vcs_length != words * (v + paths) || lent->bits_length != CLURIMOON_BITS || lent->arrived_length != n)
    return 2;
  return 0;
}

/* A slot that left the likely ways: what it is refused with, or 0 when it was served. */
static __attribute__((noinline, cold)) u16 odd_slot(clurimoon_record *r, const lent_memory *lent, const uint8_t *cell,
                                                    size_t cell_length, clurimoon_answer *answer) {
  const u16 number = refusal_of(r->n, r->v, lent);
  if (number != 0) return number;
  if (cell_length != 0 && cell_length != 53) return 9;
  return careful(r, lent->cells, lent->links, lent->calendar, lent->vcs, lent->bits, lent->arrived, cell, cell_length, answer) ? 0 : 3;
}
static __attribute__((noinline, cold)) void odd_answer(clurimoon_record *r, const lent_memory *lent, const uint8_t *cell,
                                                       size_t cell_length, clurimoon_answer *answer) {
  const u16 number = odd_slot(r, lent, cell, cell_length, answer);
  if (number != 0) *answer = (clurimoon_answer){number, 0, 0, 0, CLURIMOON_NONE, 0};
}

exported void checking_slot(clurimoon_record *restrict r, const lent_memory *lent, const uint8_t *cell, size_t cell_length,
                            clurimoon_answer *answer) {
  policer p = {.n = r->n, .v = r->v, .lent = lent, .t = r->t + 1, .T = r->T + 1u, .rotation = r->rotation + 1u, .record = r,
               .mask = mask_of(r->kind)};
  if (unlikely(p.n - 1 >= 1024) || unlikely(p.v - 2 >= 1023) || unlikely(lent->cells_length != 53 * p.n) ||
      unlikely(lent->links_length != p.n) || unlikely(lent->calendar_length != 2 * p.n) ||
      unlikely(lent->vcs_length != words * (p.v + paths)) || unlikely(lent->bits_length != CLURIMOON_BITS) ||
      unlikely(lent->arrived_length != p.n) || unlikely(r->kind > 1))
    goto odd;
  /* one comparison for the range and for the step round */
  if (unlikely(p.T >= p.n)) {
    if (p.T != p.n) goto odd;
    p.T = 0;
  }
  p.turn = vcs(&p) + words * p.rotation;
  if (unlikely(p.rotation >= p.v + paths)) {
    if (p.rotation != p.v + paths) goto odd;
    p.rotation = 0, p.turn = (u32 *)closed;
  }
  if (unlikely(p.rotation == p.v)) p.turn = (u32 *)closed;
  p.entry = calendar(&p) + 2 * p.T;
  if (pair_at(&r->out_head) != no_pair && (unlikely(r->out_head >= p.n) || unlikely(r->out_tail >= p.n))) goto odd;
  if (likely(serve(&p, cell, cell_length, (given){(u16 *)answer, NULL, false}))) return;
odd:
  odd_answer(r, lent, cell, cell_length, answer);
}

/* Slots by `careful` alone: where the record's own numbers are unfit, or for one odd slot. */
static __attribute__((noinline, cold)) burst_end odd_slots(clurimoon_record *r, const lent_memory *lent, const lent_burst *b,
                                                           size_t k, size_t end) {
  for (; k < end; ++k) {
    clurimoon_answer answer;
    const u16 number = odd_slot(r, lent, b->arrivals + 53 * k, b->sizes[k], &answer);
    if (number != 0) return (burst_end){k, number};
    memcpy(b->answers + 6 * k, &answer, sizeof answer);
    if (answer.space != none) copy_cell(b->departures + 53 * k, lent->cells + 53 * answer.space);
  }
  return (burst_end){k, 0};
}

/* Of a raw policer: in detection each slot is an odd one. */
inlined burst_end burst_of(clurimoon_record *restrict r, const lent_memory *lent, const lent_burst *b, bool raw) {
  policer p = {.n = r->n, .v = r->v, .record = NULL, .raw = raw, .mask = mask_of(r->kind), .kept_cells = lent->cells,
               .kept_links = lent->links, .kept_calendar = lent->calendar, .kept_vcs = lent->vcs, .kept_bits = lent->bits,
               .kept_arrived = lent->arrived};
  take(&p, r);
  const uint8_t *cell = b->arrivals, *size = b->sizes, *const end = size + b->sizes_length;
  given to = {b->answers, b->departures, true};
  while (size != end) {
    const uint8_t *const from = size, *const stop = size + begin_run(&p, (size_t)(end - size));
    if (!raw || likely(r->mode == CLURIMOON_CORRECTION))
      for (; size != stop; ++size, cell += 53, to.answer += 6, to.departure += 53, p.entry += 2, p.turn += words) {
        p.t += 1;
        if (likely(serve(&p, cell, *size, to))) continue;
        p.t -= 1;
        break;
      }
    end_run(&p, (index_t)(size - from));
    if (likely(size == stop)) continue;
    /* one slot by itself, from the record before it */
    give(&p, r);
    const size_t k = (size_t)(size - b->sizes);
    const burst_end ended = odd_slots(r, lent, b, k, k + 1);
    if (ended.number != 0) return ended;
    take(&p, r);
    ++size, cell += 53, to.answer += 6, to.departure += 53;
  }
  give(&p, r);
  return (burst_end){b->sizes_length, 0};
}

exported burst_end checking_burst(clurimoon_record *restrict r, const lent_memory *lent, const lent_burst *b) {
  const size_t slots = b->sizes_length;
  const u16 number = refusal_of(r->n, r->v, lent);
  if (unlikely(number != 0)) return (burst_end){0, number};
  if (unlikely(b->arrivals_length != 53 * slots || b->departures_length != 53 * slots || b->answers_length != 6 * slots))
    return (burst_end){0, 2};
  if (unlikely(r->T >= r->n || r->rotation >= r->v + paths || r->kind > 1 || r->raw > 1 || !spaces_fit(lent->bits, r->n, r->free) ||
               bad_pair(r->out_head, r->out_tail, r->n)))
    return odd_slots(r, lent, b, 0, slots);
  return r->raw == 0 ? burst_of(r, lent, b, false) : burst_of(r, lent, b, true);
}
