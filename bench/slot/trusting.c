/* The slot path of document 01 for memory that is sound: no test of what is stored, no refusal. */
#include "path.h"

/* Takes x, the lowest free space, and joins it to the head of the entry d slots from now. */
inlined void store(policer *p, index_t x, index_t d) {
  take_space(bits(p), x), set_free_number(p, free_number(p) - 1);
  u16 *e = p->entry + 2 * d;
  if (e >= calendar(p) + 2 * p->n) e -= 2 * p->n;
  const u16 head = e[0];
  e[0] = (u16)x;
  /* where the entry was not empty its bit is set already */
  if (head == none) e[1] = (u16)x, mark(bits(p), entry_at(calendar(p), e));
  else links(p)[x] = head;
}

/* Step 3; true where the cell leaves at once, since nothing waits for the line and D is 0. */
inlined bool arrive(policer *p, const uint8_t *cell, given to) {
  const index_t name = name_of(cell, p->mask), number = number_of(name, p->v);
  u32 *vc = vcs(p) + words * number;
  if (unlikely(number == 0) || unlikely(vc[w_open] == 0)) {
    put_pair(to.answer, (name == 0 ? CLURIMOON_NOTHING : CLURIMOON_UNKNOWN) << 16);
    to.answer[2] = (u16)name, to.answer[3] = 0;
    return false;
  }
  to.answer[2] = (u16)number;
  const u32 s = fallen(vc, p->t), f = vc[w_F], c_second = vc[w_C2];
  bool tagged = false, above = s > vc[w_C] - f;
  if (c_second != 0) {
    const u32 s_second = fallen_second(vc, p->t), f_second = vc[w_F2];
    vc[w_S2] = s_second;
    if (clp_0(cell) && !above) {
      if (s_second <= c_second - f_second) vc[w_S2] = s_second + f_second;
      else tagged = vc[w_tag] != 0, above = !tagged;
    }
  }
  vc[w_last] = p->t;
  if (unlikely(above)) {
    put_pair(to.answer, CLURIMOON_EXCESS << 16), to.answer[3] = 0;
    vc[w_S] = s;
    return false;
  }
  const index_t d = s >> vc[w_m], x = lowest_free(bits(p));
  put_pair(to.answer, (tagged ? CLURIMOON_TAGGED : CLURIMOON_ACCEPTED) << 16), to.answer[3] = (u16)d;
  vc[w_S] = s + f;
  copy_cell(cells(p) + 53 * x, cell), arrived(p)[x] = p->t;
  if (unlikely(tagged)) tag(cells(p) + 53 * x, cell);
  if (d == 0 && out_head(p) == none && pair_at(p->entry) == no_pair) {
    if (to.copied) {
      copy_cell(to.departure, cell);
      if (unlikely(tagged)) tag(to.departure, cell);
    }
    /* taken and freed: bits and number stay */
    to.answer[4] = (u16)x, to.answer[5] = (u16)number;
    return true;
  }
  vc[w_waiting] += 1;
  store(p, x, d);
  return false;
}

/* Steps 4 and 5. */
inlined void leave(policer *p, given to) {
  const u32 pair = pair_at(p->entry);
  index_t y = out_head(p), tail;
  if (pair != no_pair) {
    if (y == none) y = pair & 0xffff;
    else links(p)[out_tail(p)] = (u16)pair;
    tail = pair >> 16;
    put_pair(p->entry, no_pair), unmark(bits(p), entry_at(calendar(p), p->entry));
    set_out_tail(p, tail);
  } else {
    if (y == none) {
      put_pair(to.answer + 4, none);
      return;
    }
    tail = out_tail(p);
  }
  if (y == tail) set_out_head(p, none), set_out_tail(p, none);
  else set_out_head(p, links(p)[y]);
  const uint8_t *cell = cells(p) + 53 * y;
  const index_t sent = number_of(name_of(cell, p->mask), p->v);
  vcs(p)[words * sent + w_waiting] -= 1;
  if (to.copied) copy_cell(to.departure, cell);
  give_space(bits(p), y), set_free_number(p, free_number(p) + 1);
  to.answer[4] = (u16)y, to.answer[5] = (u16)sent;
}

/* Steps 2 to 5. */
inlined void serve(policer *p, const uint8_t *cell, size_t size, given to) {
  u32 *turn = p->turn;
  if (turn[w_open] != 0) {
    if (turn[w_S2] != 0) turn[w_S2] = fallen_second(turn, p->t);
    turn[w_S] = fallen(turn, p->t), turn[w_last] = p->t;
  }
  /* a raw line has idle cells where another has none */
  if (size == 0 || (is_raw(p) && name_of(cell, p->mask) == 0)) memset(to.answer, 0, 8);
  else if (arrive(p, cell, to)) return;
  leave(p, to);
}

/* A slot whose cell, if any, left the header check. */
inlined void one_slot(clurimoon_record *restrict r, const lent_memory *lent, const uint8_t *cell, size_t cell_length,
                      clurimoon_answer *answer) {
  policer p = {.n = r->n, .v = r->v, .lent = lent, .t = r->t + 1, .record = r, .mask = mask_of(r->kind)};
  index_t T = r->T + 1u, rotation = r->rotation + 1u;
  if (unlikely(T == p.n)) T = 0;
  p.turn = vcs(&p) + words * rotation;
  if (unlikely(rotation == p.v + paths)) rotation = 0;
  if (unlikely(rotation == 0 || rotation == p.v)) p.turn = (u32 *)closed;
  p.entry = calendar(&p) + 2 * T;
  r->t = p.t, r->T = (u16)T, r->rotation = (u16)rotation;
  serve(&p, cell, cell_length, (given){(u16 *)answer, NULL, false});
}

/* A slot whose cell may be mended or dropped, or leads back to correction. */
static __attribute__((noinline, cold)) void odd_slot(clurimoon_record *r, const lent_memory *lent, const uint8_t *cell,
                                                     clurimoon_answer *answer) {
  uint8_t held[53];
  cell = checked(&r->mode, cell, held);
  one_slot(r, lent, cell, cell == NULL ? 0 : 53, answer);
  if (cell == NULL) answer->verdict = CLURIMOON_DROPPED;
}

exported void trusting_slot(clurimoon_record *restrict r, const lent_memory *lent, const uint8_t *cell, size_t cell_length,
                            clurimoon_answer *answer) {
  if (cell_length != 0 && r->raw != 0 && unlikely(!passes(r, cell))) odd_slot(r, lent, cell, answer);
  else one_slot(r, lent, cell, cell_length, answer);
}

/* Of a raw policer: a wrong header and, in detection, each slot is served by itself. */
inlined burst_end burst_of(clurimoon_record *restrict r, const lent_memory *lent, const lent_burst *b, bool raw) {
  policer p = {.n = r->n, .v = r->v, .record = NULL, .raw = raw, .mask = mask_of(r->kind), .kept_cells = lent->cells,
               .kept_links = lent->links, .kept_calendar = lent->calendar, .kept_vcs = lent->vcs, .kept_bits = lent->bits,
               .kept_arrived = lent->arrived};
  take(&p, r);
  const uint8_t *cell = b->arrivals, *size = b->sizes, *const end = size + b->sizes_length;
  given to = {b->answers, b->departures, true};
  while (size != end) {
    const uint8_t *const from = size, *const stop = size + begin_run(&p, (size_t)(end - size));
    if (!raw || likely(r->mode == CLURIMOON_CORRECTION))
      for (; size != stop; ++size, cell += 53, to.answer += 6, to.departure += 53, p.entry += 2, p.turn += words) {
        if (raw && *size != 0 && unlikely(!passes(NULL, cell))) break;
        p.t += 1;
        serve(&p, cell, *size, to);
      }
    end_run(&p, (index_t)(size - from));
    if (!raw || likely(size == stop)) continue;
    give(&p, r);
    trusting_slot(r, lent, cell, *size, (clurimoon_answer *)to.answer);
    if (to.answer[4] != none) copy_cell(to.departure, lent->cells + 53 * to.answer[4]);
    take(&p, r);
    ++size, cell += 53, to.answer += 6, to.departure += 53;
  }
  give(&p, r);
  return (burst_end){b->sizes_length, 0};
}

exported burst_end trusting_burst(clurimoon_record *restrict r, const lent_memory *lent, const lent_burst *b) {
  return r->raw == 0 ? burst_of(r, lent, b, false) : burst_of(r, lent, b, true);
}
