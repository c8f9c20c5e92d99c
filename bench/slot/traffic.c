/*
 * Mixed rates over many VCs, the same for all forms, from one seed.
 *
 * Every VC but each 16th is open, with a contract of one of eight classes. Each is a source: spurts of 1 to 32 cells at
 * the contracted interval, each cell up to 3/4 of its tolerance late, then a pause, so that all sources together offer
 * LOAD cells a slot. One source in 13 sends 1.25 times as fast as agreed. The cells queue for the line in the order of
 * their times, one a slot; at load 1.0 a slot that would stay empty takes the next cell early. One cell in 100 is
 * replaced by an idle cell, one by a cell that names no open VC.
 *
 * Sustained: every second VC may send CLP 0 cells at half its peak rate, and some cells of a spurt more; what is above is
 * tagged, about one cell in ten of all.
 *
 * With a path: the line is an NNI; the cells of the same second VCs come on one path instead, with their VCIs, about half
 * of all. The path has three fifths of the line for its peak.
 *
 * The others are made of the plain traffic, slot by slot, when that is there. Raw: each cell gets its octet 5, each empty slot
 * an idle cell, and one header in 10,000 a wrong bit. Storm: of the cells three tenths are plain; the others are of one VC
 * more, whose peak is a tenth of the line. Unknown: each cell gets the header of an unknown one. Empty: nothing is left.
 */
#include "traffic.h"

#include <string.h>

#include "clurimoon.h"

/* m, the peak rate relative to the others, the tolerance in slots. */
static const struct {
  unsigned m, weight, tolerance;
} classes[8] = {{0, 1, 75}, {2, 2, 40}, {4, 4, 75}, {6, 1, 20}, {8, 8, 60}, {3, 2, 75}, {5, 1, 10}, {12, 3, 50}};

enum { closed_each = 16, greedy_each = 13, booked = 2, part = 1024, longest = 32, patience = 256, slower = 2, burst = 3,
       plain_in_ten = 3, wrong_each = 10000 };

static int is_open(unsigned vci) { return vci != 0 && vci % closed_each != closed_each - 1; }

static unsigned weights(unsigned v) {
  unsigned sum = 0;
  for (unsigned vci = 1; vci < v; ++vci)
    if (is_open(vci)) sum += classes[vci % 8].weight;
  return sum;
}

/* The contracted interval in 1/1024 slot: the peak rates of all VCs add up to `booked` times the line's. */
static uint64_t interval_of(unsigned vci, unsigned sum) {
  const uint64_t interval = (uint64_t)part * sum / (booked * classes[vci % 8].weight);
  return interval < part ? part : interval;
}

static int is_second(unsigned vci) { return vci / 8 % 2 == 1; }

contract contract_of_path(void) { return (contract){1, 4, 27, 27 + (75 << 4), 0, 0, 0, 0}; }

contract contract_of(unsigned vci, unsigned v, traffic kind) {
  if (kind == with_storm && vci == the_storm) return (contract){1, 4, 160, 160 + (75 << 4), 0, 0, 0, 0};
  contract k = {is_open(vci) && !(kind == with_path && is_second(vci)), (uint8_t)classes[vci % 8].m, 0, 0, 0, 0, 0, 0};
  if (!k.open) return k;
  k.f = (uint32_t)((interval_of(vci, weights(v)) << k.m) / part);
  k.c = k.f + (classes[vci % 8].tolerance << k.m);
  if (kind != sustained || !is_second(vci)) return k;
  k.m2 = (uint8_t)classes[(vci + 3) % 8].m, k.tag = 1;
  k.f2 = (uint32_t)((slower * interval_of(vci, weights(v)) << k.m2) / part);
  k.c2 = k.f2 * burst;
  return k;
}

static uint64_t state;
static uint32_t drawn(uint32_t bound) {
  state = state * 6364136223846793005u + 1442695040888963407u;
  return (uint32_t)((state >> 32) * bound >> 32);
}

/* A source's next cell: `base` without its lateness; `left` cells of the spurt are to come. */
typedef struct {
  uint64_t time, base;
  unsigned vci, left;
} source;
static source heap[1024];
static unsigned sources;

static void sink(unsigned at) {
  const source moved = heap[at];
  for (unsigned child; (child = 2 * at + 1) < sources; at = child) {
    if (child + 1 < sources && heap[child + 1].time < heap[child].time) ++child;
    if (heap[child].time >= moved.time) break;
    heap[at] = heap[child];
  }
  heap[at] = moved;
}

/* So many cells at the agreed interval are due in spurt * agreed * booked / load; the rest is pause. A line that is to be
   full is offered 1.1. */
static uint64_t pause_of(unsigned vci, unsigned sum, unsigned load, unsigned spurt) {
  const unsigned offered = load == 100 ? 110 : load;
  return spurt * interval_of(vci, sum) * (100 * booked - offered) / offered;
}
static void lateness(source *s) { s->time = s->base + drawn(classes[s->vci % 8].tolerance * part * 3 / 4); }

static void advance(source *s, unsigned load, unsigned sum) {
  if (s->vci % greedy_each != 0 || drawn(5) != 0) s->base += interval_of(s->vci, sum);
  if (s->left > 0) s->left -= 1;
  else {
    const unsigned spurt = 1 + drawn(longest);
    const uint64_t pause = pause_of(s->vci, sum, load, spurt);
    s->left = spurt - 1, s->base += pause / 2 + pause / 1024 * drawn(1024);
  }
  lateness(s);
}

/* In the midst of a spurt or of a pause. */
static void begin(source *s, unsigned load, unsigned sum) {
  const unsigned spurt = 1 + drawn(longest);
  const uint64_t each = interval_of(s->vci, sum), on = spurt * each, all = on + pause_of(s->vci, sum, load, spurt);
  const uint64_t to_come = all / 1024 * drawn(1024);
  s->left = to_come < on ? (unsigned)(to_come / each) : spurt - 1;
  s->base = to_come < on ? to_come % each : to_come - on;
  lateness(s);
}

static void put_header(uint8_t *cell, unsigned vpi, unsigned vci, traffic kind) {
  cell[0] = (uint8_t)((kind == with_path ? 0 : cell[0] & 0xf0) | vpi >> 4), cell[1] = (uint8_t)((vpi & 15) << 4 | vci >> 12);
  cell[2] = (uint8_t)(vci >> 4), cell[3] = (uint8_t)((vci & 15) << 4 | (cell[3] & 15));
}

/* A VPI that is neither 0 nor the path's. */
static unsigned other_vpi(traffic kind) {
  const unsigned vpi = 1 + drawn(kind == with_path ? 4095 : 255);
  return kind == with_path && vpi == the_path ? vpi + 1 : vpi;
}

static void make_unknown(uint8_t *cell, unsigned vci, unsigned v, traffic kind) {
  if (drawn(3) == 0) put_header(cell, other_vpi(kind), vci, kind);
  else if (drawn(2) == 0) put_header(cell, 0, v + drawn(65536 - v), kind);
  else put_header(cell, 0, drawn(v / closed_each) * closed_each + closed_each - 1, kind);
}

static void draw_octets(uint8_t *cell) {
  for (unsigned octet = 0; octet < 53; ++octet) cell[octet] = (uint8_t)drawn(256);
}

static void make_cell(uint8_t *cell, unsigned vci, unsigned v, traffic kind) {
  draw_octets(cell);
  const unsigned chance = drawn(100);
  if (chance == 0) put_header(cell, 0, 0, kind);
  else if (chance > 1) put_header(cell, kind == with_path && is_second(vci) ? the_path : 0, vci, kind);
  else make_unknown(cell, vci, v, kind);
}

static void make_raw(uint8_t *cell, uint8_t *size) {
  if (*size == 0) {
    memset(cell, 0x6a, 53);
    clurimoon_put_header(cell, 0, 0, 0, 1);
  }
  *size = 53;
  clurimoon_put_hec(cell);
  if (drawn(wrong_each) != 0) return;
  const unsigned bit = drawn(40);
  cell[bit / 8] ^= (uint8_t)(128 >> bit % 8);
}

/* The storm takes so much of what the others leave that all together are the load. */
static void make_storm(uint8_t *cell, uint8_t *size, unsigned load) {
  if (*size != 0 || drawn(1000 - plain_in_ten * load) >= (10 - plain_in_ten) * load) return;
  *size = 53;
  draw_octets(cell);
  put_header(cell, 0, the_storm, with_storm);
}

static void make_plain(unsigned v, unsigned load, traffic kind, size_t slots, uint8_t *sizes, uint8_t *arrivals) {
  const unsigned sum = weights(v);
  state = 1992, sources = 0;
  for (unsigned vci = 1; vci < v; ++vci) {
    if (!is_open(vci)) continue;
    source *s = heap + sources++;
    s->vci = vci;
    begin(s, load, sum);
  }
  for (unsigned at = sources / 2 + 1; at-- > 0;) sink(at);
  for (size_t k = 0; k < slots; ++k) {
    const uint64_t now = (uint64_t)k * part;
    /* what waited too long for the line never reaches it */
    while (heap[0].time + patience * part < now) advance(heap, load, sum), sink(0);
    sizes[k] = load == 100 || heap[0].time <= now ? 53 : 0;
    for (unsigned octet = 0; octet < 53; ++octet) arrivals[53 * k + octet] = 0;
    if (sizes[k] == 0) continue;
    make_cell(arrivals + 53 * k, heap[0].vci, v, kind);
    if (kind == sustained) arrivals[53 * k + 3] = (uint8_t)((arrivals[53 * k + 3] & 254) | (arrivals[53 * k + 52] < 26));
    advance(heap, load, sum), sink(0);
  }
}

void make_traffic(unsigned v, unsigned load, traffic kind, size_t slots, uint8_t *sizes, uint8_t *arrivals) {
  make_plain(v, kind == with_storm ? load * plain_in_ten / 10 : load, kind, slots, sizes, arrivals);
  for (size_t k = 0; k < slots; ++k) {
    uint8_t *cell = arrivals + 53 * k;
    if (kind == raw_line) make_raw(cell, sizes + k);
    if (kind == with_storm) make_storm(cell, sizes + k, load);
    if (kind == all_unknown && sizes[k] != 0) make_unknown(cell, 1 + drawn(v - 1), v, kind);
    if (kind == all_empty) sizes[k] = 0;
  }
}
