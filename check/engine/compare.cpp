// Compares clurimoon_time of the archive with a second engine (second/gcra.hpp), whole
// answers and states; and with the policer of the archive, cell by cell.
//
//   compare vectors FILE    the calls of a file: N m F C started TAT arrival, the
//                           cell's arrival -> number verdict earliness due, then
//                           started TAT arrival # what it shows
//   compare SEED CALLS      so many calls with arguments by chance
#include <algorithm>
#include <cinttypes>
#include <cstdio>
#include <cstdlib>
#include <cstring>
#include <vector>

#include "../random.hpp"
#include "../second/gcra.hpp"
#include "../second/hec.hpp"
#include "clurimoon.h"

namespace {

using second::Contract;
using second::Kept;
using second::Told;

const uint64_t run = uint64_t{1} << 32, far = uint64_t{1} << 48, most = UINT64_MAX;

// What was met, and must have been.
enum Met {
  DONE,
  RANGE,
  RULES,
  STORED,
  ORDER,
  RANGE_BEFORE_RULES,
  RANGE_BEFORE_STORED,
  RULES_BEFORE_STORED,
  RULES_BEFORE_ORDER,
  STORED_BEFORE_ORDER,
  TAT_TOO_HIGH,
  ARRIVAL_TOO_HIGH,
  TAT_HIGHEST,
  SAME_SLOT,
  EARLIER_SLOT,
  OUTSIDE,
  FIRST_OUTSIDE,
  LAST_SLOT,
  FIRST,
  FIRST_UNREAD,
  LATE,
  ON_TIME,
  EARLY,
  BY_THE_TOLERANCE,
  ONE_PART_MORE,
  NO_TOLERANCE,
  AFTER_NONCONFORMING,
  BESIDE_ACCEPTED,
  BESIDE_EXCESS,
  BESIDE_LONGEST,
  BESIDE_UNKNOWN,
  BESIDE_DROPPED,
  BESIDE_MENDED,
  BESIDE_NOTHING,
  BESIDE_PATH_ACCEPTED,
  BESIDE_PATH_EXCESS,
  METS
};
const char *const names[METS] = {"0",
                                 "1",
                                 "6",
                                 "3",
                                 "12",
                                 "1 where 6 holds too",
                                 "1 where 3 holds too",
                                 "6 where 3 holds too",
                                 "6 where 12 holds too",
                                 "3 where 12 holds too",
                                 "stored TAT of 2^48 or more",
                                 "stored arrival of 2^32 or more",
                                 "stored TAT of 2^48-1",
                                 "the same slot again",
                                 "an earlier slot",
                                 "outside the run",
                                 "a first cell outside the run",
                                 "the last slot",
                                 "a first cell",
                                 "a first cell with stored numbers that would be 3",
                                 "late",
                                 "on time",
                                 "early",
                                 "early by the tolerance",
                                 "by one part more",
                                 "early with no tolerance",
                                 "a cell after a nonconforming one",
                                 "policer: accepted",
                                 "excess",
                                 "D of N-1",
                                 "unknown",
                                 "dropped",
                                 "mended",
                                 "no cell",
                                 "accepted of a path",
                                 "excess of a path"};
uint64_t met[METS], of_m[16], calls, cells_beside;

Told archive(const Kept &kept, const Contract &k, uint64_t arrival) {
  const clurimoon_tat state = {kept.tat, kept.arrival, kept.started};
  const clurimoon_timed t = clurimoon_time(state, static_cast<uint16_t>(k.n), static_cast<uint8_t>(k.m),
                                           static_cast<uint32_t>(k.f), static_cast<uint32_t>(k.c), arrival);
  Told told;
  told.number = t.number, told.verdict = t.verdict, told.early = t.early, told.due = t.due;
  told.kept.started = t.tat.started, told.kept.tat = t.tat.tat, told.kept.arrival = t.tat.arrival;
  ++calls;
  return told;
}

bool same(const Told &a, const Told &b) {
  return a.number == b.number && a.verdict == b.verdict && a.early == b.early && a.due == b.due &&
         a.kept.started == b.kept.started && a.kept.tat == b.kept.tat && a.kept.arrival == b.kept.arrival;
}

void show(const char *who, const Told &t) {
  std::printf("  %s: %u %u %" PRId64 " %" PRIu64 " %d %" PRIu64 " %" PRIu64 "\n", who, t.number, t.verdict,
              static_cast<int64_t>(t.early), static_cast<uint64_t>(t.due), t.kept.started, t.kept.tat, t.kept.arrival);
}

[[noreturn]] void differ(const Kept &kept, const Contract &k, uint64_t arrival, const Told &got, const Told &want) {
  std::printf("engine: DIFFERS at %" PRIu64 " %" PRIu64 " %" PRIu64 " %" PRIu64 " %d %" PRIu64 " %" PRIu64 " %" PRIu64
              "\n",
              k.n, k.m, k.f, k.c, kept.started, kept.tat, kept.arrival, arrival);
  show("archive", got), show("second", want);
  std::exit(1);
}

void meet(Met what, bool holds) { met[what] += holds; }

void meet_refusal(const Kept &kept, const Contract &k, uint64_t arrival, unsigned number) {
  const bool rules = !second::may_open(k), stored = kept.started && (kept.tat >= far || kept.arrival >= run);
  const bool after = !kept.started || kept.arrival < arrival, order = !after || arrival >= run;
  meet(RANGE, number == 1), meet(RULES, number == 6), meet(STORED, number == 3), meet(ORDER, number == 12);
  meet(RANGE_BEFORE_RULES, number == 1 && rules), meet(RANGE_BEFORE_STORED, number == 1 && !rules && stored);
  meet(RULES_BEFORE_STORED, number == 6 && stored), meet(RULES_BEFORE_ORDER, number == 6 && !stored && order);
  meet(STORED_BEFORE_ORDER, number == 3 && order);
  meet(TAT_TOO_HIGH, number == 3 && kept.arrival < run), meet(ARRIVAL_TOO_HIGH, number == 3 && kept.tat < far);
  meet(SAME_SLOT, number == 12 && kept.started && kept.arrival == arrival);
  meet(EARLIER_SLOT, number == 12 && kept.started && kept.arrival > arrival);
  meet(OUTSIDE, number == 12 && after && kept.started), meet(FIRST_OUTSIDE, number == 12 && !kept.started);
}

void meet_answer(const Kept &kept, const Contract &k, uint64_t arrival, const Told &t) {
  const second::Wide tau = second::Wide(k.c) - second::Wide(k.f);
  meet(DONE, true), of_m[k.m] += 1;
  meet(TAT_HIGHEST, kept.started && kept.tat == far - 1), meet(LAST_SLOT, arrival == run - 1);
  meet(FIRST, !kept.started), meet(FIRST_UNREAD, !kept.started && kept.tat >= far && kept.arrival >= run);
  if (!kept.started) return;
  meet(LATE, t.early < 0), meet(ON_TIME, t.early == 0), meet(EARLY, t.early > 0);
  meet(BY_THE_TOLERANCE, t.early == tau && tau > 0 && t.verdict == 1),
      meet(ONE_PART_MORE, t.early == tau + 1 && t.verdict == 2);
  meet(NO_TOLERANCE, tau == 0 && t.early > 0 && t.verdict == 2);
}

Told both(const Kept &kept, const Contract &k, uint64_t arrival) {
  const Told want = second::gcra(kept, k, arrival), got = archive(kept, k, arrival);
  if (!same(got, want)) differ(kept, k, arrival, got, want);
  if (got.number != 0) meet_refusal(kept, k, arrival, got.number);
  else meet_answer(kept, k, arrival, got);
  return got;
}

// A contract that opens, its numbers often at an edge.
Contract sound(Random &random) {
  Contract k;
  k.n = random.percent(40) ? random.pick<uint64_t>({1, 2, 5, 12, 76, 1023, 1024}) : random.between(1, 1024);
  k.m = random.below(16);
  const uint64_t l = uint64_t{1} << k.m;
  k.f = random.percent(20)   ? l
        : random.percent(10) ? 16777216
        : random.percent(50) ? std::min<uint64_t>(16777216, l + random.below(4 * l))
                             : random.between(l, 16777216);
  const uint64_t widest = k.n * l - 1;
  k.c = k.f + (random.percent(15)   ? 0
               : random.percent(15) ? widest
               : random.percent(50) ? random.below(std::min(widest, 8 * l) + 1)
                                    : random.below(widest + 1));
  return k;
}

// One that does not, mostly in one number alone and by one.
Contract unsound(Random &random) {
  Contract k = sound(random);
  const uint64_t l = uint64_t{1} << k.m;
  switch (random.below(7)) {
  case 0: k.n = random.pick<uint64_t>({0, 1025, 65535}); break;
  case 1: k.m = random.pick<uint64_t>({16, 17, 32, 63, 64, 128, 255}); break;
  case 2: k.f = l - 1, k.c = std::max(k.c, k.f); break;
  case 3: k.f = 16777217, k.c = k.f + random.below(2); break;
  case 4: k.c = k.f - 1; break;
  case 5: k.c = k.f + k.n * l; break;
  default:
    k.n = random.pick<uint64_t>({0, 1025}), k.m = random.below(256), k.f = random.below(run), k.c = random.below(run);
    break;
  }
  return k;
}

// Calls that have nothing to do with one another: any state, sound or not.
void scattered(Random &random) {
  const Contract k = random.percent(25) ? unsound(random) : sound(random);
  const uint64_t m = std::min<uint64_t>(k.m, 15), tau = k.c < k.f ? 0 : k.c - k.f;
  const uint64_t arrival = random.percent(10)   ? random.pick<uint64_t>({run, run + 1, far, most})
                           : random.percent(15) ? random.pick<uint64_t>({0, 1, run - 2, run - 1})
                           : random.percent(30) ? random.below(2000)
                                                : random.below(run);
  const uint64_t now = (arrival << m) % far;
  Kept kept;
  kept.started = random.percent(85);
  switch (random.below(6)) {
  case 0: kept.tat = now + tau + random.below(3) - (now + tau > 0 ? 1 : 0); break;
  case 1: kept.tat = now + random.below(3) - (now > 0 ? 1 : 0); break;
  case 2: kept.tat = now + random.below(2 * tau + 2); break;
  case 3: kept.tat = random.below(now + 1); break;
  case 4: kept.tat = random.below(far); break;
  default: kept.tat = random.pick<uint64_t>({far - 1, far, far + 1, most, 0}); break;
  }
  kept.arrival = random.percent(8)    ? random.pick<uint64_t>({run, run + 1, most})
                 : random.percent(10) ? arrival + random.below(3)
                 : arrival > 0        ? random.percent(30) ? arrival - 1 : random.below(arrival)
                                      : random.below(3);
  both(kept, k, arrival);
}

// Cell after cell of one connection from not started on: never 3.
void connection(Random &random) {
  const Contract k = sound(random);
  const uint64_t gap = 2 * (k.f >> k.m) + 2;
  Kept kept;
  if (random.percent(50))
    kept.tat = random.pick<uint64_t>({far, most, 7}), kept.arrival = random.pick<uint64_t>({run, most, 9});
  uint64_t arrival = random.percent(60)   ? random.below(9)
                     : random.percent(50) ? run - 1 - random.below(500)
                                          : random.below(run);
  bool failed = false;
  for (uint64_t left = random.between(2, 120); left > 0; --left) {
    const Told t = both(kept, k, arrival);
    if (t.number != 0 && t.number != 12) std::printf("engine: %u in a run from not started\n", t.number), std::exit(1);
    meet(AFTER_NONCONFORMING, failed && t.number == 0), failed = t.verdict == 2 || (failed && t.number != 0);
    kept = t.kept;
    if (!random.once_in(20))
      arrival += random.once_in(50) ? random.below(run) : random.percent(50) ? 1 : random.between(1, gap);
    else if (random.percent(50) && arrival > 0) arrival -= 1;
  }
}

// The one connection that is open: VC v, or the path on VPI v.
struct One {
  bool path;
  unsigned v;
};

// What arrives in a slot beside the policer: the octets lent, and whether they are a cell of that connection as sent.
struct Arrived {
  std::vector<uint8_t> octets;
  bool of_it;
};

Arrived arrives(Random &random, const One &one, unsigned vcs, bool raw) {
  if (random.percent(25)) return {{}, false};
  const bool of_it = random.percent(80);
  const unsigned other = random.percent(30) ? 0 : static_cast<unsigned>(random.below(2 * vcs));
  unsigned vpi = one.path && of_it ? one.v : 0;
  const unsigned vci = of_it && !one.path ? one.v : other;
  if (!of_it && random.once_in(4)) vpi = static_cast<unsigned>(random.below(256));
  std::vector<uint8_t> cell(53, static_cast<uint8_t>(random.next()));
  second::Header h{static_cast<uint8_t>(vpi >> 4), static_cast<uint8_t>((vpi & 15) << 4 | vci >> 12),
                   static_cast<uint8_t>(vci >> 4), static_cast<uint8_t>(vci << 4 & 0xf0), 0};
  h[4] = second::octet5(h);
  if (raw)
    for (uint64_t wrong = random.percent(70) ? 0 : random.between(1, 3); wrong > 0; --wrong)
      h = second::with_bit_changed(h, static_cast<unsigned>(random.below(40)));
  std::copy(h.begin(), h.end(), cell.begin());
  return {cell, one.path ? vpi == one.v : vpi == 0 && vci == one.v};
}

// One VC or path, opened before the first slot and never closed: the archive's slot and its engine say the same of each
// cell.
void beside(Random &random) {
  Contract k = sound(random);
  while (k.f >> k.m > 40) k = sound(random);
  k.n = std::min<uint64_t>(k.n, 80), k.c = std::min(k.c, k.f + k.n * (uint64_t{1} << k.m) - 1);
  const uint16_t n = static_cast<uint16_t>(k.n), vcs = static_cast<uint16_t>(random.between(2, 9)),
                 kind = random.once_in(2) ? CLURIMOON_UNI : CLURIMOON_NNI;
  const bool raw = random.percent(50), path = random.once_in(3);
  const One one = {path, static_cast<unsigned>(random.between(1, path ? 255 : vcs - 1u))};
  const unsigned shown = path ? vcs + one.v : one.v;
  std::vector<uint8_t> cells(CLURIMOON_CELLS(n));
  std::vector<uint16_t> links(CLURIMOON_LINKS(n)), calendar(CLURIMOON_CALENDAR(n));
  std::vector<uint32_t> words(CLURIMOON_VCS(vcs));
  std::vector<uint64_t> bits(CLURIMOON_BITS);
  std::vector<uint32_t> arrived(CLURIMOON_ARRIVED(n));
  const clurimoon_set set = clurimoon_setup(n, vcs, raw, kind, 1, 1, cells.data(), cells.size(), links.data(), links.size(),
                                            calendar.data(), calendar.size(), words.data(), words.size(), bits.data(), bits.size(),
                                            arrived.data(), arrived.size());
  clurimoon_record record = set.record;
  const uint16_t name = static_cast<uint16_t>(one.v);
  const uint8_t m = static_cast<uint8_t>(k.m);
  const uint32_t f = static_cast<uint32_t>(k.f), c = static_cast<uint32_t>(k.c);
  if (set.number != 0 || (path ? clurimoon_open_path(record, words.data(), words.size(), 1, name, m, f, c, 0, 0, 0, 0)
                               : clurimoon_open(record, words.data(), words.size(), 1, name, m, f, c)) != 0)
    std::printf("engine: no policer\n"), std::exit(1);
  Kept kept;
  for (uint64_t slot = 0, slots = random.between(20, 300); slot < slots; ++slot) {
    const Arrived a = arrives(random, one, vcs, raw);
    const clurimoon_served s =
        clurimoon_slot(record, cells.data(), cells.size(), links.data(), links.size(), calendar.data(), calendar.size(),
                       words.data(), words.size(), bits.data(), bits.size(), arrived.data(), arrived.size(), a.octets.data(),
                       a.octets.size());
    const uint16_t verdict = s.answer.verdict;
    record = s.record;
    meet(BESIDE_UNKNOWN, verdict == 3), meet(BESIDE_DROPPED, verdict == 4), meet(BESIDE_NOTHING, a.octets.empty());
    const bool judged = verdict == CLURIMOON_ACCEPTED || verdict == CLURIMOON_EXCESS;
    if (s.answer.number != 0 || (judged && s.answer.vci != shown) || (!raw && judged != a.of_it))
      std::printf("engine: the policer is astray\n"), std::exit(1);
    if (!judged) continue;
    const Told t = both(kept, k, slot);
    const uint64_t d = t.verdict == 1 ? (static_cast<uint64_t>(t.due) >> k.m) - slot : 0;
    const uint64_t by_earliness = t.verdict == 1 && t.early > 0 ? static_cast<uint64_t>(t.early) >> k.m : 0;
    if (t.number != 0 || t.verdict != verdict || d != s.answer.d || by_earliness != d) {
      std::printf("engine: OTHERWISE than the policer in slot %" PRIu64 ": verdict %u, D %u\n", slot, verdict,
                  s.answer.d);
      differ(kept, k, slot, t, t);
    }
    ++cells_beside, kept = t.kept;
    meet(BESIDE_ACCEPTED, verdict == 1), meet(BESIDE_EXCESS, verdict == 2),
        meet(BESIDE_LONGEST, k.n > 1 && d == k.n - 1);
    meet(BESIDE_MENDED, raw && record.mode == CLURIMOON_DETECTION);
    meet(BESIDE_PATH_ACCEPTED, path && verdict == 1), meet(BESIDE_PATH_EXCESS, path && verdict == 2);
  }
}

int vectors(const char *path) {
  std::FILE *file = std::fopen(path, "r");
  if (!file) return std::perror(path), 2;
  char line[512];
  unsigned long good = 0;
  while (std::fgets(line, sizeof line, file)) {
    if (line[0] == '#') continue;
    Contract k;
    Kept kept;
    Told want;
    uint64_t arrival, due;
    int64_t early;
    int started, then;
    if (std::sscanf(line,
                    "%" SCNu64 "%" SCNu64 "%" SCNu64 "%" SCNu64 "%d%" SCNu64 "%" SCNu64 "%" SCNu64 " -> %u%u%" SCNd64
                    "%" SCNu64 "%d%" SCNu64 "%" SCNu64 " # ",
                    &k.n, &k.m, &k.f, &k.c, &started, &kept.tat, &kept.arrival, &arrival, &want.number, &want.verdict,
                    &early, &due, &then, &want.kept.tat, &want.kept.arrival) != 15)
      return std::printf("engine: unreadable: %s", line), 1;
    kept.started = started != 0, want.kept.started = then != 0, want.early = early, want.due = due;
    if (!same(second::gcra(kept, k, arrival), want))
      return std::printf("engine: the second engine differs from %s", line), 1;
    if (!same(archive(kept, k, arrival), want)) return std::printf("engine: the archive differs from %s", line), 1;
    ++good;
  }
  std::fclose(file);
  std::printf("engine: %lu vectors, by the archive and by the second engine\n", good);
  return good > 0 ? 0 : 1;
}

} // namespace

int main(int argc, char **argv) {
  if (argc != 3) return std::fprintf(stderr, "compare vectors FILE, or compare SEED CALLS\n"), 2;
  if (std::strcmp(argv[1], "vectors") == 0) return vectors(argv[2]);
  Random random(std::strtoull(argv[1], nullptr, 10));
  const uint64_t wanted = std::strtoull(argv[2], nullptr, 10), enough = wanted / 20000;
  while (calls < wanted) {
    for (int k = 0; k < 200; ++k) scattered(random);
    connection(random), beside(random);
  }
  bool complete = true;
  for (int k = 0; k < METS; ++k) {
    std::printf("%s%s %" PRIu64, k % 6 == 0 ? (k == 0 ? "  " : "\n  ") : "; ", names[k], met[k]);
    if (met[k] < enough) std::printf(" (TOO FEW)"), complete = false;
  }
  const uint64_t least = *std::min_element(of_m, of_m + 16);
  std::printf("; of the sixteen m the least often %" PRIu64 "\n", least);
  complete = complete && least >= enough;
  if (!complete) return std::printf("engine: something was met less than %" PRIu64 " times\n", enough), 1;
  std::printf("engine: %" PRIu64 " calls equal to the second engine's, %" PRIu64
              " of them beside the policer's slots, %d cases met at least %" PRIu64 " times\n",
              calls, cells_beside, METS + 16, enough);
}
