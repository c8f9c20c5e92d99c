// The delay summary beside the comparison of memories: tallies by chance, and a recount of delays from the answers alone.
#pragma once
#include <algorithm>
#include <deque>
#include <map>

#include "../random.hpp"
#include "twin.hpp"

namespace memories {

constexpr uint64_t most_cells = uint64_t{1} << 32;

inline void same_tally(const clurimoon_tally &expected, const clurimoon_tally &got) {
  same<uint64_t>("cells of the tally", expected.cells, got.cells);
  for (size_t k = 0; k < CLURIMOON_BINS; ++k)
    if (expected.bins[k] != got.bins[k]) same<uint64_t>(("bin " + std::to_string(k)).c_str(), expected.bins[k], got.bins[k]);
}

// A tally of so many cells, in some of its bins, often those at the ends.
inline clurimoon_tally tally_of(uint64_t cells, Random &random) {
  clurimoon_tally tally{};
  uint64_t left = tally.cells = cells;
  for (uint64_t k = random.below(9); k > 0; --k) {
    const uint64_t some = random.once_in(3) ? left / 2 : random.below(left + 1);
    tally.bins[random.pick<size_t>({0, 1, 62, 63, random.below(64), random.below(64), random.below(64)})] += some;
    left -= some;
  }
  tally.bins[random.below(64)] += left;
  return tally;
}

// One that adds up, or one that doesn't, as near as can be.
inline clurimoon_tally any_tally(Random &random) {
  const uint64_t few = random.below(random.pick<uint64_t>({2, 10, 3000, most_cells}));
  clurimoon_tally tally = tally_of(random.pick<uint64_t>({0, few, few, few, most_cells - 1, most_cells}), random);
  uint64_t &bin = tally.bins[random.below(64)], &other = tally.bins[random.below(64)];
  const uint64_t any = random.next();
  switch (random.below(36)) {
  case 0: tally.cells += 1; break;
  case 1: tally.cells -= 1; break; // of no cells: 2^64 - 1
  case 2: bin += 1; break;
  case 3: bin -= 1; break;
  case 4: tally = tally_of(most_cells + 1, random); break;
  case 5: tally = tally_of(random.pick<uint64_t>({most_cells + 2, 2 * most_cells, uint64_t{1} << 63, any}), random); break;
  case 6: bin += most_cells * random.pick<uint64_t>({1, 1, 2, 255, uint64_t{1} << 31}); break; // its lower half is as it was
  case 7: bin += any, other -= any; break; // wrapping at 2^64 it adds up, but where both are one bin
  case 8: bin += uint64_t{1} << 63, other += uint64_t{1} << 63; break;
  case 9: tally.cells = any; break;
  case 10: bin = any; break;
  case 11: std::fill_n(tally.bins, CLURIMOON_BINS, uint64_t{1} << 58), tally.cells = 0; break; // 64 of them are 2^64
  case 12: std::fill_n(tally.bins, CLURIMOON_BINS, uint64_t{1} << 26), tally.cells = most_cells; break;
  default: break;
  }
  return tally;
}

// A share at an edge, or one that a running sum of the tally reaches exactly, just misses or just passes.
inline uint16_t any_share(const clurimoon_tally &tally, Random &random) {
  uint64_t sum = 0;
  for (uint64_t k = random.below(64); k < CLURIMOON_BINS; ++k) sum += tally.bins[k];
  const uint64_t reached = tally.cells == 0 || tally.cells > most_cells ? 0 : 1000 * (tally.cells - std::min(sum, tally.cells)) / tally.cells;
  return static_cast<uint16_t>(random.pick<uint64_t>({0, 1, 2, 500, 999, 1000, 1000, 1001, 65535, random.between(1, 1000), reached, reached, reached + 1}));
}

// The listing alone: the k-th cell of a connection that is accepted or tagged is the k-th of it to leave.
class Recount {
public:
  uint16_t followed = 0;        // the connection whose delays are tallied
  clurimoon_tally counted{};    // how they were counted here
  clurimoon_tally tallied{};    // what the calls have made of them
  uint64_t left = 0;            // of its cells since the start of the count

  void slot(uint32_t t, uint16_t verdict, uint16_t vci, uint16_t out_vci) {
    if (verdict == CLURIMOON_ACCEPTED || verdict == CLURIMOON_TAGGED) waiting[vci].push_back(t);
    if (out_vci == 0) return;
    std::deque<uint32_t> &line = waiting[out_vci];
    if (line.empty()) fail("a cell leaves that did not come");
    const uint32_t delay = t - line.front();
    line.pop_front();
    if (out_vci != followed) return;
    counted.bins[std::min<uint32_t>(delay, CLURIMOON_BINS - 1)] += 1, counted.cells += 1, left += 1;
  }
  // From now on, with cells that wait already.
  void begin(uint16_t connection) { followed = connection, counted = tallied = clurimoon_tally{}, left = 0; }
  void compare() const { same_tally(counted, tallied); }

private:
  std::map<uint16_t, std::deque<uint32_t>> waiting; // arrival slots, by connection
};

} // namespace memories
