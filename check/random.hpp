// A small seeded generator (SplitMix64): the same numbers on every machine.
#pragma once
#include <cstddef>
#include <cstdint>
#include <initializer_list>
#include <vector>

class Random {
public:
  explicit Random(uint64_t seed) : state(seed) {}

  uint64_t next() {
    uint64_t z = (state += 0x9e3779b97f4a7c15u);
    z = (z ^ z >> 30) * 0xbf58476d1ce4e5b9u;
    z = (z ^ z >> 27) * 0x94d049bb133111ebu;
    return z ^ z >> 31;
  }
  // A number below `bound`, which is not 0.
  uint64_t below(uint64_t bound) { return next() % bound; }
  uint64_t between(uint64_t low, uint64_t high) { return low + below(high - low + 1); }
  // Yes once in `times` on average.
  bool once_in(uint64_t times) { return below(times) == 0; }
  bool percent(unsigned share) { return below(100) < share; }

  template <class T> T pick(std::initializer_list<T> from) { return from.begin()[below(from.size())]; }
  template <class T> const T &pick(const std::vector<T> &from) {
    return from[static_cast<size_t>(below(from.size()))];
  }

private:
  uint64_t state;
};
