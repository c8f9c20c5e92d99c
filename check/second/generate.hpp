// Seeded traces of every kind that document 01 and the landed requests tell apart.
#pragma once
#include <string>
#include <vector>

#include "../random.hpp"

namespace second {

using Octets = std::vector<uint8_t>;

struct Trace {
  std::string kind;
  std::vector<Octets> records; // the last may be no record at all
  Octets octets() const {
    Octets all;
    for (const Octets &record : records) all.insert(all.end(), record.begin(), record.end());
    return all;
  }
};

Octets gm(unsigned n, unsigned v);
Octets gr(unsigned n, unsigned v);
Octets gn(unsigned n, unsigned v);
Octets vo(unsigned vci, unsigned m, uint32_t f, uint32_t c);
struct SecondBucket {
  unsigned m = 0;
  uint32_t f = 0, c = 0;
  unsigned flag = 0;
};
Octets vs(unsigned vci, unsigned m, uint32_t f, uint32_t c, const SecondBucket &);
Octets vx(unsigned vci);
Octets po(unsigned vpi, unsigned m, uint32_t f, uint32_t c);
Octets px(unsigned vpi);
// With a VPI of eight bits and any GFC, or at the NNI with a VPI of twelve.
Octets ca(Random &, unsigned vpi, unsigned vci, bool nni = false);
Octets sl(unsigned count);

// Trace number `index` of a run with this seed.
Trace generate(uint64_t seed, uint64_t index);

} // namespace second
