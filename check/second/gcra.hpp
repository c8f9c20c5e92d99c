// A second engine for one connection, written from source 003 ("How Policing Works")
// and document 02 (v) alone: the generic cell rate algorithm with its two parameters,
// the emission interval T and the tolerance tau. All times are counted in 1/32,768 of
// a slot, whatever m is, and in 128 bits, so that nothing is shifted, cast or bounded
// as in the library.
#pragma once
#include <cstdint>

namespace second {

__extension__ typedef __int128 Wide;

struct Kept {
  bool started = false;
  uint64_t tat = 0, arrival = 0;
};

struct Told {
  unsigned number = 0, verdict = 0;
  Wide early = 0, due = 0;
  Kept kept;
};

struct Contract {
  uint64_t n, m, f, c;
};

inline bool may_open(const Contract &k) {
  if (k.m > 15) return false;
  const Wide l = Wide(1) << k.m;
  return k.f >= l && k.f <= 16777216 && k.c >= k.f && Wide(k.c) - Wide(k.f) < Wide(k.n) * l;
}

inline Told gcra(const Kept &kept, const Contract &k, uint64_t arrival) {
  const Wide slot = 32768, run = Wide(1) << 32, far = Wide(1) << 48;
  Told told;
  told.kept = kept;
  if (k.n < 1 || k.n > 1024) told.number = 1;
  else if (!may_open(k)) told.number = 6;
  else if (kept.started && (kept.tat >= far || kept.arrival >= run)) told.number = 3;
  else if (arrival >= run || (kept.started && kept.arrival >= arrival)) told.number = 12;
  if (told.number != 0) return told;

  const Wide part = slot >> k.m; // 1/L slot
  const Wide interval = Wide(k.f) * part, tau = Wide(k.c) * part - interval;
  const Wide now = Wide(arrival) * slot;
  const Wide tat = kept.started ? Wide(kept.tat) * part : now;
  // "Cells arriving more than tau units of time before the TAT are considered to be nonconforming."
  const bool nonconforming = tat - now > tau;
  told.verdict = nonconforming ? 2 : 1;
  told.early = (tat - now) / part;
  told.kept.started = true, told.kept.arrival = arrival;
  if (nonconforming) {
    told.kept.tat = static_cast<uint64_t>(tat / part);
    return told;
  }
  // "For each conforming cell, the TAT is updated to give the expected arrival time of the next cell".
  const Wide from = now > tat ? now : tat;
  told.due = from / part;
  told.kept.tat = static_cast<uint64_t>((from + interval) / part);
  return told;
}

} // namespace second
