// Source 000, Figure 4: the delay in the Output List under n identical Bernoulli
// sources at load 0.8, against the queue nD/D/1.
//
//   figure4 SEED SLOTS [SVG]
//
// Each slot brings a cell with probability 0.8, of a VC drawn with equal chances.
// A VC is policed at 1.02 times its source's rate: N 1,024, m 15, F = L n / 0.816,
// C the greatest that rule 6 allows. A cell's delay in the Output List is the slot
// in which it leaves less its due slot, arrival + D. The first tenth is not counted.
#include <cstdint>
#include <cstdlib>
#include <cstring>

#include "../random.hpp"
#include "chart.hpp"
#include "clurimoon.h"

namespace {

// How often each delay was met, and what follows from it.
class Delays {
public:
  void count(uint64_t delay) {
    if (delay >= times.size()) times.resize(delay + 1);
    times[delay] += 1, total += 1;
  }
  double mean() const { return moment(1); }
  double deviation() const { return std::sqrt(moment(2) - mean() * mean()); }
  // The least delay that at most one cell in 10^5 exceeds.
  uint64_t quantile() const {
    uint64_t above = total, delay = 0;
    for (; delay < times.size(); ++delay)
      if ((above -= times[delay]) * 100000 <= total) break;
    return delay;
  }
  uint64_t cells() const { return total; }

private:
  std::vector<uint64_t> times;
  uint64_t total = 0;
  double moment(int power) const {
    double sum = 0;
    for (size_t delay = 0; delay < times.size(); ++delay)
      sum += std::pow(static_cast<double>(delay), power) * static_cast<double>(times[delay]);
    return sum / static_cast<double>(total);
  }
};

struct Policed {
  Delays delays;
  uint64_t arrived = 0, excess = 0;
};

constexpr uint16_t N = 1024, V = 128;
constexpr size_t block = 250;

[[noreturn]] void fail(const char *what) {
  std::fprintf(stderr, "figure4: FAILED, %s\n", what);
  std::exit(1);
}

// A policer of n sources, driven burst by burst; cells carry their slot's number.
class Run {
public:
  Run(unsigned sources, uint64_t seed) : n(sources), random(seed + sources) {
    const clurimoon_set set = clurimoon_setup(N, V, false, CLURIMOON_UNI, 1, 1, cells.data(), cells.size(),
                                              links.data(), links.size(), calendar.data(), calendar.size(),
                                              vcs.data(), vcs.size(), bits.data(), bits.size(), arrived.data(), arrived.size());
    if (set.number != 0) fail("setup was refused");
    record = set.record;
    const uint64_t leak = 1u << 15, f = (leak * n * 1000 + 408) / 816;
    for (unsigned vci = 1; vci <= n; ++vci)
      if (clurimoon_open(record, vcs.data(), vcs.size(), 1, static_cast<uint16_t>(vci), 15,
                         static_cast<uint32_t>(f), static_cast<uint32_t>(f + N * leak - 1)) != 0)
        fail("an open was refused");
  }
  Policed go(uint64_t slots) {
    for (uint64_t from = 0; from < slots; from += block) serve(from, slots / 10);
    return policed;
  }

private:
  const unsigned n;
  Random random;
  Policed policed;
  clurimoon_record record{};
  std::vector<uint8_t> cells = std::vector<uint8_t>(CLURIMOON_CELLS(N)),
                       arrivals = std::vector<uint8_t>(53 * block), sizes = std::vector<uint8_t>(block),
                       departures = std::vector<uint8_t>(53 * block);
  std::vector<uint16_t> links = std::vector<uint16_t>(N), calendar = std::vector<uint16_t>(2 * N),
                        answers = std::vector<uint16_t>(6 * block);
  std::vector<uint32_t> vcs = std::vector<uint32_t>(CLURIMOON_VCS(V));
  std::vector<uint64_t> bits = std::vector<uint64_t>(CLURIMOON_BITS);
  std::vector<uint32_t> arrived = std::vector<uint32_t>(CLURIMOON_ARRIVED(N));
  std::vector<uint64_t> due = std::vector<uint64_t>(4096); // by arrival slot; none waits so long

  void arrive(uint64_t slot, size_t k) {
    // Five equal chances a source: four bring one of its cells, one brings none.
    const uint64_t drawn = random.below(5 * n);
    sizes[k] = drawn < 4 * n ? 53 : 0;
    const unsigned vci = 1 + static_cast<unsigned>(drawn % n);
    uint8_t *cell = &arrivals[53 * k];
    cell[2] = static_cast<uint8_t>(vci >> 4), cell[3] = static_cast<uint8_t>((vci & 15) << 4);
    std::memcpy(cell + 5, &slot, sizeof slot);
  }
  void serve(uint64_t from, uint64_t counted_from) {
    for (size_t k = 0; k < block; ++k) arrive(from + k, k);
    const clurimoon_burst_end end = clurimoon_burst(
        record, cells.data(), cells.size(), links.data(), links.size(), calendar.data(), calendar.size(),
        vcs.data(), vcs.size(), bits.data(), bits.size(), arrived.data(), arrived.size(), arrivals.data(), arrivals.size(), sizes.data(), sizes.size(),
        departures.data(), departures.size(), answers.data(), answers.size());
    if (end.number != 0 || end.done != block) fail("a burst was refused");
    record = end.record;
    for (size_t k = 0; k < block; ++k) {
      const uint16_t *answer = &answers[6 * k];
      if (answer[CLURIMOON_ANSWER_VERDICT] == CLURIMOON_ACCEPTED)
        due[(from + k) % due.size()] = from + k + answer[CLURIMOON_ANSWER_D];
      if (from < counted_from) continue;
      policed.arrived += sizes[k] != 0;
      policed.excess += answer[CLURIMOON_ANSWER_VERDICT] == CLURIMOON_EXCESS;
      if (answer[CLURIMOON_ANSWER_SPACE] != CLURIMOON_NONE) leave(from + k, &departures[53 * k]);
    }
  }
  void leave(uint64_t slot, const uint8_t *cell) {
    uint64_t arrival;
    std::memcpy(&arrival, cell + 5, sizeof arrival);
    const uint64_t due_slot = due[arrival % due.size()];
    if (due_slot < arrival || slot < due_slot || slot - due_slot > N - 1)
      fail("a cell left before its due slot or more than N-1 after it");
    policed.delays.count(slot - due_slot);
  }
};

// The queue nD/D/1 in continuous time, exactly: n sources of one cell in `period`
// slots each, with phases at random. An arriving cell meets the other n-1, and
// P(W > x) is the sum over k > x of C(n-1, k) q^k (1-q)^(n-1-k) times
// (period-(n-1)+x) / (period-k+x), with q = (k-x)/period (the ballot theorem).
class Periodic {
public:
  Periodic(unsigned sources, double period) : others(sources - 1), period(period) {}

  double above(double x) const {
    double sum = 0;
    for (unsigned k = static_cast<unsigned>(x) + 1; k <= others; ++k) {
      const double q = (k - x) / period;
      const double log_term = std::lgamma(others + 1.0) - std::lgamma(k + 1.0) -
                              std::lgamma(others - k + 1.0) + k * std::log(q) + (others - k) * std::log1p(-q);
      sum += std::exp(log_term) * (period - others + x) / (period - k + x);
    }
    return sum;
  }
  double mean() const {
    return integral([](double) { return 1.0; });
  }
  double deviation() const {
    return std::sqrt(integral([](double x) { return 2 * x; }) - mean() * mean());
  }
  double quantile() const {
    double low = 0, high = others;
    for (int k = 0; k < 60; ++k) (above((low + high) / 2) > 1e-5 ? low : high) = (low + high) / 2;
    return high;
  }

private:
  const unsigned others;
  const double period;
  // The integral of weight(x) P(W > x), by Simpson's rule in each slot.
  template <class Weight> double integral(Weight weight) const {
    const int parts = 40;
    double sum = 0;
    for (unsigned slot = 0; slot < others; ++slot)
      for (int k = 0; k <= parts; ++k) {
        const double x = slot + (k == parts ? 1 - 1e-12 : static_cast<double>(k) / parts);
        sum += (k == 0 || k == parts ? 1 : k % 2 ? 4 : 2) * weight(x) * above(x) / (3.0 * parts);
      }
    return sum;
  }
};

// The same queue in slots, as the policer has it: whole slots, one cell a slot.
// Phases are drawn anew every three periods; the first of them is not counted,
// after which the queue no longer remembers that it began empty.
Delays slotted(unsigned n, uint64_t slots, uint64_t seed) {
  Random random(seed * 7 + n);
  const double period = n / 0.8;
  Delays delays;
  const uint64_t run = static_cast<uint64_t>(3 * period + 1), skipped = static_cast<uint64_t>(period + 1);
  std::vector<double> next(n);
  for (uint64_t done = 0; done < slots; done += run) {
    for (double &time : next) time = period * (static_cast<double>(random.next() >> 11) / 9007199254740992.0);
    std::vector<uint32_t> batch(run + 1);
    for (double &time : next)
      for (; time < static_cast<double>(run); time += period) batch[static_cast<size_t>(time)] += 1;
    uint64_t waiting = 0;
    for (uint64_t slot = 0; slot < run; ++slot) {
      for (uint32_t k = 0; k < batch[slot]; ++k, ++waiting)
        if (slot >= skipped) delays.count(waiting);
      if (waiting > 0) --waiting;
    }
  }
  return delays;
}

struct Row {
  unsigned n;
  Policed policed;
  Delays slots;
  double mean, deviation, quantile;
};

std::string draw(const std::vector<Row> &rows, uint64_t slots) {
  char title[120];
  std::snprintf(title, sizeof title, "Delay in the Output List at load 0.8 (%.0e slots for each n)",
                static_cast<double>(slots));
  Chart chart(title, {"number of sources n", 2, 100, {2, 5, 10, 20, 50, 100}, true},
              {"slots", 0, 16, {0, 2, 4, 6, 8, 10, 12, 14, 16}, false});
  std::vector<Point> curve[3], mark[3];
  for (const Row &row : rows) {
    const double x = row.n;
    curve[0].push_back({x, row.mean}), curve[1].push_back({x, row.deviation}),
        curve[2].push_back({x, row.quantile});
    mark[0].push_back({x, row.policed.delays.mean()}), mark[1].push_back({x, row.policed.delays.deviation()});
    mark[2].push_back({x, static_cast<double>(row.policed.delays.quantile())});
  }
  chart.curve(curve[0], "#1f5fa8", "", "nD/D/1, mean"), chart.marks(mark[0], "#1f5fa8", "policer, mean");
  chart.curve(curve[1], "#2f8040", "8 4", "nD/D/1, deviation"),
      chart.marks(mark[1], "#2f8040", "policer, deviation");
  chart.curve(curve[2], "#b03030", "2 3", "nD/D/1, 10^-5 quantile"),
      chart.marks(mark[2], "#b03030", "policer, 10^-5 quantile");
  return chart.finish();
}

} // namespace

int main(int count, char **arguments) {
  if (count < 3) return std::fprintf(stderr, "figure4 SEED SLOTS [SVG]\n"), 2;
  const uint64_t seed = std::strtoull(arguments[1], nullptr, 0),
                 slots = std::strtoull(arguments[2], nullptr, 0);
  std::vector<Row> rows;
  std::printf(
      "| n | excess | mean: policer | slotted nD/D/1 | nD/D/1 | deviation: policer | slotted nD/D/1 | nD/D/1 "
      "| "
      "10^-5 quantile: policer | slotted nD/D/1 | nD/D/1 |\n|---|---|---|---|---|---|---|---|---|---|---|\n");
  for (unsigned n : {2u, 5u, 10u, 20u, 50u, 100u}) {
    const Periodic exact(n, n / 0.8);
    rows.push_back({n, Run(n, seed).go(slots), slotted(n, slots, seed), exact.mean(), exact.deviation(),
                    exact.quantile()});
    const Row &row = rows.back();
    std::printf("| %u | %.4f | %.3f | %.3f | %.3f | %.3f | %.3f | %.3f | %llu | %llu | %.2f |\n", n,
                static_cast<double>(row.policed.excess) / static_cast<double>(row.policed.arrived),
                row.policed.delays.mean(), row.slots.mean(), row.mean, row.policed.delays.deviation(),
                row.slots.deviation(), row.deviation,
                static_cast<unsigned long long>(row.policed.delays.quantile()),
                static_cast<unsigned long long>(row.slots.quantile()), row.quantile);
    std::fflush(stdout);
  }
  if (count > 3 && !write_text(arguments[3], draw(rows, slots))) return std::perror(arguments[3]), 2;
}
