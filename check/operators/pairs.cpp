// Pairs of runs through the archive, for two operators on one card. In both runs of a pair operator A makes the same calls and
// sends the same cells in the same slots; what operator B calls, and what arrives in the other slots, is drawn for each run by
// itself. A's open answers, verdicts and D must be the same, and A's words but waiting; a departure of A's may come in another
// slot, at most N-1 slots away. What may differ must be seen to differ.
//
//   pairs SEED PAIRS [PAIR]
//
// Where an answer of A's close differs, by the waiting half of refusal 8, the pair ends there.
#include <algorithm>
#include <array>
#include <cstdio>
#include <cstdlib>
#include <cstring>
#include <map>
#include <string>
#include <vector>

#include "../random.hpp"
#include "../second/hec.hpp"
#include "clurimoon.h"

namespace {

constexpr unsigned words_each = 12, paths = 256, waiting = CLURIMOON_WORD_WAITING;
uint64_t pair_number, slots_run, calls_made;

[[noreturn]] void fail(const std::string &what) {
  std::fflush(stdout);
  std::fprintf(stderr, "\nFAILED in pair %llu: %s\n", static_cast<unsigned long long>(pair_number), what.c_str());
  std::exit(1);
}

// What was met, and must have been, more or less often.
std::map<std::string, uint64_t> met;
const char *const wanted[] = {
    "A is the first", "A is the second", "at the UNI", "at the NNI", "raw", "not raw", "N 1",
    "A: open 0", "A: open 4", "A: open 5", "A: open 6", "A: open 11", "A: open 16",
    "A: close 0", "A: close 4", "A: close 7", "A: close 8", "A: close 16",
    "A: accepted", "A: excess", "A: unknown", "A: tagged", "A: a VC's cell", "A: a path's cell", "A: D above 0", "A: D of N-1",
    "B: open 0", "B: open 5", "B: open 16 on A's", "B: close 0", "B: close 16 on A's", "B: a cell of B's let in", "B: unknown", "B: mended", "B: dropped",
    "differs: departure slot", "differs: departure slot by N-1", "differs: space", "differs: close of A, by a waiting cell", "differs: next departure",
    "differs: free spaces", "differs: mode", "differs: delay summary", "same: delay summary", "pairs to their end"};
void meet(const std::string &what) { met[what] += 1; }

struct Rates {
  uint8_t m;
  uint32_t f, c;
  uint8_t m2;
  uint32_t f2, c2;
  uint8_t tag;
};
struct Ask {
  bool close, path;
  uint16_t number;
  Rates rates;
};
using Cell = std::array<uint8_t, 53>;

// How a pair is set up, and who owns what.
struct Setup {
  uint16_t n, v, kind, split_vci, split_path;
  bool raw;
  uint16_t a; // A's number, 0 or 1
  unsigned load_a, load_b; // in a hundred slots: A's cells, and what comes in the others
  std::vector<uint16_t> vcis, vpis; // in use
  uint16_t owner(bool path, uint16_t number) const { return number < (path ? split_path : split_vci) ? 0 : 1; }
  bool of_a(unsigned connection) const {
    if (connection == 0 || connection == v) return false;
    return connection < v ? owner(false, static_cast<uint16_t>(connection)) == a : owner(true, static_cast<uint16_t>(connection - v)) == a;
  }
};

struct Header {
  unsigned vpi, vci;
};
Header read(uint16_t kind, const uint8_t *octet) {
  const unsigned vpi = (kind == CLURIMOON_NNI ? octet[0] : octet[0] & 15u) << 4 | octet[1] >> 4;
  return {vpi, (octet[1] & 15u) << 12 | static_cast<unsigned>(octet[2]) << 4 | octet[3] >> 4};
}
unsigned named(const Setup &s, const uint8_t *octet) {
  const Header h = read(s.kind, octet);
  return h.vpi == 0 ? (h.vci < s.v ? h.vci : 0) : h.vpi < paths ? s.v + h.vpi : 0;
}

struct Gone {
  uint64_t slot;
  uint16_t space;
  Cell cell;
};

#define LENT cells.data(), cells.size(), links.data(), links.size(), calendar.data(), calendar.size(), words.data(), words.size(), bits.data(), bits.size(), arrived.data(), arrived.size()
// One run: its own record, memories, and what left of A's connections.
class Card {
public:
  Card(const Setup &setup, uint64_t seed)
      : s(setup), random(seed), cells(size_t{53} * s.n), links(s.n), calendar(size_t{2} * s.n), words(CLURIMOON_VCS(s.v)), bits(CLURIMOON_BITS), arrived(s.n) {
    const clurimoon_set set = clurimoon_setup(s.n, s.v, s.raw, s.kind, s.split_vci, s.split_path, LENT);
    if (set.number != 0) fail("setup");
    record = set.record;
  }
  const Setup &s;
  Random random;
  clurimoon_record record{};
  std::vector<uint8_t> cells;
  std::vector<uint16_t> links, calendar;
  std::vector<uint32_t> words;
  std::vector<uint64_t> bits;
  std::vector<uint32_t> arrived;
  std::map<unsigned, std::vector<Gone>> gone;     // by A's connection
  std::map<unsigned, std::vector<uint64_t>> dues; // the due slot of each cell of A's that was let in
  std::map<unsigned, std::vector<uint64_t>> came; // and the slot of its arrival
  std::map<unsigned, clurimoon_tally> delays;     // the delay summary of each connection of A's
  uint64_t slots = 0;

  uint16_t call(uint16_t owner, const Ask &ask) {
    calls_made += 1;
    uint32_t *const w = words.data();
    const Rates &k = ask.rates;
    if (ask.close) return (ask.path ? clurimoon_close_path : clurimoon_close)(record, w, words.size(), owner, ask.number);
    if (!ask.path && k.c2 == 0 && k.f2 == 0 && k.m2 == 0 && k.tag == 0) return clurimoon_open(record, w, words.size(), owner, ask.number, k.m, k.f, k.c);
    return (ask.path ? clurimoon_open_path : clurimoon_open_sustained)(record, w, words.size(), owner, ask.number, k.m, k.f, k.c, k.m2, k.f2, k.c2, k.tag);
  }
  clurimoon_answer slot(const Cell *cell) {
    const clurimoon_served served = clurimoon_slot(record, LENT, cell ? cell->data() : nullptr, cell ? 53 : 0);
    const clurimoon_answer a = served.answer;
    if (a.number != 0) fail("a slot was refused from a fresh state");
    record = served.record;
    if (a.space != CLURIMOON_NONE && s.of_a(a.out_vci)) leave(a);
    if ((a.verdict == CLURIMOON_ACCEPTED || a.verdict == CLURIMOON_TAGGED) && s.of_a(a.vci)) dues[a.vci].push_back(slots + a.d), came[a.vci].push_back(slots);
    slots += 1, slots_run += 1;
    return a;
  }
  unsigned next() const {
    const clurimoon_wait wait = clurimoon_next(record, calendar.data(), calendar.size(), bits.data(), bits.size());
    if (wait.number != 0) fail("next was refused from a fresh state");
    return wait.slots;
  }
  void audit() {
    if (!clurimoon_audit(record, LENT)) fail("the audit says no");
  }
  // A's words, with 0 for each waiting where that is to be left out.
  std::vector<uint32_t> words_of_a(bool with_waiting) const {
    std::vector<uint32_t> of_a;
    for (unsigned c = 0; c < s.v + paths; ++c)
      if (s.of_a(c))
        for (unsigned k = 0; k < words_each; ++k) of_a.push_back(k == waiting && !with_waiting ? 0 : words[words_each * c + k]);
    return of_a;
  }

private:
  void leave(const clurimoon_answer &a) {
    Gone g{slots, a.space, {}};
    std::copy_n(cells.begin() + 53 * a.space, 53, g.cell.begin());
    gone[a.out_vci].push_back(g);
    clurimoon_tally &tally = delays[a.out_vci];
    const clurimoon_tallied tallied = clurimoon_tally_slot(tally, record, arrived.data(), arrived.size(), a.out_vci, a.space, a.out_vci);
    if (tallied.number != 0) fail("a tally was refused from a fresh state");
    tally = tallied.tally;
  }
};

class Pair {
public:
  explicit Pair(uint64_t seed) : random(seed), s(choose()), one(s, random.next()), two(s, random.next()) {}

  void run() {
    meet(s.a == 0 ? "A is the first" : "A is the second"), meet(s.kind == CLURIMOON_UNI ? "at the UNI" : "at the NNI");
    meet(s.raw ? "raw" : "not raw");
    if (s.n == 1) meet("N 1");
    for (uint64_t k = random.between(2, 8); k > 0; --k)
      if (!calls_of_a(false)) return;
    for (uint64_t slots = random.between(10, 60) + 3 * s.n; slots > 0; --slots)
      if (!one_slot()) return finish();
    // A is silent, and B too: what waits leaves.
    for (unsigned k = 0; k < 2u * s.n + 2; ++k) one.slot(nullptr), two.slot(nullptr);
    meet("pairs to their end");
    for (const auto &[connection, cells] : one.dues)
      if (one.gone[connection].size() != cells.size() || two.gone[connection].size() != cells.size()) fail("a cell of A's has not left");
    finish();
  }

private:
  Random random;
  const Setup s;
  Card one, two;

  Setup choose() {
    Setup c{};
    const uint64_t kind = random.below(10);
    c.n = static_cast<uint16_t>(kind < 6 ? random.between(1, 6) : kind < 9 ? random.between(7, 40) : random.pick<uint64_t>({63, 64, 65, 76, 130}));
    c.v = static_cast<uint16_t>(random.percent(80) ? random.between(2, 12) : random.between(13, 70));
    c.kind = static_cast<uint16_t>(random.below(2)), c.raw = random.once_in(3), c.a = static_cast<uint16_t>(random.below(2));
    c.split_vci = static_cast<uint16_t>(random.between(1, c.v - 1u)), c.split_path = static_cast<uint16_t>(random.pick<uint64_t>({1, 2, 3, 128, 254, 255, random.between(1, 255)}));
    for (unsigned k = 0; k < 4; ++k) {
      const auto near = [&](unsigned split, unsigned most) { return static_cast<uint16_t>(std::min<uint64_t>(std::max<uint64_t>(split + random.below(4), 3) - 2, most)); };
      c.vcis.push_back(random.once_in(2) ? near(c.split_vci, c.v - 1u) : static_cast<uint16_t>(random.between(1, c.v - 1u)));
      c.vpis.push_back(random.once_in(2) ? near(c.split_path, 255) : static_cast<uint16_t>(random.between(1, 255)));
    }
    c.load_a = random.pick({20u, 50u, 90u}), c.load_b = random.pick({30u, 80u, 100u});
    return c;
  }

  // A rate that lets cells in often, mostly with a tolerance to the last entry; now and then against the rules.
  Rates any_rates(Random &from) {
    Rates r{};
    r.m = static_cast<uint8_t>(from.below(4));
    const uint32_t leak = uint32_t{1} << r.m;
    r.f = leak * static_cast<uint32_t>(from.between(1, 4)) + static_cast<uint32_t>(from.below(leak));
    r.c = r.f + leak * static_cast<uint32_t>(from.percent(70) ? s.n - 1u : from.below(s.n)) + (leak - 1);
    if (from.percent(30)) r.m2 = 2, r.f2 = 4 * r.f, r.c2 = r.f2 * static_cast<uint32_t>(from.between(1, 3)), r.tag = static_cast<uint8_t>(from.below(2));
    if (from.percent(4)) r.c = r.f - 1;
    if (from.percent(4)) r.m2 = 16;
    return r;
  }
  // What `who` asks for: mostly of its own connections in use.
  Ask any_ask(uint16_t who, Random &from, bool may_close) {
    Ask ask{may_close && from.percent(35), from.once_in(2), 0, any_rates(from)};
    for (int tries = 0; tries < 6; ++tries) {
      ask.number = from.pick(ask.path ? s.vpis : s.vcis);
      if (s.owner(ask.path, ask.number) == who) break;
    }
    if (from.percent(4)) ask.number = from.pick<uint16_t>({0, 256, 65535, s.v});
    return ask;
  }
  bool is_of(uint16_t who, const Ask &ask) const {
    return ask.number != 0 && ask.number < (ask.path ? paths : s.v) && s.owner(ask.path, ask.number) == who;
  }

  // The same call of A's in both runs; false where a close is answered otherwise, and the pair is at its end.
  bool calls_of_a(bool may_close) { return call_of_a(any_ask(s.a, random, may_close)); }
  // Closes a connection of A's that has no debt, and of which a cell waits in one run alone.
  bool close_of_a() {
    const auto word = [&](unsigned c, unsigned k) { return one.words[words_each * c + k]; };
    const auto paid = [&](unsigned c) {
      const uint64_t elapsed = static_cast<uint32_t>(one.record.t - word(c, CLURIMOON_WORD_LAST));
      return elapsed << word(c, CLURIMOON_WORD_M) >= word(c, CLURIMOON_WORD_S);
    };
    for (unsigned c = 1; c < s.v + paths; ++c)
      if (s.of_a(c) && (word(c, waiting) == 0) != (two.words[words_each * c + waiting] == 0) && paid(c))
        return call_of_a({true, c > s.v, static_cast<uint16_t>(c > s.v ? c - s.v : c), {}});
    return true;
  }
  bool call_of_a(const Ask &ask) {
    const uint16_t first = one.call(s.a, ask), second = two.call(s.a, ask);
    if (first == second) return meet(std::string("A: ") + (ask.close ? "close " : "open ") + std::to_string(first)), true;
    if (!ask.close) fail("A's open is answered " + std::to_string(first) + " and " + std::to_string(second));
    const size_t at = words_each * (ask.path ? s.v + size_t{ask.number} : ask.number) + waiting;
    const Card &refused = first == 8 ? one : two;
    if (std::min(first, second) != 0 || std::max(first, second) != 8 || refused.words[at] == 0) fail("A's close differs, and not by a waiting cell");
    return meet("differs: close of A, by a waiting cell"), false;
  }
  // Any call of B's, in one run alone. It changes no word of A's.
  void calls_of_b(Card &card) {
    const uint16_t b = static_cast<uint16_t>(1 - s.a);
    const Ask ask = any_ask(card.random.percent(80) ? b : s.a, card.random, true);
    const std::vector<uint32_t> before = card.words_of_a(true);
    const uint16_t number = card.call(b, ask);
    if (before != card.words_of_a(true)) fail("a call of B's changed a word of A's");
    if (is_of(s.a, ask) != (number == CLURIMOON_NOT_OWNER)) fail("16 is not given exactly on A's connections");
    if (number == CLURIMOON_NOT_OWNER) meet(ask.close ? "B: close 16 on A's" : "B: open 16 on A's");
    else meet(std::string("B: ") + (ask.close ? "close " : "open ") + std::to_string(number));
  }

  void put_header(Cell &cell, unsigned vpi, unsigned vci, Random &from) const {
    cell[0] = static_cast<uint8_t>(s.kind == CLURIMOON_NNI ? vpi >> 4 : from.below(16) << 4 | vpi >> 4);
    cell[1] = static_cast<uint8_t>((vpi & 15) << 4 | vci >> 12), cell[2] = static_cast<uint8_t>(vci >> 4);
    cell[3] = static_cast<uint8_t>((vci & 15) << 4 | from.below(16));
    const second::Header header = {cell[0], cell[1], cell[2], cell[3], 0};
    cell[4] = s.raw ? second::octet5(header) : static_cast<uint8_t>(from.below(256));
  }
  // A cell that names a connection of this operator's, open or not; false where it has none in use.
  bool cell_of(uint16_t who, Cell &cell, Random &from) const {
    for (uint8_t &octet : cell) octet = static_cast<uint8_t>(from.next());
    for (int tries = 0; tries < 12; ++tries) {
      const bool path = from.once_in(2);
      const uint16_t number = from.pick(path ? s.vpis : s.vcis);
      if (s.owner(path, number) != who) continue;
      put_header(cell, path ? number : 0, path ? static_cast<unsigned>(from.below(65536)) : number, from);
      return true;
    }
    return false;
  }
  // What arrives in a slot that isn't A's: nothing, a cell of B's, one of nobody's, where headers are checked with errors. What
  // would leave the header check as a cell of A's isn't handed in.
  bool cell_of_b(Card &card, Cell &cell) {
    Random &from = card.random;
    if (!from.percent(s.load_b) || !cell_of(static_cast<uint16_t>(1 - s.a), cell, from)) return false;
    if (from.percent(6)) put_header(cell, s.kind == CLURIMOON_NNI ? 256 + static_cast<unsigned>(from.below(3840)) : 0, s.v + static_cast<unsigned>(from.below(100)), from);
    if (from.percent(4)) put_header(cell, 0, 0, from);
    second::Header header;
    std::copy_n(cell.begin(), 5, header.begin());
    if (s.raw && from.percent(30)) {
      for (uint64_t wrong = from.between(1, 3); wrong > 0; --wrong) header = second::with_bit_changed(header, static_cast<unsigned>(from.below(40)));
      std::copy_n(header.begin(), 5, cell.begin());
    }
    const unsigned bit = s.raw ? second::wrong_bit(header) : 40;
    if (bit == 41 || (bit < 40 && card.record.mode == CLURIMOON_DETECTION)) return meet("B: dropped"), true;
    if (bit < 40) header = second::with_bit_changed(header, bit), meet("B: mended");
    return !s.of_a(named(s, header.data()));
  }

  bool one_slot() {
    for (Card *card : {&one, &two})
      while (card->random.percent(25)) calls_of_b(*card);
    while (random.percent(12))
      if (!calls_of_a(true)) return false;
    if (random.percent(40) && !close_of_a()) return false;
    for (Card *card : {&one, &two})
      while (card->random.percent(10)) calls_of_b(*card);
    Cell cell;
    if (random.percent(s.load_a) && cell_of(s.a, cell, random)) {
      const clurimoon_answer x = one.slot(&cell), y = two.slot(&cell);
      if (x.verdict != y.verdict || x.vci != y.vci || x.d != y.d) fail("a cell of A's is judged otherwise");
      tally(x);
    } else {
      for (Card *card : {&one, &two}) {
        Cell other;
        const bool comes = cell_of_b(*card, other);
        const clurimoon_answer a = card->slot(comes ? &other : nullptr);
        if (a.verdict == CLURIMOON_ACCEPTED || a.verdict == CLURIMOON_TAGGED) meet("B: a cell of B's let in");
        if (a.verdict == CLURIMOON_UNKNOWN) meet("B: unknown");
      }
    }
    if (one.words_of_a(false) != two.words_of_a(false)) fail("A's words differ, and not by waiting alone");
    if (one.next() != two.next()) meet("differs: next departure");
    if (one.record.free != two.record.free) meet("differs: free spaces");
    if (one.record.mode != two.record.mode) meet("differs: mode");
    if (random.once_in(20)) one.audit(), two.audit();
    return true;
  }
  void tally(const clurimoon_answer &a) const {
    static const char *const names[] = {"nothing", "accepted", "excess", "unknown", "dropped", "tagged"};
    meet(std::string("A: ") + names[a.verdict]);
    if (a.verdict == CLURIMOON_UNKNOWN) return;
    meet(a.vci > s.v ? "A: a path's cell" : "A: a VC's cell");
    if (a.d != 0) meet("A: D above 0");
    if (a.d != 0 && a.d == s.n - 1) meet("A: D of N-1");
  }

  // Of each connection of A's the k-th departure in both runs: the same cell, at most N-1 slots apart, each within demand 3's bound.
  void finish() {
    for (const auto &[connection, first] : one.gone) {
      const std::vector<Gone> &second = two.gone[connection];
      const std::vector<uint64_t> &due = one.dues[connection];
      for (size_t k = 0; k < std::min(first.size(), second.size()); ++k) {
        if (first[k].cell != second[k].cell) fail("other octets of A's leave");
        const uint64_t x = first[k].slot, y = second[k].slot, apart = x > y ? x - y : y - x;
        if (x < due[k] || y < due[k] || x - due[k] >= s.n || y - due[k] >= s.n) fail("a cell of A's leaves too early or too late");
        if (apart > s.n - 1u) fail("departures of A's are more than N-1 slots apart");
        if (apart != 0) meet("differs: departure slot");
        if (apart != 0 && apart == s.n - 1u) meet("differs: departure slot by N-1");
        if (first[k].space != second[k].space) meet("differs: space");
      }
    }
    for (Card *card : {&one, &two}) recounted(*card);
    for (const auto &[connection, tally] : one.delays)
      meet(std::equal(tally.bins, tally.bins + CLURIMOON_BINS, two.delays[connection].bins) ? "same: delay summary" : "differs: delay summary");
  }
  // Each delay summary is what is counted from the run: the k-th cell of a connection that was let in is the k-th of it to leave.
  void recounted(Card &card) const {
    for (const auto &[connection, cells] : card.gone) {
      clurimoon_tally counted{};
      for (size_t k = 0; k < cells.size(); ++k) counted.bins[std::min<uint64_t>(cells[k].slot - card.came[connection][k], CLURIMOON_BINS - 1)] += 1;
      const clurimoon_tally &tally = card.delays[connection];
      if (tally.cells != cells.size() || !std::equal(tally.bins, tally.bins + CLURIMOON_BINS, counted.bins)) fail("a delay summary is not what was counted");
    }
  }
};

} // namespace

int main(int count, char **arguments) {
  if (count < 3) return std::fprintf(stderr, "pairs SEED PAIRS [PAIR]\n"), 2;
  const uint64_t seed = std::strtoull(arguments[1], nullptr, 0), pairs = std::strtoull(arguments[2], nullptr, 0);
  const auto seed_of = [&](uint64_t number) { return Random(seed ^ number << 20).next() + number; };
  if (count > 3) {
    pair_number = std::strtoull(arguments[3], nullptr, 0);
    Pair(seed_of(pair_number)).run();
    return std::printf("pair %llu agrees\n", static_cast<unsigned long long>(pair_number)), 0;
  }
  for (; pair_number < pairs; ++pair_number) Pair(seed_of(pair_number)).run();
  const uint64_t enough = pairs / 400 + 1;
  bool complete = true;
  std::string line = "  ";
  for (const char *what : wanted) {
    const uint64_t times = met[what];
    const std::string item = std::string(what) + " " + std::to_string(times) + (times < enough ? " (TOO SELDOM); " : "; ");
    if (line.size() + item.size() > 150) std::printf("%s\n", line.c_str()), line = "  ";
    line += item, complete = complete && times >= enough;
  }
  std::printf("%s\n", line.c_str());
  std::printf("operators: %llu pairs of runs, %llu slots and %llu calls: A's open answers, verdicts, D and words but waiting are the same, its departures at most N-1 slots apart\n",
              static_cast<unsigned long long>(pairs), static_cast<unsigned long long>(slots_run), static_cast<unsigned long long>(calls_made));
  if (!complete) return std::fprintf(stderr, "operators: FAILED, something was met too seldom\n"), 1;
}
