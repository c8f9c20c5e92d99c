// One policer twice, in the archive and in the second implementation: each call is
// made of both with the same arguments, and everything is compared after it.
#pragma once
#include <algorithm>
#include <optional>

#include "../random.hpp"
#include "../second/hec.hpp"
#include "delays.hpp"

namespace memories {

constexpr size_t words_per_connection = 12, paths = 256;
// Of the words of bits, those of spaces, and all of them: those of calendar entries follow.
constexpr size_t free_words = 16, bit_words = 32;

// The old form of a policer from its setup on, with document 01's Free List. What it says is compared with the archive while
// the archive's policer is fresh: all but which space a cell has; so the arrival slot of what departs is the same, too.
class Old {
public:
  Old(uint16_t n, uint16_t v, bool raw, uint16_t kind, calls::Splits splits)
      : cells(size_t{53} * n), links(n), calendar(size_t{2} * n), vcs(words_per_connection * (v + paths)), bits(bit_words), arrived(n) {
    record = calls::setup(n, v, raw, kind, splits, lend()).record;
    for (uint16_t space = 0; space < n; ++space) list.push_back(space);
  }
  void open(calls::Name name, const calls::Rates &rates, uint16_t number) {
    same<uint64_t>("number beside the old form", calls::open(record, lend().vcs, name, rates), number);
  }
  void close(calls::Name name, uint16_t number) {
    same<uint64_t>("number beside the old form", calls::close(record, lend().vcs, name), number);
  }
  void slot(const uint8_t *cell, size_t length, clurimoon_answer got, const uint8_t *departed, std::optional<uint32_t> arrival) {
    const clurimoon_served served = calls::slot_listed(record, lend(), {cell, length}, list);
    record = served.record;
    clurimoon_answer a = served.answer;
    beside_old += 1, other_spaces += a.space != got.space;
    if (a.space != none && got.space != none) {
      if (std::memcmp(&cells[size_t{53} * a.space], departed, 53) != 0) fail("other octets depart than of the old form");
      if (arrival && arrived[a.space] != *arrival) fail("another arrival slot is kept than of the old form");
      a.space = got.space;
    }
    same("answer beside the old form", a, got);
  }

private:
  std::vector<uint8_t> cells;
  std::vector<uint16_t> links, calendar;
  std::vector<uint32_t> vcs;
  std::vector<uint64_t> bits;
  std::vector<uint32_t> arrived;
  clurimoon_record record{};
  std::deque<uint16_t> list;
  calls::Memory lend() {
    return {{cells.data(), cells.size()}, {links.data(), links.size()}, {calendar.data(), calendar.size()},
            {vcs.data(), vcs.size()},     {bits.data(), bits.size()},   {arrived.data(), arrived.size()}};
  }
};

class Policer {
protected:
  explicit Policer(uint64_t seed) : random(seed) {}

  struct Memories {
    Twin<uint8_t> cells;
    Twin<uint16_t> links, calendar;
    Twin<uint32_t> vcs;
    Twin<uint64_t> bits;
    Twin<uint32_t> arrived;
  };
  Random random;
  uint16_t n = 1, v = 2;
  clurimoon_record record{};
  Memories memory;
  std::optional<Old> old; // asked while the policer is fresh
  Recount recount; // kept while the policer is fresh
  clurimoon_answer last{0, 0, 0, 0, none, 0}; // of the slot before
  bool fresh = true; // since setup each call got what the call before left
  unsigned load = 90;
  unsigned wrong = 10; // cells in a hundred that come with a wrong header, where it is checked
  unsigned of_paths = 30; // cells in a hundred that are of a path
  std::vector<uint16_t> favourites, favourite_paths; // VCIs and VPIs

  size_t connections() const { return v + paths; }
  // The number of a VC or path that is in use.
  uint16_t likely_connection() {
    if (random.percent(50)) return random.pick(favourites);
    return static_cast<uint16_t>(v + random.pick(favourite_paths));
  }
  // A VC or path with the operator who asks for it: mostly its own, now and then the other, or nobody.
  calls::Name named(bool path, uint16_t number) {
    const bool of_the_first = number < (path ? record.split_path : record.split_vci);
    uint16_t owner = of_the_first ? CLURIMOON_OWNER_FIRST : CLURIMOON_OWNER_SECOND;
    if (random.once_in(12)) owner = static_cast<uint16_t>(1 - owner);
    if (random.once_in(60)) owner = random.pick<uint16_t>({2, 3, 255, 256, 257, 65535});
    return {path, number, owner};
  }
  calls::Name name_of(size_t connection) {
    return named(connection > v, static_cast<uint16_t>(connection > v ? connection - v : connection));
  }

  void choose_sizes() {
    const uint64_t kind = random.below(100);
    if (kind < 50) n = static_cast<uint16_t>(random.between(1, 8));
    else if (kind < 80) n = static_cast<uint16_t>(random.between(1, 80));
    else if (kind < 94) n = random.pick<uint16_t>({1, 2, 5, 31, 32, 33, 37, 63, 64, 65, 75, 76, 127, 128, 129});
    else n = random.pick<uint16_t>({512, 959, 961, 1000, 1023, 1024});
    if (kind % 10 < 7) v = static_cast<uint16_t>(random.between(2, 9));
    else if (kind % 10 < 9) v = static_cast<uint16_t>(random.between(2, 70));
    else v = random.pick<uint16_t>({2, 3, 64, 255, 256, 1023, 1024});
    load = random.pick({20u, 60u, 90u, 100u, 100u});
    wrong = random.pick({0u, 3u, 10u, 40u});
    of_paths = random.pick({0u, 15u, 40u, 90u});
    for (uint64_t k = random.between(1, 5); k > 0; --k)
      favourites.push_back(static_cast<uint16_t>(random.between(1, v - 1u)));
    // Rotation comes to the first paths soon, and to the last one just before it begins again.
    for (uint64_t k = random.between(1, 5); k > 0; --k) {
      const uint16_t any = static_cast<uint16_t>(random.between(1, 255));
      favourite_paths.push_back(random.pick<uint16_t>({any, 1, 2, 3, 5, 15, 16, 128, 255}));
    }
  }

  // Buffers of the lengths that n and v ask for, with old content in them.
  void make_buffers() {
    std::vector<uint8_t> cell_of_vc_1(53, 0);
    put_header(cell_of_vc_1.data(), 0, 1);
    memory.cells.resize(size_t{53} * n, cell_of_vc_1);
    memory.links.resize(n, {0});
    memory.calendar.resize(size_t{2} * n, {none});
    memory.vcs.resize(words_per_connection * connections(), {1, 2, 10, 10, 0, 0, 1, 2, 20, 60, 0, 1});
    memory.bits.resize(bit_words, {1, uint64_t{1} << 63});
    memory.arrived.resize(n, {UINT32_MAX, 0, 7});
    for (size_t k = 0; k < memory.cells.size(); k += random.between(1, 60))
      memory.cells.set(k, static_cast<uint8_t>(random.next()));
    for (size_t k = 0; k < memory.vcs.size(); k += random.between(1, 20))
      memory.vcs.set(k, static_cast<uint32_t>(random.next()));
    for (size_t k = 0; k < bit_words; k += random.between(1, 4)) memory.bits.set(k, random.next());
    for (size_t k = 0; k < n; k += random.between(1, 4)) memory.arrived.set(k, static_cast<uint32_t>(random.next()));
  }

  // Setup over old content; where sizes or lengths are wrong it must refuse.
  bool begin() {
    make_buffers();
    uint16_t asked_n = n, asked_v = v;
    if (random.once_in(12)) asked_n = random.pick<uint16_t>({0, 1025, 65535, 1024, 1});
    if (random.once_in(12)) asked_v = random.pick<uint16_t>({0, 1, 1025, 65535, 1024, 2});
    const Lengths lent = random.once_in(12) ? wrong_lengths() : lengths();
    calls::Splits splits = any_splits();
    if (random.once_in(10)) splits.vci = random.pick<uint16_t>({0, v, v, static_cast<uint16_t>(v + 1), 65535});
    if (random.once_in(10)) splits.path = random.pick<uint16_t>({0, 256, 256, 257, 65535});
    uint16_t kind = random.once_in(2) ? CLURIMOON_UNI : CLURIMOON_NNI;
    if (random.once_in(12)) kind = random.pick<uint16_t>({2, 3, 256, 257, 65535});
    const bool raw = random.once_in(2);
    const clurimoon_set got = setup(asked_n, asked_v, raw, kind, splits, lent);
    record = got.record;
    // Another size with just its lengths is done, too, and is not the policer that follows.
    if (got.number != 0 || asked_n != n || asked_v != v) return false;
    old.emplace(n, v, raw, kind, splits);
    recount.begin(likely_connection());
    if (random.once_in(2)) disguise(0);
    if (random.once_in(2)) disguise(v);
    for (uint64_t k = random.between(1, 12); k > 0; --k) any_open();
    return true;
  }

  // Splits within their ranges, often next to a connection in use.
  calls::Splits any_splits() {
    const uint16_t vci = random.pick(favourites), path = random.pick(favourite_paths);
    const uint16_t after_vci = static_cast<uint16_t>(vci + 1 < v ? vci + 1 : vci), after_path = static_cast<uint16_t>(path < 255 ? path + 1 : path);
    return {random.pick<uint16_t>({1, vci, vci, after_vci, after_vci, static_cast<uint16_t>(v - 1), static_cast<uint16_t>(random.between(1, v - 1u))}),
            random.pick<uint16_t>({1, path, path, after_path, after_path, 255, static_cast<uint16_t>(random.between(1, 255))})};
  }
  // The words of numbers 0 and V don't matter: here they look like those of an open VC, or like none.
  void disguise(size_t connection) {
    const uint32_t open = random.pick<uint32_t>({1, 1, 2, UINT32_MAX});
    const uint32_t s = random.pick<uint32_t>({0, 10, 11}), waiting = random.pick<uint32_t>({0, 1, n, n + 1u});
    const uint32_t words[words_per_connection] = {
        open, 2, 10, 10, s, 0, waiting, 2, 20, 60, random.pick<uint32_t>({0, 60, 61}), random.pick<uint32_t>({0, 1, 2})};
    for (size_t k = 0; k < words_per_connection; ++k) memory.vcs.set(words_per_connection * connection + k, words[k]);
  }

  // A state that is as sound as can be, but for an N or V just outside its range.
  void begin_beyond() {
    n = random.pick<uint16_t>({1, 5, 1024, 1025, 1025});
    v = random.pick<uint16_t>({1, 1, 2, 1025});
    if (n <= 1024 && v == 2) v = 1025;
    favourites = {1}, favourite_paths = {1, 255};
    make_buffers();
    setup(n, v, random.once_in(2), random.pick<uint16_t>({0, 1, 2, 65535}), {1, 1}, lengths());
    for (uint16_t space = 0; space < n; ++space) memory.links.set(space, 0);
    for (size_t w = 0; w < free_words; ++w) memory.bits.set(w, n >= 64 * (w + 1) ? UINT64_MAX : n > 64 * w ? (uint64_t{1} << (n - 64 * w)) - 1 : 0);
    for (size_t w = free_words; w < bit_words; ++w) memory.bits.set(w, 0);
    for (size_t k = 0; k < memory.calendar.size(); ++k) memory.calendar.set(k, none);
    for (size_t k = 0; k < memory.vcs.size(); ++k) memory.vcs.set(k, 0);
    for (size_t k = 0; k < n; ++k) memory.arrived.set(k, 0);
    record = {n,
              v,
              UINT32_MAX,
              static_cast<uint16_t>(n - 1),
              static_cast<uint16_t>(v + paths - 1),
              n,
              none,
              none,
              static_cast<uint16_t>(random.below(4)),
              static_cast<uint16_t>(random.below(3)),
              static_cast<uint16_t>(random.below(4)),
              1,
              1};
    fresh = false;
  }

  struct Lengths {
    size_t cells, links, calendar, vcs, bits, arrived;
    bool null;
  };
  Lengths lengths() {
    return {memory.cells.size(), memory.links.size(), memory.calendar.size(), memory.vcs.size(), memory.bits.size(),
            memory.arrived.size(), random.once_in(2)};
  }
  size_t wrong_length(size_t length, size_t unit) {
    return random.pick<size_t>({0, length - 1, length + 1, length - unit, length + unit, length});
  }
  Lengths wrong_lengths() {
    Lengths lent = lengths();
    const uint64_t which = random.below(7);
    if (which == 0 || which == 4) lent.cells = wrong_length(lent.cells, 53);
    if (which == 1 || which == 4) lent.links = wrong_length(lent.links, 1);
    if (which == 2 || which == 4) lent.calendar = wrong_length(lent.calendar, 2);
    // those of (iv) and of document 01, and of 256 paths with none unused before them
    const size_t other = random.pick<size_t>({size_t{7} * v, size_t{12} * v, size_t{7} * connections()});
    if (which == 3 || which == 4) lent.vcs = random.once_in(3) ? other : wrong_length(lent.vcs, words_per_connection);
    // a word for each 64 of N, a word a space, the spaces alone, and entries by N behind them
    if (which == 5 || which == 4) lent.bits = random.pick<size_t>({0, 1, 15, 16, 16, 17, 31, 33, (n + 63u) / 64u, n, 16 + (n + 63u) / 64u});
    if (which == 6 || which == 4) lent.arrived = wrong_arrived();
    return lent;
  }
  // One less, one more, none, twice as many, and one for each connection.
  size_t wrong_arrived() { return random.pick<size_t>({n - 1u, n + 1u, 0, 2u * n, connections(), n}); }
  // For open and close: a wrong length more often where the splits would be refused before it.
  size_t words_lent() {
    const bool fit = record.split_vci != 0 && record.split_vci < v && record.split_path != 0 && record.split_path < paths;
    return random.once_in(fit ? 60 : 8) ? wrong_lengths().vcs : memory.vcs.size();
  }
  Lengths usual_lengths() { return random.once_in(60) ? wrong_lengths() : lengths(); }

  calls::Memory lend_ours(const Lengths &lent) {
    return {memory.cells.lend_ours(lent.cells), memory.links.lend_ours(lent.links),
            memory.calendar.lend_ours(lent.calendar), memory.vcs.lend_ours(lent.vcs),
            memory.bits.lend_ours(lent.bits), memory.arrived.lend_ours(lent.arrived)};
  }
  void compare_memories() const {
    memory.cells.compare("cells");
    memory.links.compare("links");
    memory.calendar.compare("calendar");
    memory.vcs.compare("VC words");
    memory.bits.compare("bits");
    memory.arrived.compare("arrival slots");
  }
  void begin_call(const char *name) {
    call_name = name;
    made += 1;
  }

  clurimoon_set setup(uint16_t asked_n, uint16_t asked_v, bool raw, uint16_t kind, calls::Splits splits, const Lengths &lent) {
    begin_call("setup");
    const clurimoon_set expected = calls::setup(asked_n, asked_v, raw, kind, splits, lend_ours(lent));
    const clurimoon_set got =
        clurimoon_setup(asked_n, asked_v, raw, kind, splits.vci, splits.path, memory.cells.lend_theirs(lent.cells, lent.null), lent.cells,
                        memory.links.lend_theirs(lent.links, lent.null), lent.links,
                        memory.calendar.lend_theirs(lent.calendar, lent.null), lent.calendar,
                        memory.vcs.lend_theirs(lent.vcs, lent.null), lent.vcs,
                        memory.bits.lend_theirs(lent.bits, lent.null), lent.bits,
                        memory.arrived.lend_theirs(lent.arrived, lent.null), lent.arrived);
    same<uint64_t>("number", expected.number, got.number);
    same_record(expected.record, got.record);
    compare_memories();
    count("setup", got.number);
    return got;
  }

  // Parameters within the rules, often at their edges.
  void choose_rules(uint8_t &m, uint32_t &f, uint32_t &c) {
    m = static_cast<uint8_t>(random.percent(60) ? random.below(4) : random.below(16));
    const uint32_t leak = uint32_t{1} << m;
    const uint32_t most = 16777216 / leak;
    const uint64_t kind = random.below(10);
    if (kind < 2) f = leak;
    else if (kind < 8) f = leak + static_cast<uint32_t>(random.below(leak * (most > 8 ? 4 : 1) + 1));
    else if (kind < 9) f = static_cast<uint32_t>(random.between(leak, 16777216));
    else f = 16777216;
    const uint64_t delay = random.percent(60) ? n - 1u : random.below(n);
    c = f + static_cast<uint32_t>(delay * leak + (random.once_in(3) ? 0 : random.below(leak)));
  }
  void break_rules(uint8_t &m, uint32_t &f, uint32_t &c) {
    const uint32_t leak = uint32_t{1} << m;
    switch (random.below(7)) {
    case 0: m = random.pick<uint8_t>({16, 17, 31, 32, 33, 63, 64, 255}); break;
    case 1: f = leak - 1; break;
    case 2: c = f - 1; break;
    case 3: c = f + leak * n; break;
    case 4: f = 16777217, c = f; break;
    case 5: f = 0, c = random.pick<uint32_t>({0, 1, UINT32_MAX}); break;
    case 6: c = UINT32_MAX; break;
    }
  }
  uint16_t any_vci() {
    if (random.percent(80)) return random.pick(favourites);
    return random.pick<uint16_t>({0, 1, record.split_vci, static_cast<uint16_t>(record.split_vci - 1), static_cast<uint16_t>(v - 1), v, static_cast<uint16_t>(v + 1), 65535,
                                  static_cast<uint16_t>(random.below(v)),
                                  static_cast<uint16_t>(v + random.pick(favourite_paths))});
  }
  uint16_t any_vpi() {
    if (random.percent(80)) return random.pick(favourite_paths);
    return random.pick<uint16_t>({0, 1, 2, record.split_path, static_cast<uint16_t>(record.split_path - 1), 254, 255, 256, 256, 257, 511, 4095, 65535, v, static_cast<uint16_t>(random.below(256)),
                                  static_cast<uint16_t>(v + random.pick(favourite_paths))});
  }

  // A second bucket within its limits: mostly slower than the peak and with a tolerance of some
  // cells, so that a VC that keeps to its peak meets the tolerance's end; often at an edge.
  void choose_second(const calls::Rates &peak, uint8_t &m, uint32_t &f, uint32_t &c) {
    m = static_cast<uint8_t>(random.percent(60) ? random.below(4) : random.below(16));
    const uint64_t kind = random.below(10), times = random.between(1, 4);
    uint64_t fill = (uint64_t{peak.f} * times << m) >> peak.m;
    if (kind == 0) fill = random.pick<uint64_t>({1, 16777216});
    else if (kind == 1) fill = random.between(1, 16777216);
    else if (kind == 2) fill = random.between(1, (uint64_t{1} << m) + 1);
    else fill += random.below((uint64_t{1} << m) + 1);
    fill = std::min<uint64_t>(std::max<uint64_t>(fill, 1), 16777216);
    uint64_t most = fill * random.between(1, 5);
    most += random.below(fill);
    if (random.once_in(4)) most = fill;
    if (random.once_in(10)) most = random.pick<uint64_t>({1073741824, 1073741823});
    f = static_cast<uint32_t>(fill), c = static_cast<uint32_t>(std::min<uint64_t>(most, 1073741824));
  }
  void break_limits(calls::Rates &rates) {
    switch (random.below(9)) {
    case 0: rates.m2 = random.pick<uint8_t>({16, 17, 31, 32, 33, 63, 64, 255}); break;
    case 1: rates.f2 = 0; break;
    case 2: rates.f2 = 16777217, rates.c2 = random.pick<uint32_t>({16777217, 33554434}); break;
    case 3: rates.c2 = rates.f2 - 1; break;
    case 4: rates.c2 = random.pick<uint32_t>({1073741825, UINT32_MAX}); break;
    case 5: rates.tag = random.pick<uint8_t>({2, 3, 128, 255}); break;
    case 6: rates.f2 = rates.c2 = 0, rates.m2 = random.pick<uint8_t>({1, 15, 16}), rates.tag = 0; break;
    case 7: rates.f2 = rates.c2 = 0, rates.m2 = 0, rates.tag = random.pick<uint8_t>({1, 1, 2}); break;
    case 8: rates.f2 = 0, rates.c2 = 1; break;
    }
  }

  void any_open() {
    const uint64_t kind = random.below(100);
    if (kind < 20) open();
    else open_of(named(kind >= 60, kind < 60 ? any_vci() : any_vpi()));
  }
  void open_of(calls::Name name) {
    if (name.path) open_path(name);
    else open_sustained(name);
  }
  calls::Rates peak_alone() {
    calls::Rates rates{};
    choose_rules(rates.m, rates.f, rates.c);
    return rates;
  }
  void open() {
    begin_call("open");
    calls::Rates rates = peak_alone();
    if (random.percent(15)) break_rules(rates.m, rates.f, rates.c);
    const calls::Name name = named(false, any_vci());
    const size_t lent = words_lent();
    const uint16_t expected = calls::open(record, memory.vcs.lend_ours(lent), name, rates);
    const uint16_t got = clurimoon_open(record, memory.vcs.lend_theirs(lent, random.once_in(2)), lent, name.owner, name.number, rates.m,
                                        rates.f, rates.c);
    opened("open", expected, got);
    if (old && fresh && got != 2) old->open(name, rates, got);
  }
  calls::Rates any_rates() {
    calls::Rates rates = peak_alone();
    if (random.percent(90)) {
      choose_second(rates, rates.m2, rates.f2, rates.c2);
      rates.tag = random.percent(60) ? 1 : 0;
    }
    if (random.percent(15)) break_limits(rates);
    if (random.percent(8)) break_rules(rates.m, rates.f, rates.c);
    return rates;
  }
  void open_sustained(calls::Name name) {
    begin_call("open_sustained");
    const calls::Rates rates = any_rates();
    const size_t lent = words_lent();
    const uint16_t expected = calls::open(record, memory.vcs.lend_ours(lent), name, rates);
    const uint16_t got =
        clurimoon_open_sustained(record, memory.vcs.lend_theirs(lent, random.once_in(2)), lent, name.owner, name.number, rates.m, rates.f,
                                 rates.c, rates.m2, rates.f2, rates.c2, rates.tag);
    opened("open_sustained", expected, got);
    if (old && fresh && got != 2) old->open(name, rates, got);
  }
  void open_path(calls::Name name) {
    begin_call("open_path");
    const calls::Rates rates = any_rates();
    const size_t lent = words_lent();
    const uint16_t expected = calls::open(record, memory.vcs.lend_ours(lent), name, rates);
    const uint16_t got = clurimoon_open_path(record, memory.vcs.lend_theirs(lent, random.once_in(2)), lent, name.owner, name.number, rates.m,
                                             rates.f, rates.c, rates.m2, rates.f2, rates.c2, rates.tag);
    opened("open_path", expected, got);
    if (old && fresh && got != 2) old->open(name, rates, got);
  }
  void opened(const char *call, uint16_t expected, uint16_t got) {
    same<uint64_t>("number", expected, got);
    compare_memories();
    count(call, got);
    never_3(got);
  }
  void close() {
    if (random.once_in(2)) close_of(named(false, any_vci()));
    else close_of(named(true, any_vpi()));
  }
  void close_of(calls::Name name) {
    const char *const call = name.path ? "close_path" : "close";
    begin_call(call);
    const size_t lent = words_lent();
    const uint16_t expected = calls::close(record, memory.vcs.lend_ours(lent), name);
    uint32_t *const words = memory.vcs.lend_theirs(lent, random.once_in(2));
    const uint16_t got = (name.path ? clurimoon_close_path : clurimoon_close)(record, words, lent, name.owner, name.number);
    same<uint64_t>("number", expected, got);
    compare_memories();
    count(call, got);
    never_3(got);
    if (old && fresh && got != 2) old->close(name, got);
  }
  void never_3(unsigned number) const {
    if (fresh && number == 3) fail("refusal 3 from a fresh state");
  }

  // A cell: mostly of a favourite VC or path, with any GFC, PTI, CLP, HEC and payload.
  void write_cell(uint8_t *cell) {
    for (size_t k = 0; k < 53; k += 8) {
      const uint64_t octets = random.next();
      std::memcpy(cell + k, &octets, 53 - k < 8 ? 53 - k : 8);
    }
    uint32_t vpi = 0, vci = random.pick(favourites);
    if (random.percent(of_paths)) vpi = random.pick(favourite_paths), vci = any_vci_of_a_path();
    const uint64_t kind = random.below(100);
    if (kind < 4) vpi = random.pick<uint32_t>({1, 15, 16, 128, 240, 255, random.pick(favourite_paths)});
    if (kind >= 4 && kind < 8) vci = any_vci();
    if (kind == 8) vci = 0;
    if (kind == 9) vpi = static_cast<uint32_t>(random.below(256)), vci = static_cast<uint32_t>(random.below(65536));
    if (kind == 10) vpi = vci = 0;
    // at the NNI four bits more, above a VC's header or a path's
    if (kind >= 11 && kind < 15) vpi |= 256 * random.pick<uint32_t>({1, 2, 8, 15, static_cast<uint32_t>(random.between(1, 15))});
    put_header(cell, vpi, vci);
    if (record.raw == 1) put_octet_5(cell);
  }
  uint32_t any_vci_of_a_path() {
    return random.pick<uint32_t>({0, random.pick(favourites), any_vci(), 65535, static_cast<uint32_t>(random.below(65536))});
  }
  // Where headers are checked octet 5 is mostly right; else some of the forty bits are wrong.
  void put_octet_5(uint8_t *cell) {
    second::Header header;
    std::copy_n(cell, 5, header.begin());
    header[4] = second::octet5(header);
    if (random.percent(wrong)) {
      const uint64_t kind = random.below(10);
      for (uint64_t bits = kind < 7 ? 1 : kind < 8 ? 2 : kind < 9 ? 3 : random.between(4, 9); bits > 0; --bits)
        header = second::with_bit_changed(header, static_cast<unsigned>(random.below(40)));
    }
    std::copy_n(header.begin(), 5, cell);
  }
  // At the NNI a VPI of twelve bits, at the UNI one of eight, and the GFC stays what it was.
  void put_header(uint8_t *cell, uint32_t vpi, uint32_t vci) const {
    cell[0] = static_cast<uint8_t>(record.kind == CLURIMOON_NNI ? vpi >> 4 : (cell[0] & 0xf0) | (vpi >> 4 & 15));
    cell[1] = static_cast<uint8_t>((vpi & 15) << 4 | vci >> 12);
    cell[2] = static_cast<uint8_t>(vci >> 4);
    cell[3] = static_cast<uint8_t>((vci & 15) << 4 | (cell[3] & 15));
  }

  void slot() {
    begin_call("slot");
    uint8_t cell[64];
    write_cell(cell);
    uint8_t before[64];
    std::memcpy(before, cell, sizeof cell);
    size_t length = random.percent(load) ? 53 : 0;
    if (random.once_in(80)) length = random.pick<size_t>({1, 5, 52, 54, 64});
    const Lengths lent = usual_lengths();
    const clurimoon_served expected = calls::slot(record, lend_ours(lent), {cell, length});
    const clurimoon_served got =
        clurimoon_slot(record, memory.cells.lend_theirs(lent.cells, lent.null), lent.cells,
                       memory.links.lend_theirs(lent.links, lent.null), lent.links,
                       memory.calendar.lend_theirs(lent.calendar, lent.null), lent.calendar,
                       memory.vcs.lend_theirs(lent.vcs, lent.null), lent.vcs,
                       memory.bits.lend_theirs(lent.bits, lent.null), lent.bits,
                       memory.arrived.lend_theirs(lent.arrived, lent.null), lent.arrived,
                       length == 0 && lent.null ? nullptr : cell, length);
    same("answer", expected.answer, got.answer);
    same_record(expected.record, got.record);
    compare_memories();
    if (std::memcmp(cell, before, sizeof cell) != 0) fail("the arriving cell was written");
    record = got.record;
    count("slot", got.answer.number);
    never_3(got.answer.number);
    if (got.answer.number == 0) last = got.answer, seen(got.record.t, got.answer), follow();
    if (!old || !fresh || got.answer.number == 2) return;
    uint8_t departed[53] = {};
    std::optional<uint32_t> arrival;
    for (size_t k = 0; k < 53 && got.answer.space < n; ++k) departed[k] = memory.cells.get(size_t{53} * got.answer.space + k);
    if (got.answer.space < n) arrival = memory.arrived.get(got.answer.space);
    old->slot(cell, length, got.answer, departed, arrival);
  }
  void seen(uint32_t t, const clurimoon_answer &a) {
    if (a.verdict > 5) fail("a verdict above 5");
    verdicts[a.verdict] += 1;
    sent += a.space != none;
    if (fresh) recount.slot(t, a.verdict, a.vci, a.out_vci);
  }
  // In a fresh state the tally of one connection takes each slot, and stays what is counted from the answers.
  void follow() {
    if (!fresh) return;
    call_name = "tally_slot";
    const Lent<uint32_t> arrived = memory.arrived.lend_ours(n);
    const clurimoon_tallied expected = calls::tally_slot(recount.tallied, record, {arrived.at, n}, recount.followed, last.space, last.out_vci);
    const clurimoon_tallied got =
        clurimoon_tally_slot(recount.tallied, record, memory.arrived.lend_theirs(n, false), n, recount.followed, last.space, last.out_vci);
    same_tallied(expected, got);
    if (got.number != 0) fail("a tally was refused in a fresh state");
    recount.tallied = got.tally;
    recount.compare();
    followed_sent += last.out_vci == recount.followed;
    call_name = "slot";
  }
  void same_tallied(const clurimoon_tallied &expected, const clurimoon_tallied &got) {
    same<uint64_t>("number", expected.number, got.number);
    same_tally(expected.tally, got.tally);
    memory.arrived.compare("arrival slots");
  }

  // A tally by chance, mostly of what the last slot sent.
  uint16_t any_connection() {
    if (random.percent(75)) return last.out_vci != 0 && random.once_in(2) ? last.out_vci : likely_connection();
    return random.pick<uint16_t>({0, 1, static_cast<uint16_t>(v - 1), v, v, static_cast<uint16_t>(v + 1), static_cast<uint16_t>(v + 255),
                                  static_cast<uint16_t>(v + 256), static_cast<uint16_t>(v + 256), static_cast<uint16_t>(v + 257), 65535, any_vci()});
  }
  void tally_slot() {
    begin_call("tally_slot");
    const clurimoon_tally tally = any_tally(random);
    clurimoon_record asked = record;
    if (random.once_in(25)) asked.n = random.pick<uint16_t>({0, 1025, 65535, static_cast<uint16_t>(n + 1)});
    if (random.once_in(25)) asked.v = random.pick<uint16_t>({0, 1, 1025, 65535});
    const uint16_t connection = any_connection(), any = static_cast<uint16_t>(random.next());
    const uint16_t out = random.percent(70) ? connection : random.pick<uint16_t>({0, last.out_vci, any, static_cast<uint16_t>(connection + 1)});
    uint16_t space = random.percent(60) && last.space < n ? last.space : static_cast<uint16_t>(random.below(n));
    if (random.once_in(6)) space = random.pick<uint16_t>({static_cast<uint16_t>(n - 1), n, n, static_cast<uint16_t>(n + 1), 1024, none, any});
    // The arrival slot is another for this call, now and then: at an edge of the bins, or anything.
    const uint32_t kept = memory.arrived.get(space < n ? space : 0);
    const bool another = random.once_in(3) && space < n;
    if (another) memory.arrived.set(space, record.t - random.pick<uint32_t>({0, 1, 61, 62, 63, 64, 1023, UINT32_MAX, static_cast<uint32_t>(random.next())}));
    const size_t lent = random.once_in(12) ? wrong_arrived() : n;
    const Lent<uint32_t> arrived = memory.arrived.lend_ours(lent);
    const clurimoon_tallied expected = calls::tally_slot(tally, asked, {arrived.at, lent}, connection, space, out);
    const clurimoon_tallied got =
        clurimoon_tally_slot(tally, asked, memory.arrived.lend_theirs(lent, random.once_in(2)), lent, connection, space, out);
    same_tallied(expected, got);
    count("tally_slot", got.number);
    if (another) memory.arrived.set(space, kept);
  }
  void percentile() {
    begin_call("percentile");
    const clurimoon_tally tally = fresh && random.once_in(4) ? recount.tallied : any_tally(random);
    const uint16_t share = any_share(tally, random);
    const clurimoon_bin expected = calls::percentile(tally, share), got = clurimoon_percentile(tally, share);
    same<uint64_t>("number", expected.number, got.number);
    same<uint64_t>("bin", expected.bin, got.bin);
    count("percentile", got.number);
  }

  void burst() {
    begin_call("burst");
    const size_t slots = random.pick<size_t>({0, 1, 2, 3, 7, 16, 40});
    Twin<uint8_t> arrivals, sizes, departures;
    Twin<uint16_t> answers;
    arrivals.resize(53 * slots, {0xa5}), sizes.resize(slots, {53});
    departures.resize(53 * slots, {0xa5}), answers.resize(6 * slots, {0xa5a5});
    const bool odd_sizes = random.once_in(8);
    for (size_t k = 0; k < slots; ++k) {
      uint8_t cell[53];
      write_cell(cell);
      for (size_t octet = 0; octet < 53; ++octet) arrivals.set(53 * k + octet, cell[octet]);
      sizes.set(k, random.percent(load) ? 53 : 0);
      if (odd_sizes && random.once_in(6)) sizes.set(k, random.pick<uint8_t>({1, 52, 54, 255}));
    }
    size_t lent_arrivals = 53 * slots, lent_departures = 53 * slots, lent_answers = 6 * slots;
    size_t lent_sizes = slots;
    if (random.once_in(15)) {
      size_t *const which =
          random.pick<size_t *>({&lent_arrivals, &lent_departures, &lent_answers, &lent_sizes});
      *which = *which == 0 || random.once_in(2) ? *which + 1 : *which - 1;
    }
    Lengths lent = usual_lengths();
    const auto our_arrivals = arrivals.lend_ours(lent_arrivals), our_sizes = sizes.lend_ours(lent_sizes);
    // With a tally, in a fresh state mostly that of the connection that is followed; else its count begins anew.
    const bool tallies = random.once_in(2), followed = tallies && fresh && random.percent(70);
    const clurimoon_tally tally = followed ? recount.tallied : any_tally(random);
    const uint16_t connection = followed ? recount.followed : any_connection();
    if (tallies && !followed && random.once_in(12)) lent.arrived = wrong_arrived();
#define THEIRS                                                                                               \
  record, memory.cells.lend_theirs(lent.cells, lent.null), lent.cells,                                       \
      memory.links.lend_theirs(lent.links, lent.null), lent.links,                                           \
      memory.calendar.lend_theirs(lent.calendar, lent.null), lent.calendar,                                  \
      memory.vcs.lend_theirs(lent.vcs, lent.null), lent.vcs, memory.bits.lend_theirs(lent.bits, lent.null),  \
      lent.bits, memory.arrived.lend_theirs(lent.arrived, lent.null), lent.arrived,                          \
      arrivals.lend_theirs(lent_arrivals, lent.null), lent_arrivals, sizes.lend_theirs(lent_sizes, lent.null), \
      lent_sizes, departures.lend_theirs(lent_departures, lent.null), lent_departures,                       \
      answers.lend_theirs(lent_answers, lent.null), lent_answers
#define OURS                                                                                                 \
  record, lend_ours(lent), {our_arrivals.at, our_arrivals.length}, {our_sizes.at, our_sizes.length},         \
      departures.lend_ours(lent_departures), answers.lend_ours(lent_answers)
    clurimoon_burst_end expected{}, got{};
    if (tallies) {
      call_name = "burst_tallied";
      const clurimoon_burst_tally ours = calls::burst_tallied(tally, connection, OURS);
      const clurimoon_burst_tally theirs = clurimoon_burst_tallied(tally, connection, THEIRS);
      expected = ours.end, got = theirs.end;
      same_tally(ours.tally, theirs.tally);
      if (followed) recount.tallied = theirs.tally;
    } else {
      expected = calls::burst(OURS), got = clurimoon_burst(THEIRS);
    }
#undef OURS
#undef THEIRS
    same<uint64_t>("number", expected.number, got.number);
    same<uint64_t>("done", expected.done, got.done);
    same_record(expected.record, got.record);
    compare_memories();
    arrivals.compare("arrivals"), sizes.compare("sizes");
    departures.compare("departures"), answers.compare("answers");
    record = got.record;
    count(call_name, got.number);
    if (!tallies || followed) never_3(got.number);
    burst_slots += got.done;
    const uint64_t left = recount.left;
    for (size_t k = 0; k < got.done; ++k) {
      const clurimoon_answer answer = {answers.get(6 * k),     answers.get(6 * k + 1), answers.get(6 * k + 2),
                                       answers.get(6 * k + 3), answers.get(6 * k + 4), answers.get(6 * k + 5)};
      seen(static_cast<uint32_t>(got.record.t - (got.done - 1 - k)), answer);
      last = answer;
      if (!old || !fresh) continue;
      uint8_t cell[53], departed[53];
      for (size_t i = 0; i < 53; ++i) cell[i] = arrivals.get(53 * k + i), departed[i] = departures.get(53 * k + i);
      old->slot(cell, sizes.get(k), answer, departed, std::nullopt);
    }
    if (followed) recount.compare(), followed_sent_in_bursts += recount.left - left;
    else if (fresh && got.done != 0) recount.begin(likely_connection());
  }

  void line() {
    begin_call("line");
    const size_t lent_cells = random.percent(70)
                                  ? memory.cells.size()
                                  : random.pick<size_t>({0, 52, 53, 54, 106, 53 * 1024, 53 * 1025,
                                                         memory.cells.size() - 1, memory.cells.size() + 1});
    const size_t lent_idle = random.percent(85) ? 53 : random.pick<size_t>({0, 1, 52, 54});
    const uint16_t number =
        random.pick<uint16_t>({none, 0, static_cast<uint16_t>(n - 1), n, 65534, record.out_head,
                               static_cast<uint16_t>(random.below(n)), static_cast<uint16_t>(random.next())});
    const clurimoon_part expected = calls::line(lent_cells, lent_idle, number);
    // Lengths alone decide, so any cells will do, as many as are lent.
    static const std::vector<uint8_t> any_cells(53 * 1025 + 1);
    const clurimoon_part got = clurimoon_line(lent_cells == 0 ? nullptr : any_cells.data(), lent_cells,
                                              lent_idle == 0 ? nullptr : any_cells.data(), lent_idle, number);
    same<uint64_t>("from_idle", expected.from_idle, got.from_idle);
    same<uint64_t>("start", expected.start, got.start);
    same<uint64_t>("length", expected.length, got.length);
    (got.length == 0 ? parts_empty : got.from_idle ? parts_idle : parts_cell) += 1;
    met["line"][0] += 1;
  }

  void audit() {
    begin_call("audit");
    const Lengths lent = usual_lengths();
    const bool expected = calls::audit(record, lend_ours(lent));
    const bool got = clurimoon_audit(record, memory.cells.lend_theirs(lent.cells, lent.null), lent.cells,
                                     memory.links.lend_theirs(lent.links, lent.null), lent.links,
                                     memory.calendar.lend_theirs(lent.calendar, lent.null), lent.calendar,
                                     memory.vcs.lend_theirs(lent.vcs, lent.null), lent.vcs,
                                     memory.bits.lend_theirs(lent.bits, lent.null), lent.bits,
                                     memory.arrived.lend_theirs(lent.arrived, lent.null), lent.arrived);
    same<uint64_t>("yes", expected, got);
    compare_memories();
    const bool right = lent.cells == memory.cells.size() && lent.links == memory.links.size() &&
                       lent.calendar == memory.calendar.size() && lent.vcs == memory.vcs.size() &&
                       lent.bits == memory.bits.size() && lent.arrived == memory.arrived.size();
    if (fresh && right && !got) fail("the audit says no in a fresh state");
    (got ? audits_yes : audits_no) += 1;
    met["audit"][0] += 1;
  }

  // How long until something leaves. It is lent calendar and bits alone; whatever the other three would be, it answers.
  void next() {
    begin_call("next");
    const Lengths lent = random.once_in(20) ? wrong_lengths() : lengths();
    const Lent<uint16_t> calendar = memory.calendar.lend_ours(lent.calendar);
    const Lent<uint64_t> bits = memory.bits.lend_ours(lent.bits);
    const clurimoon_wait expected = calls::next(record, {calendar.at, calendar.length}, {bits.at, bits.length});
    const clurimoon_wait got = clurimoon_next(record, memory.calendar.lend_theirs(lent.calendar, lent.null), lent.calendar,
                                              memory.bits.lend_theirs(lent.bits, lent.null), lent.bits);
    same<uint64_t>("number", expected.number, got.number);
    same<uint64_t>("slots", expected.slots, got.slots);
    compare_memories();
    count("next", got.number);
    never_3(got.number);
    if (got.number != 0 || lent.calendar != memory.calendar.size() || lent.bits != memory.bits.size()) return;
    if (n <= 130 || random.once_in(6)) as_walked(got.slots);
  }
  // In a state that the audit says yes to: the answer is that of the full walk over the entries, and of the slots to come, lent
  // no cell, the one that it names is the first to send.
  void as_walked(uint16_t slots) {
    const calls::Tally before = calls::tally;
    const bool sound = calls::audit(record, lend_ours(lengths()));
    calls::tally = before;
    if (!sound) {
      if (fresh) fail("a fresh state is not sound");
      return;
    }
    const Lent<uint16_t> calendar = memory.calendar.lend_ours(memory.calendar.size());
    same<uint64_t>("slots, by a walk over the entries", calls::walked(record, {calendar.at, calendar.length}), slots);
    (slots == 0 ? walked_none : walked_some) += 1;
    if (n <= 130 || random.once_in(3)) as_left(slots);
  }
  void as_left(uint16_t slots) {
    const size_t quiet = slots == 0 ? size_t{n} + random.below(4) : slots + random.below(3);
    Memories asleep = memory;
    std::vector<uint8_t> arrivals(53 * quiet, 0xa5), sizes(quiet, 0), departures(53 * quiet);
    std::vector<uint16_t> answers(6 * quiet);
    const clurimoon_burst_end end = clurimoon_burst(
        record, asleep.cells.lend_theirs(asleep.cells.size(), false), asleep.cells.size(),
        asleep.links.lend_theirs(asleep.links.size(), false), asleep.links.size(),
        asleep.calendar.lend_theirs(asleep.calendar.size(), false), asleep.calendar.size(),
        asleep.vcs.lend_theirs(asleep.vcs.size(), false), asleep.vcs.size(),
        asleep.bits.lend_theirs(asleep.bits.size(), false), asleep.bits.size(),
        asleep.arrived.lend_theirs(asleep.arrived.size(), false), asleep.arrived.size(), arrivals.data(), arrivals.size(), sizes.data(),
        sizes.size(), departures.data(), departures.size(), answers.data(), answers.size());
    if (end.number != 0 || end.done != quiet) fail("an empty slot was refused in a sound state");
    size_t first = 0;
    for (size_t k = 0; k < quiet && first == 0; ++k)
      if (answers[6 * k + CLURIMOON_ANSWER_SPACE] != none) first = k + 1;
    same<uint64_t>("slots, by what then leaves", first, slots);
    left_asleep += 1, slots_asleep += quiet;
  }

  void calls_for(uint64_t count) {
    for (; count > 0; --count) {
      const uint64_t kind = random.below(100);
      if (kind < 55) slot();
      else if (kind < 58) tally_slot();
      else if (kind < 60) percentile();
      else if (kind < 66) next();
      else if (kind < 72) any_open();
      else if (kind < 78) close();
      else if (kind < 82) line();
      else if (kind < 94) audit();
      else burst();
    }
  }
};

} // namespace memories
