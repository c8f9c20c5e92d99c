// A scenario: a fresh policer under traffic, and mostly damage to what it stores,
// aimed at what the next slots are likely to read.
#pragma once
#include "policer.hpp"

namespace memories {

class Scenario : private Policer {
public:
  explicit Scenario(uint64_t seed) : Policer(seed) {}

  void run() {
    if (random.once_in(25)) return begin_beyond(), calls_for(30);
    choose_sizes();
    if (!begin()) return;
    const bool damage_it = random.percent(70);
    calls_for(random.between(4, damage_it ? 60 : random.once_in(15) ? 3000 : 250));
    for (uint64_t round = damage_it ? random.between(2, 12) : 0; round > 0; --round) {
      keep();
      if (random.percent(45)) queue_up();
      for (uint64_t k = random.pick<uint64_t>({1, 1, 1, 2, 3, 8}); k > 0; --k) damage();
      if (random.once_in(3)) audit();
      calls_for(random.between(1, 14));
      // Going on in a damaged state now and then shows how it develops.
      if (random.percent(80)) restore();
      calls_for(random.between(0, 25));
    }
  }

private:
  Memories kept;
  clurimoon_record kept_record{};
  Recount kept_recount;
  bool kept_fresh = true;

  void keep() { kept = memory, kept_record = record, kept_recount = recount, kept_fresh = fresh; }
  void restore() { memory = kept, record = kept_record, recount = kept_recount, fresh = kept_fresh; }

  // A 16-bit number at an edge of something.
  uint16_t edge_number() {
    return random.pick<uint16_t>({0, 1, static_cast<uint16_t>(n - 1), n, static_cast<uint16_t>(n + 1), 65534,
                                  none, static_cast<uint16_t>(random.below(n)),
                                  static_cast<uint16_t>(random.below(n)),
                                  static_cast<uint16_t>(random.next()), static_cast<uint16_t>(v - 1), v,
                                  static_cast<uint16_t>(v + 255), static_cast<uint16_t>(v + 256)});
  }
  // The connection of the cell that leaves next, or 0.
  uint16_t next_departing() const {
    const uint16_t space = record.out_head < n ? record.out_head : next_due_space();
    if (space >= n) return 0;
    const auto octet = [&](size_t k) { return static_cast<size_t>(memory.cells.get(size_t{53} * space + k)); };
    const size_t vpi = (record.kind == CLURIMOON_NNI ? octet(0) : octet(0) % 16) * 16 + octet(1) / 16;
    const size_t vci = octet(1) % 16 * 4096 + octet(2) * 16 + octet(3) / 16;
    const size_t connection = vpi == 0 ? vci : v + vpi;
    return static_cast<uint16_t>(connection < connections() ? connection : 0);
  }
  // The connection that the next slots are likely to read.
  uint16_t next_read() {
    if (random.percent(25) && next_departing() != 0) return next_departing();
    if (random.percent(30)) return static_cast<uint16_t>((record.rotation + 1u) % connections());
    return random.percent(85) ? likely_connection() : static_cast<uint16_t>(random.below(connections()));
  }
  // The space that the next slots are likely to read.
  uint16_t likely_space() {
    const uint16_t space = random.pick<uint16_t>({lowest_free(), record.out_head, record.out_head, record.out_tail,
                                                  next_due_space(), next_due_space(), any_queued(), any_queued(),
                                                  static_cast<uint16_t>(random.below(n))});
    return space < n ? space : static_cast<uint16_t>(random.below(n));
  }
  bool is_free(size_t space) const { return (memory.bits.get(space / 64) >> space % 64 & 1) != 0; }
  void set_free(size_t space, bool free) {
    const uint64_t bit = uint64_t{1} << space % 64, word = memory.bits.get(space / 64);
    memory.bits.set(space / 64, free ? word | bit : word & ~bit);
  }
  bool is_marked(size_t entry) const { return (memory.bits.get(free_words + entry / 64) >> entry % 64 & 1) != 0; }
  void set_mark(size_t entry, bool to) {
    const size_t at = free_words + entry / 64;
    const uint64_t bit = uint64_t{1} << entry % 64, word = memory.bits.get(at);
    memory.bits.set(at, to ? word | bit : word & ~bit);
  }
  uint16_t lowest_free() const {
    for (uint16_t space = 0; space < n; ++space)
      if (is_free(space)) return space;
    return none;
  }
  size_t likely_entry() {
    return random.percent(50) ? size_t{(record.T + 1u) % n} : (record.T + random.below(n)) % n;
  }
  // A space of a chain, mostly not its head.
  uint16_t any_queued() {
    uint16_t space = random.once_in(3) ? record.out_head : memory.calendar.get(2 * random.below(n));
    for (uint64_t k = random.below(6); k > 0 && space < n && memory.links.get(space) < n; --k) space = memory.links.get(space);
    return space;
  }
  uint16_t next_due_space() const { return memory.calendar.get(2 * ((record.T + 1u) % n)); }

  // Free spaces, some or all, become queued cells of one open connection: behind the Output List, or in an empty entry.
  // The audit's yes stays, though no fresh policer comes there: long chains, spaces of every word, a memory that is full.
  void queue_up() {
    const bool output_fits = record.out_head == none ? record.out_tail == none : record.out_head < n && record.out_tail < n;
    if (record.kind > 1 || record.free == 0 || !output_fits) return;
    size_t connection = 0;
    for (size_t k = 0, from = random.below(connections()); k < connections() && connection == 0; ++k) {
      const size_t c = (from + k) % connections();
      if (c != 0 && c != v && memory.vcs.get(words_per_connection * c) == 1) connection = c;
    }
    std::vector<uint16_t> spaces;
    for (uint16_t space = 0; space < n; ++space)
      if (is_free(space)) spaces.push_back(space);
    if (connection == 0 || spaces.size() != record.free) return;
    const size_t waiting_at = words_per_connection * connection + 6;
    if (memory.vcs.get(waiting_at) + spaces.size() > n) return;
    // The lowest ones go, and what is taken next stands above them; or the highest leaves first; or in any order.
    const uint64_t order = random.below(3);
    if (order == 1) std::reverse(spaces.begin(), spaces.end());
    for (size_t k = order == 2 ? spaces.size() : 1; k > 1; --k) std::swap(spaces[k - 1], spaces[random.below(k)]);
    const size_t free = spaces.size(), left = random.pick<size_t>({0, 0, 1, 1, 2, 3, free / 2, free - 1});
    spaces.resize(free - std::min(left, free - 1));
    const size_t entry = random.once_in(2) ? (record.T + 1u) % n : (record.T + random.between(1, n)) % n;
    const bool output = entry == record.T || memory.calendar.get(2 * entry) != none || random.once_in(3);
    if (output && record.out_head == none) record.out_head = spaces[0];
    else if (output) memory.links.set(record.out_tail, spaces[0]);
    if (output) record.out_tail = spaces.back();
    else memory.calendar.set(2 * entry, spaces[0]), memory.calendar.set(2 * entry + 1, spaces.back()), set_mark(entry, true);
    for (size_t k = 0; k < spaces.size(); ++k) {
      if (k + 1 < spaces.size()) memory.links.set(spaces[k], spaces[k + 1]);
      store_header(spaces[k], connection > v ? static_cast<uint32_t>(connection - v) : 0, connection > v ? 5 : static_cast<uint32_t>(connection));
      set_free(spaces[k], false);
    }
    record.free = static_cast<uint16_t>(record.free - spaces.size());
    memory.vcs.set(waiting_at, memory.vcs.get(waiting_at) + static_cast<uint32_t>(spaces.size()));
    fresh = false;
    if (random.once_in(2)) audit();
    if (random.once_in(2)) next();
  }
  void store_header(size_t space, uint32_t vpi, uint32_t vci) {
    uint8_t cell[4];
    for (size_t k = 0; k < 4; ++k) cell[k] = memory.cells.get(53 * space + k);
    put_header(cell, vpi, vci);
    for (size_t k = 0; k < 4; ++k) memory.cells.set(53 * space + k, cell[k]);
  }

  void damage() {
    fresh = false;
    damages += 1;
    switch (random.below(39)) {
    case 0: damage_record(); break;
    case 1: memory.links.set(likely_space(), edge_number()); break;
    case 2: memory.calendar.set(2 * likely_entry() + random.below(2), edge_number()); break;
    case 3:
    case 4:
    case 5:
    case 28: damage_connection(); break;
    case 6: damage_pair(); break;
    case 7: alias_pairs(); break;
    case 8: memory.links.set(likely_space(), likely_space()); break;
    case 9: damage_header(); break;
    case 10: memory.links.set(likely_space(), random.pick<uint16_t>({n, none})); break;
    case 11: shift_clock(); break;
    case 12: hide_space(); break;
    case 13: mark_entry_T(); break;
    case 14:
    case 24:
    case 25: damage_spaces(); break;
    case 26: aim_bits_above(); break;
    case 27: share_spaces(); break;
    case 15:
    case 16:
    case 17: damage_second(); break;
    case 18: record.kind = random.pick<uint16_t>({0, 1, 2, 2, 256, 257, 65535}); break;
    case 19: record.kind = static_cast<uint16_t>(record.kind ^ 1); break;
    case 20: aim_rotation(), damage_connection(); break;
    case 21: aim_rotation(), damage_second(); break;
    case 22: damage_header(); break;
    case 23: record.rotation = random.pick<uint16_t>({static_cast<uint16_t>(v - 1), v, static_cast<uint16_t>(v + 254), static_cast<uint16_t>(v + 255), static_cast<uint16_t>(v + 256), 65535}); break;
    case 29:
    case 30: damage_marks(); break;
    case 31:
    case 32: aim_next(); break;
    // So far on that cells join the calendar's last words, or close the ring.
    case 33: record.T = static_cast<uint16_t>(n - random.between(1, std::min<uint64_t>(n, 60))); break;
    case 34: damage_splits(); break;
    case 35: damage_arrived(); break;
    case 36: shift_clock(); break;
    case 37: record.raw = random.pick<uint16_t>({0, 1, 1, 2, 256, 65535}); break;
    case 38: record.mode = random.pick<uint16_t>({0, 1, 1, 2, 256, 65535}); break;
    }
  }
  // Splits out of their ranges, or moved past a connection in use; an open or a close reads them, a slot doesn't.
  void damage_splits() {
    if (random.once_in(2)) record.split_vci = random.pick<uint16_t>({0, v, static_cast<uint16_t>(v + 1), 65535, random.pick(favourites)});
    else record.split_path = random.pick<uint16_t>({0, 256, 257, 65535, random.pick(favourite_paths)});
    if (random.once_in(2)) open_of(name_of(likely_connection()));
    else close();
  }
  // A connection in use is the next that rotation names. A sound state stays sound.
  void aim_rotation() {
    const size_t connection = likely_connection();
    record.rotation = static_cast<uint16_t>((connection + connections() - 1) % connections());
  }
  void damage_record() {
    switch (random.below(10)) {
    case 0: record.n = random.pick<uint16_t>({0, 1025, 65535, static_cast<uint16_t>(n + 1)}); break;
    case 1: record.v = random.pick<uint16_t>({0, 1, 1025, 65535, static_cast<uint16_t>(v + 1)}); break;
    case 2: record.t = random.pick<uint32_t>({0, UINT32_MAX, static_cast<uint32_t>(random.next())}); break;
    case 3: record.T = edge_number(); break;
    case 4: record.rotation = edge_number(); break;
    case 5:
    case 6: record.free = edge_number(); break;
    case 7: record.out_head = edge_number(); break;
    case 8: record.out_tail = edge_number(); break;
    case 9: record.T = static_cast<uint16_t>(random.below(n)); break;
    }
  }
  void damage_connection() {
    const size_t at = words_per_connection * next_read();
    const uint32_t m = memory.vcs.get(at + 1), f = memory.vcs.get(at + 2), c = memory.vcs.get(at + 3);
    const uint32_t leak = m < 16 ? uint32_t{1} << m : 1;
    const uint32_t any = static_cast<uint32_t>(random.next());
    switch (random.below(10)) {
    case 9:
    case 0: memory.vcs.set(at, random.pick<uint32_t>({0, 0, 1, 2, 256, 65536, UINT32_MAX, any})); break;
    case 1:
      memory.vcs.set(at + 1, random.pick<uint32_t>({0, 15, 16, 31, 32, 64, 256, 65536, UINT32_MAX}));
      break;
    case 2:
      memory.vcs.set(at + 2,
                     random.pick<uint32_t>({0, leak - 1, leak, 16777216, 16777217, 16777217, c, c + 1, any}));
      break;
    case 3:
      memory.vcs.set(at + 3,
                     random.pick<uint32_t>({0, f - 1, f, f + n * leak - 1, f + n * leak, UINT32_MAX, any}));
      break;
    case 4: memory.vcs.set(at + 4, random.pick<uint32_t>({0, c, c + 1, c - f, UINT32_MAX, any})); break;
    // An elapsed time whose product with L is a multiple of 2^32, or one slot more.
    case 5:
      memory.vcs.set(
          at + 5, random.pick<uint32_t>({0, record.t, record.t + 1, record.t + 2, UINT32_MAX, any,
                                         record.t - static_cast<uint32_t>((uint64_t{1} << 32) / leak),
                                         record.t + 1 - static_cast<uint32_t>((uint64_t{1} << 32) / leak)}));
      break;
    case 6:
      memory.vcs.set(at + 6, random.pick<uint32_t>({0, 1, n - 1u, n, n + 1u, 65536u + n, UINT32_MAX}));
      break;
    case 7: memory.vcs.set(at + 6, random.pick<uint32_t>({0, n, n + 1u})), memory.vcs.set(at + 4, 0); break;
    case 8: nearly_paid(at, c, leak); break;
    }
    if (random.once_in(6)) close_of(name_of(at / words_per_connection));
    if (random.once_in(8)) open_of(name_of(at / words_per_connection));
  }
  // No cell waits, and S as of t is 0, 1, or 0 with a part of the leak to spare; a
  // close comes next. Now and then the stored S is above C.
  void nearly_paid(size_t at, uint32_t c, uint32_t leak) {
    const uint32_t elapsed = static_cast<uint32_t>(random.below(uint64_t{c} / leak + 1));
    const uint32_t s = elapsed * leak + random.pick<uint32_t>({0, 0, 1, 1, leak, UINT32_MAX});
    memory.vcs.set(at + 4, random.once_in(6) ? c + 1 : s);
    memory.vcs.set(at + 5, random.once_in(4) ? record.t - static_cast<uint32_t>((uint64_t{1} << 32) / leak)
                                             : record.t - elapsed);
    memory.vcs.set(at + 6, 0);
    close_of(name_of(at / words_per_connection));
  }
  // One word of the second bucket, or several that stand at an edge together; each call that reads it may come next.
  void damage_second() {
    const uint16_t connection = next_read();
    const size_t at = words_per_connection * connection + 7;
    const uint32_t f = memory.vcs.get(at + 1), c = memory.vcs.get(at + 2);
    const uint32_t any = static_cast<uint32_t>(random.next());
    switch (random.below(9)) {
    case 0: memory.vcs.set(at, random.pick<uint32_t>({0, 1, 15, 16, 31, 32, 64, 256, 65536, UINT32_MAX})); break;
    case 1: memory.vcs.set(at + 1, random.pick<uint32_t>({0, 0, 1, 16777216, 16777217, c, c + 1, any})); break;
    case 2:
      memory.vcs.set(at + 2, random.pick<uint32_t>({0, f - 1, f - 1, f, 1073741824, 1073741825, UINT32_MAX, any}));
      break;
    case 3: memory.vcs.set(at + 3, random.pick<uint32_t>({0, c, c + 1, c + 1, c - f, c - f + 1, UINT32_MAX, any})); break;
    case 4: memory.vcs.set(at + 4, random.pick<uint32_t>({0, 1, 2, 2, 256, 65536, UINT32_MAX, any})); break;
    case 5: put_second(at, {random.pick<uint32_t>({0, 0, 1, 16}), 0, 0, random.pick<uint32_t>({0, 0, 1}), random.pick<uint32_t>({0, 1, 2})}); break;
    case 6: put_second(at, {15, 16777217, 33554432, 0, 1}); break;
    case 7: put_second(at, {random.pick<uint32_t>({0, 15}), 16777216, random.pick<uint32_t>({1073741824, 1073741825}), 0, 1}); break;
    // Full to the brim, or by one part: the next CLP 0 cell is above it, or just within.
    case 8: put_second(at, {0, 1000, 5000, random.pick<uint32_t>({4000, 4001, 4002, 5000, 5001}), random.pick<uint32_t>({0, 1})}); break;
    }
    if (random.once_in(6)) close_of(name_of(connection));
    if (random.once_in(8)) open_of(name_of(connection));
  }
  void put_second(size_t at, std::array<uint32_t, 5> words) {
    for (size_t k = 0; k < 5; ++k) memory.vcs.set(at + k, words[k]);
  }
  // The head and tail of the Output List or an entry.
  struct Pair {
    uint16_t head, tail;
  };
  Pair get_pair(uint64_t list, size_t entry) const {
    if (list == 0) return {record.out_head, record.out_tail};
    return {memory.calendar.get(2 * entry), memory.calendar.get(2 * entry + 1)};
  }
  void put_pair(uint64_t list, size_t entry, Pair pair) {
    if (list == 0) record.out_head = pair.head, record.out_tail = pair.tail;
    else memory.calendar.set(2 * entry, pair.head), memory.calendar.set(2 * entry + 1, pair.tail);
  }
  void damage_pair() {
    const uint64_t list = random.below(2);
    const size_t entry = likely_entry();
    Pair pair = get_pair(list, entry);
    switch (random.below(6)) {
    case 0: pair.head = none; break;
    case 1: pair.tail = none; break;
    case 2: pair.head = pair.tail = none; break;
    case 3: std::swap(pair.head, pair.tail); break;
    case 4: pair = {edge_number(), edge_number()}; break;
    case 5: pair = {likely_space(), likely_space()}; break;
    }
    put_pair(list, entry, pair);
    if (list == 1 && random.once_in(2)) set_mark(entry, pair.head != none);
  }
  // Two lists that share spaces: one gets the other's head, tail or both.
  void alias_pairs() {
    const uint64_t list = random.below(2), from = random.below(2);
    const size_t entry = likely_entry();
    Pair pair = get_pair(list, entry);
    const Pair other = get_pair(from, likely_entry());
    const uint64_t kind = random.below(3);
    if (kind != 0) pair.head = other.head;
    if (kind != 1) pair.tail = other.tail;
    put_pair(list, entry, pair);
    if (list == 1) set_mark(entry, pair.head != none);
  }
  void damage_header() {
    uint8_t cell[4];
    const size_t at = size_t{53} * likely_space();
    for (size_t k = 0; k < 4; ++k) cell[k] = memory.cells.get(at + k);
    const uint32_t path = random.pick(favourite_paths);
    const uint32_t vpi = random.percent(50) ? random.pick<uint32_t>({1, 16, 128, 255, path, path, 256, 256 + path, 4095}) : 0;
    // A wrong VPI alone must be seen, too.
    const uint32_t named = (cell[1] & 15u) << 12 | static_cast<uint32_t>(cell[2]) << 4 | cell[3] >> 4;
    const uint32_t vci = vpi != 0 && random.percent(70)
                             ? named
                             : random.pick<uint32_t>({0, v, v + 1u, v + path, 65535, 1, random.pick(favourites),
                                                      static_cast<uint32_t>(random.below(v))});
    put_header(cell, vpi, vci);
    for (size_t k = 0; k < 4; ++k) memory.cells.set(at + k, cell[k]);
  }
  // Another time of day: a sound state stays sound, so the clock's wrap is met.
  void shift_clock() {
    const uint32_t by = random.pick<uint32_t>(
        {UINT32_MAX - record.t, UINT32_MAX - record.t - 3, static_cast<uint32_t>(random.next())});
    record.t += by;
    for (size_t at = 0; at < memory.vcs.size(); at += words_per_connection)
      if (memory.vcs.get(at) == 1) memory.vcs.set(at + 5, memory.vcs.get(at + 5) + by);
    for (size_t space = 0; space < n; ++space) memory.arrived.set(space, memory.arrived.get(space) + by);
  }
  // Arrival slots that hold anything: of the space that leaves next, or of all. They change no verdict, and the audit's yes stays.
  void damage_arrived() {
    const auto any = [&] {
      return random.pick<uint32_t>({0, record.t, record.t + 1, record.t - 61, record.t - 62, record.t - 63, record.t - 64, UINT32_MAX, static_cast<uint32_t>(random.next())});
    };
    if (random.once_in(2)) return memory.arrived.set(likely_space(), any());
    for (size_t space = 0; space < n; ++space) memory.arrived.set(space, any());
  }
  // T at the next marked entry: every chain is sound, but entry T isn't empty.
  void mark_entry_T() {
    for (uint16_t entry = 0; entry < n; ++entry)
      if (memory.calendar.get(2 * entry) != none) record.T = entry;
  }
  // Fewer free spaces than there were, by bits and number alike: one is lost, or all of them, or all but one.
  void hide_space() {
    const uint16_t lowest = lowest_free();
    if (lowest != none && random.once_in(2)) {
      set_free(lowest, false), record.free = static_cast<uint16_t>(record.free - 1);
      return;
    }
    for (size_t w = 0; w < free_words; ++w) memory.bits.set(w, 0);
    record.free = 0;
    if (random.once_in(2)) set_free(random.pick<size_t>({0, n - 1u, std::min<size_t>(63, n - 1u), random.below(n)}), true), record.free = 1;
  }
  // The number against the bits, or words with anything in them.
  void damage_spaces() {
    const size_t w = random.percent(50) ? random.below(free_words) : random.below((n + 63u) / 64u);
    switch (random.below(6)) {
    case 0: record.free = static_cast<uint16_t>(record.free + 1); break;
    case 1: record.free = static_cast<uint16_t>(record.free - 1); break;
    case 2: record.free = random.pick<uint16_t>({0, 0, n, static_cast<uint16_t>(n + 1), 1024, 1025, 65535, static_cast<uint16_t>(record.free + 256)}); break;
    case 3: memory.bits.set(w, random.pick<uint64_t>({0, 1, uint64_t{1} << 63, UINT64_MAX, random.next()})); break;
    case 4: set_free(likely_space(), random.once_in(2)); break;
    case 5:
      for (size_t k = 0; k < free_words; ++k) memory.bits.set(k, 0);
      if (random.once_in(2)) record.free = random.pick<uint16_t>({0, 1, n});
      break;
    }
  }
  // A bit at or above N, with the number as it was or counting it too; the next slot mostly reads them.
  void aim_bits_above() {
    if (n == 1024) return damage_spaces();
    const size_t end_of_word = std::min<size_t>((n / 64 + 1) * 64, 1024) - 1;
    set_free(random.pick<size_t>({n, n, end_of_word, 1023, random.between(n, 1023)}), true);
    if (random.once_in(2)) record.free = static_cast<uint16_t>(record.free + 1);
  }
  // A bit of an entry against its entry: of T, of the one that is T next, of one that a cell may join or that waits, at N and
  // above; or whole words of them. The next slots join and transfer, and judge none of it.
  void damage_marks() {
    const size_t w = free_words + (random.percent(50) ? random.below(bit_words - free_words) : random.below((n + 63u) / 64u));
    const size_t above = n == 1024 ? 1023 : random.pick<size_t>({n, n, 1023, random.between(n, 1023)});
    switch (random.below(8)) {
    case 0: set_mark(likely_entry(), random.once_in(2)); break;
    case 1: set_mark(record.T < n ? record.T : 0, true); break;
    case 2: set_mark((record.T + 1u) % n, random.once_in(2)); break;
    case 3: set_mark(above, true); break;
    case 4: memory.bits.set(w, random.pick<uint64_t>({0, 1, uint64_t{1} << 63, UINT64_MAX, random.next()})); break;
    case 5:
      for (size_t k = free_words; k < bit_words; ++k) memory.bits.set(k, random.once_in(2) ? 0 : UINT64_MAX);
      break;
    case 6:
      for (size_t entry = 0; entry < n; ++entry)
        if (is_marked(entry)) set_mark(entry, random.once_in(3));
      break;
    case 7: set_mark(random.below(n), true); break;
    }
    if (random.once_in(3)) next();
  }
  // No cell is in the Output List, and few bits are set: of T, of N and above, of entries that are as marked as they say, empty,
  // or unfit. What the bits name first is asked for at once.
  void aim_next() {
    if (random.percent(85)) record.out_head = record.out_tail = none;
    if (random.percent(30)) record.T = static_cast<uint16_t>(random.pick<size_t>({0, n - 1u, std::min<size_t>(63, n - 1u), n / 64u * 64u % n, random.below(n)}));
    const size_t turn = record.T < n ? record.T : 0;
    if (random.percent(80))
      for (size_t k = free_words; k < bit_words; ++k) memory.bits.set(k, 0);
    if (random.percent(40)) set_mark(turn, true);
    if (n < 1024 && random.percent(40)) set_mark(random.pick<size_t>({n, 1023, std::min<size_t>((n / 64 + 1) * 64, 1024) - 1, random.between(n, 1023)}), true);
    for (uint64_t k = random.below(4); k > 0; --k) {
      const size_t far = random.pick<size_t>({1, 1, 2, n - 1u, n - 2u, n / 2u, random.below(n), random.below(n), 63 - turn % 64, 64 - turn % 64, 127 - turn % 64, 128 - turn % 64});
      const size_t entry = (turn + far % n) % n;
      set_mark(entry, true);
      if (random.percent(60)) put_pair(1, entry, {static_cast<uint16_t>(random.below(n)), static_cast<uint16_t>(random.below(n))});
      else if (random.once_in(3)) put_pair(1, entry, {edge_number(), edge_number()});
      else if (random.once_in(2)) put_pair(1, entry, {none, none});
    }
    if (random.once_in(20)) record.T = random.pick<uint16_t>({n, none}), record.n = random.pick<uint16_t>({n, 0, 1025});
    next();
    if (random.once_in(3)) audit();
  }
  // A queued space is free at once, or all are; bits and number fit. Where it is the lowest it is taken before it departs.
  void share_spaces() {
    const uint16_t space = likely_space();
    const bool all = random.once_in(4);
    for (size_t k = 0; k < n; ++k)
      if ((all || k == space) && !is_free(k)) set_free(k, true), record.free = static_cast<uint16_t>(record.free + 1);
    if (random.percent(60))
      for (size_t k = 0; k < space; ++k)
        if (is_free(k)) set_free(k, false), record.free = static_cast<uint16_t>(record.free - 1);
  }
};

} // namespace memories
