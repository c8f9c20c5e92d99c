#include "calls.hpp"

#include "../second/hec.hpp"

#include <algorithm>
#include <bitset>
#include <numeric>

namespace calls {

const char *const clause_name[clause_count] = {
#define X(name) #name,
    CALLS_CLAUSES(X)
#undef X
};
const char *const fault_name[fault_count] = {
#define X(name) #name,
    CALLS_FAULTS(X)
#undef X
};
const char *const close_name[close_count] = {
#define X(name) #name,
    CALLS_CLOSES(X)
#undef X
};
const char *const bucket_name[bucket_count] = {
#define X(name) #name,
    CALLS_BUCKETS(X)
#undef X
};
const char *const check_name[check_count] = {
#define X(name) #name,
    CALLS_CHECKS(X)
#undef X
};
const char *const path_name[path_count] = {
#define X(name) #name,
    CALLS_PATHS(X)
#undef X
};
const char *const space_name[space_count] = {
#define X(name) #name,
    CALLS_SPACES(X)
#undef X
};
const char *const mark_name[mark_count] = {
#define X(name) #name,
    CALLS_MARKS(X)
#undef X
};
const char *const owner_name[owner_count] = {
#define X(name) #name,
    CALLS_OWNERS(X)
#undef X
};
const char *const delay_name[delay_count] = {
#define X(name) #name,
    CALLS_DELAYS(X)
#undef X
};
Tally tally;

namespace {

constexpr uint16_t empty = 65535;
// "Path records, 256 with the first unused, stand after the V records".
constexpr unsigned paths = 256;
// Request (vii): "Keep a bit for each space, sixteen words of 64 bits": bit k of word w is space 64 w + k.
constexpr unsigned free_words = 16, word_bits = 64;
// Request (ix): "Keep one bit for each entry": words 16 to 31, bit k of word 16 + w is entry 64 w + k.
constexpr unsigned entry_words = 16, most_entries = entry_words * word_bits;

// Thrown where a call reads a stored number outside its range.
struct Unfit {
  Clause clause;
};
void need(bool fit, Clause clause) {
  if (!fit) throw Unfit{clause};
}

// The words of a connection, by name.
enum Word { w_open, w_m, w_F, w_C, w_S, w_last, w_waiting, w_m2, w_F2, w_C2, w_S2, w_tag, word_count };

// What was written, with the value before: undone from the last to the first.
struct Journal {
  struct Halfword {
    uint16_t *at, before;
  };
  struct Fullword {
    uint32_t *at, before;
  };
  struct Doubleword {
    uint64_t *at, before;
  };
  std::vector<Halfword> halves;
  std::vector<Fullword> fulls;
  std::vector<Doubleword> doubles;
  uint8_t *cell = nullptr;
  std::array<uint8_t, 53> cell_before{};

  void clear() { halves.clear(), fulls.clear(), doubles.clear(), cell = nullptr; }
  void put(uint16_t &at, uint16_t value) { halves.push_back({&at, at}), at = value; }
  void put(uint32_t &at, uint32_t value) { fulls.push_back({&at, at}), at = value; }
  void put(uint64_t &at, uint64_t value) { doubles.push_back({&at, at}), at = value; }
  void put_cell(uint8_t *at, const uint8_t *from) {
    std::copy(at, at + 53, cell_before.begin());
    cell = at;
    std::copy(from, from + 53, at);
  }
  void undo() {
    for (auto i = halves.rbegin(); i != halves.rend(); ++i) *i->at = i->before;
    for (auto i = fulls.rbegin(); i != fulls.rend(); ++i) *i->at = i->before;
    for (auto i = doubles.rbegin(); i != doubles.rend(); ++i) *i->at = i->before;
    if (cell) std::copy(cell_before.begin(), cell_before.end(), cell);
  }
};

// "a split VCI outside 1 to V-1 or a split path number outside 1 to 255 is 1"
bool vci_split_fits(unsigned v, unsigned split) { return split != 0 && split < v; }
bool path_split_fits(unsigned split) { return split != 0 && split < paths; }

bool sizes_in_range(uint16_t n, uint16_t v) { return 1 <= n && n <= 1024 && 2 <= v && v <= 1024; }

bool lengths_fit(uint16_t n, uint16_t v, const Memory &lent) {
  return lent.cells.length == size_t{53} * n && lent.links.length == n &&
         lent.calendar.length == size_t{2} * n && lent.vcs.length == size_t{word_count} * (v + paths) &&
         lent.bits.length == free_words + entry_words && lent.arrived.length == n;
}

bool is_free(const Lent<uint64_t> &bits, unsigned space) {
  return std::bitset<word_bits>(bits.at[space / word_bits])[space % word_bits];
}
template <class Word> bool is_marked(const Lent<Word> &bits, unsigned entry) {
  return std::bitset<word_bits>(bits.at[free_words + entry / word_bits])[entry % word_bits];
}
// The ones of the words of spaces, those below N and those at N and above.
struct Ones {
  unsigned below = 0, above = 0;
};
Ones count_ones(const Lent<uint64_t> &bits, unsigned n) {
  Ones ones;
  for (unsigned w = 0; w < free_words; ++w) {
    const unsigned reach = n <= word_bits * w ? 0 : std::min(n - word_bits * w, word_bits);
    const uint64_t mask = reach == word_bits ? ~uint64_t{0} : (uint64_t{1} << reach) - 1;
    ones.below += static_cast<unsigned>(std::bitset<word_bits>(bits.at[w] & mask).count());
    ones.above += static_cast<unsigned>(std::bitset<word_bits>(bits.at[w] & ~mask).count());
  }
  return ones;
}

// The rules on m, F and C; `first` is the clause for m, the others follow it.
constexpr int rules_kept = -1;
int rule_broken(uint64_t n, uint64_t m, uint64_t f, uint64_t c) {
  if (m > 15) return 0;
  const uint64_t leak = uint64_t{1} << m;
  if (f < leak) return 1;
  if (f > 16777216) return 2;
  if (c < f) return 3;
  if ((c - f) / leak > n - 1) return 4;
  return rules_kept;
}

// The limits of a second bucket: m (0 to 15), F (1 to 2^24), C (F to 2^30), flag (0 or 1); "m, F, C and flag all 0 mean none".
int limit_broken(uint64_t m, uint64_t f, uint64_t c, uint64_t flag) {
  if (m == 0 && f == 0 && c == 0 && flag == 0) return rules_kept;
  if (m > 15) return 0;
  if (f == 0) return 1;
  if (f > 16777216) return 2;
  if (c < f) return 3;
  if (c > 1073741824) return 4;
  if (flag > 1) return 5;
  return rules_kept;
}

// Six clauses for the peak bucket, from `m_clause` on, then seven for the second.
void need_rules(uint16_t n, const uint32_t *vc, Clause m_clause) {
  const int rule = rule_broken(n, vc[w_m], vc[w_F], vc[w_C]);
  need(rule == rules_kept, static_cast<Clause>(m_clause + rule));
  need(vc[w_S] <= vc[w_C], static_cast<Clause>(m_clause + 5));
  const int limit = limit_broken(vc[w_m2], vc[w_F2], vc[w_C2], vc[w_tag]);
  need(limit == rules_kept, static_cast<Clause>(m_clause + 6 + limit));
  need(vc[w_S2] <= vc[w_C2], static_cast<Clause>(m_clause + 12));
}

// Each S falls by what leaked out of its bucket since `last`; the words have been judged.
uint64_t leaked_since(const uint32_t *vc, uint32_t t, Word m = w_m) {
  return uint64_t{static_cast<uint32_t>(t - vc[w_last])} << vc[m];
}
void let_fall(uint32_t *vc, uint32_t t, Journal &journal) {
  const uint64_t leaked = leaked_since(vc, t), s = vc[w_S];
  const uint64_t leaked2 = leaked_since(vc, t, w_m2), s2 = vc[w_S2];
  journal.put(vc[w_S], static_cast<uint32_t>(s > leaked ? s - leaked : 0));
  journal.put(vc[w_S2], static_cast<uint32_t>(s2 > leaked2 ? s2 - leaked2 : 0));
  journal.put(vc[w_last], t);
}

// "A head and tail are both below N or both 65,535"; three clauses from `first`.
void need_pair(uint16_t n, uint16_t head, uint16_t tail, Clause first) {
  need(head < n || head == empty, first);
  need(tail < n || tail == empty, static_cast<Clause>(first + 1));
  need((head == empty) == (tail == empty), static_cast<Clause>(first + 2));
}

struct Header {
  unsigned vpi, vci, clp;
  bool is_user() const { return vpi != 0 || vci != 0; }
  // The number of the VC or path that it names, open or not; 0 where it names none.
  unsigned connection(unsigned v) const { return vpi == 0 ? (vci < v ? vci : 0) : vpi < paths ? v + vpi : 0; }
};
// At the NNI the four bits of the GFC are the VPI's too.
Header read_header(unsigned kind, const uint8_t *octet) {
  const uint32_t word =
      uint32_t{octet[0]} << 24 | uint32_t{octet[1]} << 16 | uint32_t{octet[2]} << 8 | uint32_t{octet[3]};
  return {word >> 20 & (kind == CLURIMOON_NNI ? 0xfffu : 0xffu), word >> 4 & 0xffff, word & 1};
}
void meet(Path what) { tally.path[what] += 1; }
void meet(Space what) { tally.space[what] += 1; }
void meet(Mark what) { tally.mark[what] += 1; }
void meet(Owner what) { tally.owner[what] += 1; }
void meet(Delay what) { tally.delay[what] += 1; }

// "a bit at or above N, a number other than the ones": two clauses from `first`.
void need_spaces(uint16_t n, uint16_t free, const Lent<uint64_t> &bits, Clause first) {
  const Ones ones = count_ones(bits, n);
  if (ones.above != 0) {
    if (free == ones.below + ones.above) meet(bit_above_counted);
    if (free == ones.below) meet(bit_above_not_counted);
    if (ones.above == 1 && is_free(bits, n)) meet(bit_N_alone);
    if (ones.above == 1 && is_free(bits, 1023)) meet(bit_1023_alone);
    if (n % word_bits != 0 && bits.at[n / word_bits] >> n % word_bits != 0) meet(bit_above_in_a_word_below_N);
    if (std::any_of(bits.at + (n + word_bits - 1) / word_bits, bits.at + free_words, [](uint64_t w) { return w != 0; }))
      meet(bit_in_a_word_above_N);
  } else if (free != ones.below) {
    if (free == ones.below + 1) meet(number_one_above);
    if (free + 1u == ones.below) meet(number_one_below);
    if (free == 0) meet(number_0_of_some);
    if (free > n) meet(number_above_N);
    if (ones.below == 0) meet(number_of_none);
  }
  need(ones.above == 0, first);
  need(free == ones.below, static_cast<Clause>(first + 1));
}

// One slot, step by step, on the lent memory itself.
class Slot {
public:
  Slot(const clurimoon_record &record, const Memory &lent, Journal &journal, std::deque<uint16_t> *free_list)
      : r(record), lent(lent), journal(journal), n(record.n), v(record.v), free_list(free_list) {}

  clurimoon_served serve(Lent<const uint8_t> cell) {
    bool lets_through = cell.length == 53;
    if (lets_through) {
      std::copy_n(cell.at, 53, arriving.begin());
      need(r.raw <= 1, slot_raw);
      if (r.raw == 1) lets_through = check_header();
    }
    tick();
    // Neither record 0 nor record V is ever read.
    if (r.rotation != 0 && r.rotation != v) update_named_by_rotation();
    if (r.rotation == v) meet(rotation_at_V);
    if (r.rotation == v && vc(v)[w_open] != 0) meet(rotation_at_V_in_disguise);
    if (lets_through) arrive();
    transfer();
    if (r.out_head != empty) depart();
    return {r, answer};
  }
  bool touched_marks() const { return marked; }
  bool wrote_an_arrival_slot() const { return stored_in != empty; }

private:
  clurimoon_record r;
  clurimoon_answer answer{0, 0, 0, 0, empty, 0};
  const Memory &lent;
  Journal &journal;
  const uint16_t n, v;
  std::deque<uint16_t> *const free_list; // the old form's, or none
  uint16_t stored_in = empty; // the space that this slot took
  bool marked = false; // a bit of an entry was set or cleared
  std::array<uint8_t, 53> arriving{}; // a copy of the lent cell, so that the lent one stays as it is

  // Whether the cell goes on, mended where one bit is wrong in correction.
  bool check_header() {
    need(r.mode <= 1, slot_mode);
    second::Header header;
    std::copy_n(arriving.begin(), 5, header.begin());
    const unsigned bit = second::wrong_bit(header);
    const bool correcting = r.mode == CLURIMOON_CORRECTION;
    r.mode = bit == 40 ? CLURIMOON_CORRECTION : CLURIMOON_DETECTION;
    if (bit == 40) return true;
    if (!correcting || bit == 41) return answer.verdict = CLURIMOON_DROPPED, false;
    header = second::with_bit_changed(header, bit);
    std::copy_n(header.begin(), 5, arriving.begin());
    return true;
  }

  uint32_t *vc(unsigned vci) const { return lent.vcs.at + size_t{word_count} * vci; }

  void tick() {
    need(r.T < n, slot_T);
    need(r.rotation < v + paths, slot_rotation);
    r.t += 1;
    r.T = static_cast<uint16_t>((r.T + 1) % n);
    r.rotation = static_cast<uint16_t>((r.rotation + 1) % (v + paths));
    if (r.rotation == 0) meet(rotation_wraps);
  }

  void bring_up_to_date(uint32_t *words, Clause m_clause) {
    need_rules(n, words, m_clause);
    let_fall(words, r.t, journal);
  }

  void update_named_by_rotation() {
    uint32_t *words = vc(r.rotation);
    need(words[w_open] <= 1, rotation_open);
    if (words[w_open] == 1) bring_up_to_date(words, rotation_m);
    if (words[w_open] == 1 && r.rotation > v) meet(rotation_updates_a_path);
  }

  void arrive() {
    if (r.kind > 1 && !read_header(CLURIMOON_UNI, arriving.data()).is_user()) meet(kind_read_of_an_idle_cell);
    need(r.kind <= 1, arrival_kind);
    const Header header = read_header(r.kind, arriving.data());
    if (!header.is_user()) return;
    answer.vci = static_cast<uint16_t>(header.vci);
    answer.verdict = CLURIMOON_UNKNOWN;
    const unsigned connection = header.connection(v);
    if (connection == 0) return;
    uint32_t *words = vc(connection);
    need(words[w_open] <= 1, arrival_open);
    if (words[w_open] == 0) return;
    answer.vci = static_cast<uint16_t>(connection);
    bring_up_to_date(words, arrival_m);
    const bool above_peak = words[w_S] > words[w_C] - words[w_F];
    const bool above_second = words[w_S2] > words[w_C2] - words[w_F2];
    const bool tags = words[w_tag] == 1;
    tally_buckets(words, header.clp, above_peak, above_second);
    answer.verdict = CLURIMOON_EXCESS;
    if (above_peak || (header.clp == 0 && above_second && !tags)) return meet(arrival_slot_kept_for_an_excess_one);
    answer.verdict = header.clp == 0 && above_second ? CLURIMOON_TAGGED : CLURIMOON_ACCEPTED;
    answer.d = static_cast<uint16_t>(words[w_S] >> words[w_m]);
    need(words[w_waiting] < n, arrival_waiting);
    journal.put(words[w_S], words[w_S] + words[w_F]);
    if (header.clp == 0 && !above_second) journal.put(words[w_S2], words[w_S2] + words[w_F2]);
    journal.put(words[w_waiting], words[w_waiting] + 1);
    if (answer.verdict == CLURIMOON_TAGGED) tag();
    const uint16_t space = take_free();
    journal.put_cell(lent.cells.at + size_t{53} * space, arriving.data());
    // Request (x): "Arrival slots are kept beside the cells, 32 bits, wrapping."
    journal.put(lent.arrived.at[space], r.t);
    meet(answer.verdict == CLURIMOON_TAGGED ? arrival_slot_written_for_a_tagged_one : arrival_slot_written);
    if (space == r.out_head) meet(arrival_slot_of_the_next_to_depart_written);
    if (r.t == 0 || r.t == UINT32_MAX) meet(arrival_slot_at_the_wrap);
    join(static_cast<unsigned>((r.T + answer.d) % n), space);
  }

  // CLP becomes 1, and octet 5 is recomputed, in the copy of the lent cell.
  void tag() {
    arriving[3] = static_cast<uint8_t>(arriving[3] | 1);
    arriving[4] = second::octet5({arriving[0], arriving[1], arriving[2], arriving[3], 0});
  }

  void tally_buckets(const uint32_t *words, unsigned clp, bool above_peak, bool above_second) {
    const auto met = [](Bucket bucket) { tally.bucket[bucket] += 1; };
    const bool none = words[w_C2] == 0, tags = words[w_tag] == 1;
    const uint32_t over = words[w_S2] - (words[w_C2] - words[w_F2]);
    if (none) return met(no_second_bucket);
    if (above_peak && above_second && clp == 0) met(tags ? above_both_with_the_flag : above_both_without);
    if (above_peak && !above_second) met(above_peak_alone);
    if (above_peak) return;
    if (clp == 1) return met(above_second ? clp_1_above_second : clp_1_within_second);
    met(!above_second ? fills_both : tags ? is_tagged : excess_by_second);
    if (above_second && over == 1) met(above_second_by_one_part);
    if (!above_second && over == 0 && words[w_S2] != 0) met(just_within_second);
    if (words[w_F2] < uint64_t{1} << words[w_m2]) met(F_below_L_in_second);
    if (above_second && tags && r.raw == 0) met(tagged_not_raw);
    if (above_second && tags && r.raw == 1 && r.mode == CLURIMOON_DETECTION) met(tagged_and_mended);
  }

  // The lowest free space, found by looking at one after the other.
  uint16_t take_free() {
    const bool one_would_leave = r.out_head != empty || lent.calendar.at[2 * r.T] != empty;
    if (r.free == 0 && one_would_leave) meet(none_for_a_cell_and_one_would_leave);
    need_spaces(n, r.free, lent.bits, take_bit_above);
    need(r.free != 0, take_none);
    uint16_t space = 0;
    while (!is_free(lent.bits, space)) ++space;
    if (free_list) space = free_list->at(0), free_list->pop_front();
    uint64_t &word = lent.bits.at[space / word_bits];
    journal.put(word, word & ~(uint64_t{1} << space % word_bits));
    r.free = static_cast<uint16_t>(r.free - 1);
    tally_taken(space);
    return stored_in = space;
  }

  void tally_taken(uint16_t space) const {
    meet(r.free == 0 ? took_the_last_free : took_one_of_several);
    if (space != 0 && r.free != 0) meet(took_above_a_hole);
    if (space % word_bits == 63) meet(took_bit_63);
    if (space >= word_bits) meet(took_beyond_word_0);
    if (space / word_bits == 15) meet(took_in_word_15);
    if (n % word_bits == 0) meet(took_at_N_64_k);
    const uint16_t *const ends = lent.calendar.at;
    const bool queued = std::find(ends, ends + lent.calendar.length, space) != ends + lent.calendar.length;
    if (queued || space == r.out_head || space == r.out_tail) meet(took_a_queued_space);
    if (space == ends[2 * ((r.T + answer.d) % n)]) meet(took_the_head_of_its_entry);
    if (space == r.out_head) meet(took_the_next_to_depart);
  }

  void join(unsigned entry, uint16_t space) {
    uint16_t &head = lent.calendar.at[2 * entry], &tail = lent.calendar.at[2 * entry + 1];
    need_pair(n, head, tail, join_pair_head);
    const bool was = is_marked(lent.bits, entry);
    meet(!was ? join_set_a_mark : join_found_it_set);
    if (was && head == empty) meet(join_found_it_set_of_an_empty_entry);
    if (!was && head != empty) meet(join_found_it_clear_of_a_marked_entry);
    if (entry >= word_bits) meet(join_beyond_word_16);
    if (entry >= most_entries - word_bits) meet(join_in_word_31);
    if (entry == r.T && head == empty) meet(was ? joined_and_transferred_where_it_was_set : joined_and_transferred);
    if (head == empty) journal.put(tail, space);
    else journal.put(lent.links.at[space], head);
    journal.put(head, space);
    set_mark(entry, true);
    marked = true;
  }

  void set_mark(unsigned entry, bool to) {
    uint64_t &word = lent.bits.at[free_words + entry / word_bits];
    const uint64_t bit = uint64_t{1} << entry % word_bits;
    journal.put(word, to ? word | bit : word & ~bit);
  }

  void transfer() {
    uint16_t &head = lent.calendar.at[2 * r.T], &tail = lent.calendar.at[2 * r.T + 1];
    need_pair(n, head, tail, entry_pair_head);
    need_pair(n, r.out_head, r.out_tail, output_pair_head);
    if (head == empty && is_marked(lent.bits, r.T)) meet(quiet_kept_a_mark_of_T);
    if (head == empty) return;
    meet(is_marked(lent.bits, r.T) ? transfer_cleared_a_mark : transfer_found_it_clear);
    if (r.T >= word_bits) meet(transfer_beyond_word_16);
    if (r.out_head == empty) r.out_head = head;
    else journal.put(lent.links.at[r.out_tail], head);
    r.out_tail = tail;
    journal.put(head, empty);
    journal.put(tail, empty);
    set_mark(r.T, false);
    marked = true;
  }

  void depart() {
    const uint16_t space = r.out_head;
    if (r.out_head == r.out_tail) {
      r.out_head = r.out_tail = empty;
    } else {
      need(lent.links.at[space] < n, output_link);
      r.out_head = lent.links.at[space];
    }
    need(r.kind <= 1, departing_kind);
    const Header header = read_header(r.kind, lent.cells.at + size_t{53} * space);
    need(header.vpi < paths, departing_vpi_high);
    need(header.is_user(), departing_vci_0);
    const unsigned connection = header.connection(v);
    need(connection != 0, departing_vci_high);
    uint32_t *words = vc(connection);
    need(words[w_open] != 0, departing_closed);
    need(words[w_open] == 1, departing_open);
    need(words[w_waiting] != 0, departing_waiting_0);
    need(words[w_waiting] <= n, departing_waiting_high);
    journal.put(words[w_waiting], words[w_waiting] - 1);
    give_back(space);
    answer.space = space;
    answer.out_vci = static_cast<uint16_t>(connection);
  }

  void give_back(uint16_t space) {
    need_spaces(n, r.free, lent.bits, give_bit_above);
    if (is_free(lent.bits, space)) meet(stored_in == empty ? already_free_without : already_free_after_a_taking);
    need(!is_free(lent.bits, space), give_already_free);
    uint64_t &word = lent.bits.at[space / word_bits];
    journal.put(word, word | uint64_t{1} << space % word_bits);
    r.free = static_cast<uint16_t>(r.free + 1);
    if (free_list) free_list->push_back(space);
    if (r.free == 1) meet(freed_the_first);
    if (space % word_bits == 63) meet(freed_bit_63);
    if (space >= word_bits) meet(freed_beyond_word_0);
    if (space / word_bits == 15) meet(freed_in_word_15);
    if (stored_in != empty) meet(stored_in == space ? freed_the_one_just_taken : took_and_freed_another);
  }
};

// What open and close read of a connection: of a closed one only the open word.
void need_connection(uint16_t n, const uint32_t *words, Clause open_clause) {
  need(words[w_open] <= 1, open_clause);
  if (words[w_open] == 0) return;
  need_rules(n, words, static_cast<Clause>(open_clause + 1));
  need(words[w_waiting] <= n, static_cast<Clause>(open_clause + 14));
}

// A connection's words; it is one that has a name.
uint32_t *words_of(const clurimoon_record &record, Lent<uint32_t> vcs, Name name) {
  return vcs.at + size_t{word_count} * (name.path ? record.v + size_t{name.number} : name.number);
}

// "Connections below a split VCI and a split path number are the first's, the others the second's"; it is one that has a name.
bool is_owner(const clurimoon_record &record, Name name) {
  const uint16_t split = name.path ? record.split_path : record.split_vci;
  if (name.owner > 1) return false;
  return name.number < split ? name.owner == 0 : name.owner == 1;
}

void tally_16(const clurimoon_record &record, Lent<uint32_t> vcs, Name name, Clause open_clause) {
  const uint16_t split = name.path ? record.split_path : record.split_vci, other = name.path ? record.split_vci : record.split_path;
  meet(name.owner == 0 ? refused_16_to_the_first : name.owner == 1 ? refused_16_to_the_second : refused_16_to_nobody);
  if (name.owner == 0 && name.number == split) meet(refused_16_at_the_split);
  if (name.owner == 1 && name.number + 1 == split) meet(refused_16_below_the_split);
  if (name.path) meet(refused_16_of_a_path);
  if (name.owner <= 1 && (name.number < other) == (name.owner == 0)) meet(refused_16_by_the_other_split);
  const uint32_t *words = words_of(record, vcs, name);
  try {
    need_connection(record.n, words, open_clause);
    meet(words[w_open] == 1 ? refused_16_of_an_open_one : refused_16_of_a_closed_one);
  } catch (const Unfit &) {
    meet(refused_16_of_an_unfit_one);
  }
}

// The refusals that open and close share, up to 3; 0 if there is none.
uint16_t refuse(const clurimoon_record &record, Lent<uint32_t> vcs, Name name, Clause open_clause) {
  if (!sizes_in_range(record.n, record.v)) return 1;
  const bool vci_fits = vci_split_fits(record.v, record.split_vci), path_fits = path_split_fits(record.split_path);
  if (!vci_fits || !path_fits) {
    meet(!vci_fits ? stored_split_vci_unfit : stored_split_path_unfit);
    if (vcs.length != size_t{word_count} * (record.v + paths)) meet(stored_split_1_before_2);
    if (name.number == 0) meet(stored_split_1_before_4);
    return 1;
  }
  if (vcs.length != size_t{word_count} * (record.v + paths)) return 2;
  if (name.number < 1 || name.number >= (name.path ? paths : record.v)) {
    if (name.path) meet(name.number == 0 ? refused_4_path_0 : name.number == paths ? refused_4_path_256 : refused_4_path_above);
    if (name.owner > 1) meet(refused_4_to_nobody);
    return 4;
  }
  if (!is_owner(record, name)) return tally_16(record, vcs, name, open_clause), 16;
  const uint16_t split = name.path ? record.split_path : record.split_vci;
  if (name.number == split) meet(name.path ? at_the_split_path : at_the_split_vci);
  if (name.number + 1 == split) meet(name.path ? below_the_split_path : below_the_split_vci);
  try {
    need_connection(record.n, words_of(record, vcs, name), open_clause);
  } catch (const Unfit &unfit) {
    tally.clause[unfit.clause] += 1;
    return 3;
  }
  return 0;
}

clurimoon_served refused(const clurimoon_record &record, uint16_t number) {
  return {record, {number, 0, 0, 0, empty, 0}};
}

} // namespace

clurimoon_set setup(uint16_t n, uint16_t v, bool raw, uint16_t kind, Splits splits, Memory lent) {
  if (!sizes_in_range(n, v)) {
    if (kind > 1) meet(refused_1_before_13);
    return {1, {}};
  }
  if (!vci_split_fits(v, splits.vci) || !path_split_fits(splits.path)) {
    if (splits.vci == 0) meet(setup_split_vci_0);
    if (splits.vci == v) meet(setup_split_vci_V);
    if (splits.path == 0) meet(setup_split_path_0);
    if (splits.path == paths) meet(setup_split_path_256);
    if (kind > 1) meet(setup_split_1_before_13);
    else if (!lengths_fit(n, v, lent)) meet(setup_split_1_before_2);
    return {1, {}};
  }
  if (kind > 1) {
    meet(lengths_fit(n, v, lent) ? refused_13 : refused_13_before_2);
    return {13, {}};
  }
  if (!lengths_fit(n, v, lent)) return {2, {}};
  std::fill_n(lent.cells.at, lent.cells.length, uint8_t{0});
  std::fill_n(lent.links.at, lent.links.length, uint16_t{0});
  std::fill_n(lent.vcs.at, lent.vcs.length, uint32_t{0});
  std::fill_n(lent.calendar.at, lent.calendar.length, empty);
  std::fill_n(lent.bits.at, lent.bits.length, uint64_t{0});
  std::fill_n(lent.arrived.at, lent.arrived.length, uint32_t{0});
  for (unsigned space = 0; space < n; ++space) lent.bits.at[space / word_bits] |= uint64_t{1} << space % word_bits;
  clurimoon_record record{};
  record.n = n, record.v = v;
  record.t = UINT32_MAX;
  record.T = static_cast<uint16_t>(n - 1);
  record.rotation = static_cast<uint16_t>(v + paths - 1);
  record.free = n;
  record.out_head = record.out_tail = empty;
  record.raw = raw ? 1 : 0, record.mode = CLURIMOON_CORRECTION, record.kind = kind;
  record.split_vci = splits.vci, record.split_path = splits.path;
  if (splits.vci == v - 1) meet(setup_split_vci_last);
  if (splits.path == paths - 1) meet(setup_split_path_255);
  return {0, record};
}

uint16_t open(const clurimoon_record &record, Lent<uint32_t> vcs, Name name, const Rates &rates) {
  if (const uint16_t number = refuse(record, vcs, name, open_open)) return number;
  uint32_t *words = words_of(record, vcs, name);
  if (words[w_open] == 1) return 5;
  const int limit = limit_broken(rates.m2, rates.f2, rates.c2, rates.tag);
  if (rule_broken(record.n, rates.m, rates.f, rates.c) != rules_kept) {
    if (limit != rules_kept) tally.bucket[broken_6_and_11] += 1;
    return 6;
  }
  if (limit != rules_kept) {
    tally.bucket[refused_11_m + limit] += 1;
    if (rates.f2 == 0 && rates.c2 == 0 && (rates.m2 == 0) != (rates.tag == 0)) tally.bucket[refused_11_zeros_but_one] += 1;
    return 11;
  }
  if (rates.c2 != 0) tally.bucket[opened_with_second] += 1;
  if (rates.c2 == 1073741824) tally.bucket[opened_with_greatest_C] += 1;
  const uint32_t fresh[word_count] = {1,        rates.m,  rates.f,  rates.c,  0, record.t,
                                      0,        rates.m2, rates.f2, rates.c2, 0, rates.tag};
  std::copy(fresh, fresh + word_count, words);
  if (name.path) meet(path_opened), meet(name.owner == 0 ? path_of_the_first : path_of_the_second);
  meet(name.owner == 0 ? opened_by_the_first : opened_by_the_second);
  return 0;
}

namespace {

void tally_3_of_close(const uint32_t *before, uint32_t t) {
  if (before[w_open] == 1 && before[w_m] <= 15 && before[w_S] > before[w_C] &&
      leaked_since(before, t) >= before[w_S])
    tally.close[S_above_C_would_fall] += 1;
}
void tally_close(const uint32_t *before, uint32_t owed, uint32_t t) {
  const uint64_t leaked = leaked_since(before, t);
  const bool waits = before[w_waiting] != 0, fell = before[w_S] != owed;
  if (waits) tally.close[owed ? refused_both : refused_waiting_only] += 1;
  else if (owed) tally.close[refused_debt_only] += 1;
  else if (!fell) tally.close[closed_S_was_0] += 1;
  else tally.close[leaked == before[w_S] ? closed_S_fell_exactly : closed_S_fell_past] += 1;
  if (owed && fell) tally.close[refused_last_not_t] += 1;
  if (!waits && owed == 1) tally.close[refused_for_one_part] += 1;
  if (!waits && leaked >> 32 && static_cast<uint32_t>(leaked) < before[w_S])
    tally.close[closed_product_is_wide] += 1;
  if (waits || owed || before[w_S2] == 0) return;
  tally.close[leaked_since(before, t, w_m2) < before[w_S2] ? closed_second_not_empty : closed_second_fell] += 1;
}

} // namespace

// The connection is brought up to date in its words; a refusal takes that back.
uint16_t close(const clurimoon_record &record, Lent<uint32_t> vcs, Name name) {
  const uint16_t number = refuse(record, vcs, name, close_open);
  if (number == 3) tally_3_of_close(words_of(record, vcs, name), record.t);
  if (number != 0) return number;
  uint32_t *words = words_of(record, vcs, name);
  if (words[w_open] == 0) return 7;
  uint32_t before[word_count];
  std::copy(words, words + word_count, before);
  Journal journal;
  let_fall(words, record.t, journal);
  const uint32_t owed = words[w_S];
  tally_close(before, owed, record.t);
  if (owed != 0 || words[w_waiting] != 0) return journal.undo(), 8;
  std::fill_n(words, size_t{word_count}, 0u);
  if (name.path) meet(path_closed);
  meet(name.owner == 0 ? closed_by_the_first : closed_by_the_second);
  return 0;
}

namespace {

// What the header check met, from the record and the cell as they came and from what the slot answered.
void tally_check(const clurimoon_record &record, Lent<const uint8_t> cell, const clurimoon_answer &a) {
  const bool done = a.number == 0, lent = cell.length == 53;
  const auto met = [](Check check) { tally.check[check] += 1; };
  if (record.raw > 1 && done) met(unfit_raw_not_read);
  if (record.mode > 1 && done) met(unfit_mode_not_read);
  if (record.raw > 1 && lent && (a.number == 1 || a.number == 2)) met(unfit_raw_after_1_2_9);
  if (record.raw > 1 && a.number == 9) met(unfit_raw_after_1_2_9);
  if (record.raw == 1 && record.mode == 1 && done && !lent) met(no_cell_in_detection);
  if (!lent || record.raw > 1 || (record.raw == 1 && record.mode > 1) || (!done && a.number != 3)) return;
  second::Header header;
  std::copy_n(cell.at, 5, header.begin());
  if (record.raw == 0) {
    if (!second::is_clean(header) && done) met(not_raw_with_a_wrong_octet_5);
    return;
  }
  const unsigned bit = second::wrong_bit(header);
  const bool detecting = record.mode == CLURIMOON_DETECTION;
  const bool user = read_header(record.kind, header.data()).is_user();
  if (bit == 40) {
    if (done) return met(detecting ? clean_in_detection : clean_in_correction);
    if (detecting) met(clean_and_refused_in_detection);
  } else if (detecting || bit == 41) {
    if (!done) return met(dropped_and_refused);
    met(!detecting ? dropped_in_correction
        : bit < 40 ? dropped_in_detection_for_one_bit
                   : dropped_in_detection);
    if (a.space != empty) met(dropped_and_another_departs);
    if (!user) met(dropped_no_user_cell);
  } else {
    if (!done) return met(mended_and_refused);
    static const Check by_verdict[] = {mended_to_no_user_cell, mended_accepted, mended_excess,
                                       mended_unknown,         check_count,     mended_tagged};
    met(by_verdict[a.verdict]);
    if (bit >= 32) met(mended_in_octet_5);
    if (!user && a.verdict != CLURIMOON_NOTHING) met(mended_from_no_user_cell);
    tally.mended_bit[bit] += 1;
  }
}

// Which connections were open before a slot, of those that its cell's header could be taken to name.
struct Open {
  bool vc = false, path_by_8_bits = false, path_by_vci = false;
};
Open open_before(const clurimoon_record &record, const Memory &lent, Lent<const uint8_t> cell) {
  Open open;
  if (!sizes_in_range(record.n, record.v) || !lengths_fit(record.n, record.v, lent) || cell.length != 53) return open;
  const auto is_open = [&](unsigned c) { return lent.vcs.at[size_t{word_count} * c] == 1; };
  const Header uni = read_header(CLURIMOON_UNI, cell.at);
  open.vc = uni.vci != 0 && uni.vci < record.v && is_open(uni.vci);
  open.path_by_8_bits = uni.vpi != 0 && is_open(record.v + uni.vpi);
  open.path_by_vci = uni.vci > record.v && uni.vci < record.v + paths && is_open(uni.vci);
  return open;
}

// What line kind and paths had to do with a slot, from the state and the cell before it and from its answer. A mended
// cell is not looked at as it came.
void tally_paths(const clurimoon_record &record, const Open &open, Lent<const uint8_t> cell, bool mended,
                 const clurimoon_answer &a) {
  const bool lent = cell.length == 53, done = a.number == 0;
  if (record.kind > 1 && done) meet(a.verdict == CLURIMOON_DROPPED ? kind_not_read_for_a_dropped_cell : kind_not_read_without_a_cell);
  if (record.kind > 1 && (a.number == 1 || a.number == 2 || a.number == 9)) meet(kind_after_1_2_9);
  if (!done) return;
  const bool nni = record.kind == CLURIMOON_NNI;
  if (a.out_vci > record.v) meet(nni ? path_departed_nni : path_departed_uni);
  if (!lent || a.verdict == CLURIMOON_DROPPED) return;
  const auto by_kind = [&](Path uni) { meet(static_cast<Path>(uni + (nni ? 1 : 0))); };
  const bool of_path = a.vci > record.v && a.verdict != CLURIMOON_UNKNOWN;
  if (of_path && a.verdict == CLURIMOON_ACCEPTED) by_kind(path_accepted_uni);
  if (of_path && a.verdict == CLURIMOON_EXCESS) by_kind(path_excess_uni);
  if (of_path && a.verdict == CLURIMOON_TAGGED) by_kind(path_tagged_uni);
  if (of_path && mended) meet(path_mended);
  if (mended) return;
  const Header header = read_header(record.kind, cell.at), uni = read_header(CLURIMOON_UNI, cell.at);
  const bool gfc = !nni && cell.at[0] >= 16;
  if (gfc && !header.is_user()) meet(no_user_cell_with_gfc);
  if (of_path && header.vci == 0) meet(path_vci_0);
  if (of_path && open.vc) meet(path_vci_of_an_open_vc);
  if (of_path && gfc) meet(path_with_gfc);
  if (of_path && header.vpi == 255) meet(path_255);
  if (header.vpi == 0 && open.vc && gfc) meet(vc_with_gfc);
  if (header.vpi == 0 && open.vc && nni) meet(vc_at_the_nni);
  if (nni && header.vpi != 0 && uni.vpi == 0 && open.vc) meet(gfc_bits_are_vpi);
  if (header.vpi > 255) meet(vpi_above_255);
  if (header.vpi > 255 && open.path_by_8_bits) meet(vpi_above_255_ends_as_an_open_path);
  if (a.verdict != CLURIMOON_UNKNOWN) return;
  if (header.vpi != 0 && header.vpi < paths) meet(open.vc ? closed_path_vci_of_an_open_vc : closed_path);
  if (header.vpi == 0 && open.path_by_vci) meet(vci_is_number_of_an_open_path);
}

// Whether a slot that took or freed a space would be refused for it.
bool spaces_unfit(const clurimoon_record &record, const Memory &lent) {
  if (!sizes_in_range(record.n, record.v) || !lengths_fit(record.n, record.v, lent)) return false;
  const Ones ones = count_ones(lent.bits, record.n);
  return ones.above != 0 || ones.below != record.free;
}

// Whether each bit of an entry is set exactly where the entry isn't empty.
bool marks_fit(const clurimoon_record &record, const Memory &lent) {
  std::array<uint64_t, entry_words> words{};
  for (unsigned entry = 0; entry < record.n; ++entry)
    words[entry / word_bits] |= uint64_t{lent.calendar.at[2 * entry] != empty} << entry % word_bits;
  return std::equal(words.begin(), words.end(), lent.bits.at + free_words);
}

clurimoon_served judged_slot(const clurimoon_record &record, Memory lent, Lent<const uint8_t> cell,
                             std::deque<uint16_t> *free_list = nullptr) {
  if (!sizes_in_range(record.n, record.v)) return refused(record, 1);
  if (!lengths_fit(record.n, record.v, lent)) return refused(record, 2);
  if (cell.length != 0 && cell.length != 53) return refused(record, 9);
  static thread_local Journal journal;
  journal.clear();
  const bool wrong = !marks_fit(record, lent);
  Slot slot(record, lent, journal, free_list);
  try {
    const clurimoon_served served = slot.serve(cell);
    if (wrong && slot.touched_marks()) meet(wrong_marks_not_judged);
    return served;
  } catch (const Unfit &unfit) {
    tally.clause[unfit.clause] += 1;
    if (slot.touched_marks()) meet(undone_with_a_mark);
    if (slot.wrote_an_arrival_slot()) meet(arrival_slot_written_and_undone);
    journal.undo();
    return refused(record, 3);
  }
}

} // namespace

clurimoon_served slot(const clurimoon_record &record, Memory lent, Lent<const uint8_t> cell) {
  const Open open = open_before(record, lent, cell);
  const bool unfit = spaces_unfit(record, lent);
  const clurimoon_served served = judged_slot(record, lent, cell);
  tally_check(record, cell, served.answer);
  const bool mended = record.raw == 1 && served.record.mode == CLURIMOON_DETECTION && cell.length == 53;
  tally_paths(record, open, cell, mended, served.answer);
  if (unfit && served.answer.number == 0) meet(served.answer.verdict == CLURIMOON_EXCESS ? unfit_and_excess : unfit_not_read);
  if (unfit && served.answer.number == 9) meet(unfit_after_9);
  if (served.answer.number == 0 && !(vci_split_fits(record.v, record.split_vci) && path_split_fits(record.split_path))) meet(unfit_split_not_read);
  return served;
}

clurimoon_served slot_listed(const clurimoon_record &record, Memory lent, Lent<const uint8_t> cell, std::deque<uint16_t> &free_list) {
  const std::deque<uint16_t> before = free_list;
  const Tally met = tally;
  const clurimoon_served served = judged_slot(record, lent, cell, &free_list);
  if (served.answer.number != 0) free_list = before;
  tally = met;
  return served;
}

clurimoon_part line(size_t cells_length, size_t idle_length, uint16_t number) {
  const size_t n = cells_length / 53;
  if (cells_length % 53 != 0 || n < 1 || n > 1024 || idle_length != 53) return {1, 0, 0};
  if (number == empty) return {1, 0, 53};
  if (number >= n) return {1, 0, 0};
  return {0, size_t{53} * number, 53};
}

namespace {

// Thrown by the audit at the first clause that fails.
struct No {
  Fault fault;
};
void must(bool holds, Fault fault) {
  if (!holds) throw No{fault};
}

// The audit: it collects which spaces are queued, none of which may be free, and counts queued cells.
class Audit {
public:
  Audit(const clurimoon_record &record, const Memory &lent)
      : r(record), lent(lent), seen(record.n, false), queued(record.v + paths, 0) {}

  void run() {
    must(vci_split_fits(r.v, r.split_vci) && path_split_fits(r.split_path), no_splits);
    must(r.T < r.n, no_T);
    must(r.raw <= 1, no_raw);
    must(r.mode <= 1, no_mode);
    must(r.kind <= 1, no_kind);
    must(r.rotation < r.v + paths, no_rotation);
    for (unsigned c = 1; c < r.v + paths; ++c)
      if (c != r.v) judge_connection(words(c));
    const Ones ones = count_ones(lent.bits, r.n);
    must(ones.above == 0, no_bit_above);
    must(ones.below == r.free, no_number);
    judge_marks();
    walk(r.out_head, r.out_tail);
    for (unsigned entry = 0; entry < r.n; ++entry)
      walk(lent.calendar.at[2 * entry], lent.calendar.at[2 * entry + 1]);
    for (unsigned space = 0; space < r.n; ++space)
      must(seen[space] || is_free(lent.bits, space), no_space_missing);
    must(lent.calendar.at[2 * r.T] == empty, no_entry_T);
    for (unsigned c = 1; c < r.v + paths; ++c)
      if (c != r.v) must(words(c)[w_open] == 0 || words(c)[w_waiting] == queued[c], no_waiting_count);
    if (words(r.v)[w_open] != 0) meet(audited_with_record_V_in_disguise);
    if (path_queued) meet(audited_with_a_path_queued);
    if (r.free == r.n) meet(audited_all_free);
    if (r.free == 0) meet(audited_none_free);
    for (unsigned space = 0; space < r.n; ++space)
      if (is_free(lent.bits, space) && lent.links.at[space] >= r.n) return meet(audited_with_a_wide_link);
  }

private:
  const clurimoon_record &r;
  const Memory &lent;
  std::vector<bool> seen;
  std::vector<uint32_t> queued;
  bool path_queued = false;

  const uint32_t *words(unsigned c) const { return lent.vcs.at + size_t{word_count} * c; }

  void judge_connection(const uint32_t *words) const {
    must(words[w_open] <= 1, no_open_word);
    if (words[w_open] == 0) return;
    must(rule_broken(r.n, words[w_m], words[w_F], words[w_C]) == rules_kept, no_rules);
    must(words[w_S] <= words[w_C], no_S);
    must(limit_broken(words[w_m2], words[w_F2], words[w_C2], words[w_tag]) == rules_kept, no_second_limits);
    must(words[w_S2] <= words[w_C2], no_second_S);
    must(words[w_waiting] <= r.n, no_waiting_range);
  }

  // "compared by the audit": each bit with its entry; there is no entry at N and above.
  void judge_marks() const {
    unsigned marks = 0;
    for (unsigned entry = 0; entry < most_entries; ++entry) {
      const bool marked = is_marked(lent.bits, entry);
      must(entry < r.n || !marked, no_mark_above);
      if (entry >= r.n) continue;
      const bool some = lent.calendar.at[2 * entry] != empty;
      must(marked || !some, no_mark_missing);
      must(some || !marked, no_mark_of_an_empty_entry);
      marks += marked;
    }
    meet(marks == 0 ? audited_without : marks == 1 ? audited_with_a_mark : audited_with_marks);
  }

  void walk(uint16_t head, uint16_t tail) {
    must((head == empty && tail == empty) || (head < r.n && tail < r.n), no_pair);
    if (head == empty) return;
    // A chain that misses its tail comes back to one of its own spaces.
    std::vector<bool> here(r.n, false);
    for (uint16_t space = head;; space = lent.links.at[space]) {
      must(space < r.n, no_link);
      must(!here[space], no_chain_end);
      must(!seen[space], no_space_twice);
      must(!is_free(lent.bits, space), no_free_space_queued);
      seen[space] = here[space] = true;
      count(space);
      if (space == tail) return;
    }
  }

  void count(uint16_t space) {
    const Header header = read_header(r.kind, lent.cells.at + size_t{53} * space);
    const unsigned connection = header.connection(r.v);
    if (header.vpi >= paths) meet(no_for_a_vpi_above_255);
    must(connection != 0, no_header);
    if (header.vpi != 0 && words(connection)[w_open] == 0) meet(no_for_a_closed_path);
    must(words(connection)[w_open] == 1, no_header);
    queued[connection] += 1;
    if (header.vpi != 0) path_queued = true;
  }
};

} // namespace

bool audit(const clurimoon_record &record, Memory lent) {
  try {
    must(sizes_in_range(record.n, record.v), no_range);
    must(lengths_fit(record.n, record.v, lent), no_length);
    Audit(record, lent).run();
  } catch (const No &no) {
    tally.fault[no.fault] += 1;
    return false;
  }
  return true;
}

namespace {

// What decided an answer, from the state alone. `steps` is the ring distance to the entry that the bits named, 0 for none.
void tally_next(const clurimoon_record &r, const Lent<const uint16_t> &calendar, const Lent<const uint64_t> &bits, unsigned steps) {
  const unsigned n = r.n, T = r.T, entry = (T + steps) % n;
  const auto some = [&](unsigned e) { return calendar.at[2 * e] != empty; };
  bool above = false, passed = false, wrong_later = false;
  for (unsigned e = n; e < most_entries; ++e) above = above || is_marked(bits, e);
  for (unsigned k = 1; k < (steps == 0 ? n : steps); ++k) passed = passed || some((T + k) % n);
  for (unsigned k = steps + 1; steps != 0 && k < n; ++k) wrong_later = wrong_later || (is_marked(bits, (T + k) % n) && !some((T + k) % n));
  if (steps == 0) {
    meet(next_is_none);
    if (is_marked(bits, T)) meet(next_is_none_with_the_mark_of_T);
    if (above) meet(next_is_none_with_a_mark_above);
    if (passed) meet(next_is_none_with_an_unmarked_entry);
    if (n == 1) meet(next_at_N_1);
    return;
  }
  if (steps == 1) meet(next_is_1_entry_on);
  if (steps == n - 1 && n > 2) meet(next_is_N_1_entries_on);
  meet(entry > T ? next_ahead : next_beyond_the_end);
  if (entry / word_bits == T / word_bits) meet(entry > T ? next_in_the_word_of_T_ahead : next_in_the_word_of_T_behind);
  else meet(next_in_another_word);
  if (entry / word_bits > T / word_bits + 1) meet(next_two_words_on);
  if (entry % word_bits == 0) meet(next_at_bit_0);
  if (entry % word_bits == word_bits - 1) meet(next_at_bit_63);
  if (T % word_bits == word_bits - 1) meet(next_from_bit_63);
  if (entry == 0) meet(next_at_entry_0);
  if (entry == n - 1) meet(next_at_the_last_entry);
  if (is_marked(bits, T)) meet(next_past_the_mark_of_T);
  if (above && entry < T) meet(next_past_a_mark_above);
  if (passed) meet(next_past_an_unmarked_entry);
  if (wrong_later) meet(next_before_a_wrong_mark);
}

// The ring distance from T to the first entry after it that the bits name, 0 where they name none; T is below N.
unsigned named_by_bits(const clurimoon_record &r, const Lent<const uint64_t> &bits) {
  for (unsigned k = 1; k < r.n; ++k)
    if (is_marked(bits, (r.T + k) % r.n)) return k;
  return 0;
}

} // namespace

clurimoon_wait next(const clurimoon_record &record, Lent<const uint16_t> calendar, Lent<const uint64_t> bits) {
  const uint16_t n = record.n;
  if (!sizes_in_range(n, record.v)) {
    meet(next_is_refused_1);
    if (record.T >= n) meet(next_unfit_after_1_2);
    return {1, 0};
  }
  if (calendar.length != size_t{2} * n || bits.length != free_words + entry_words) {
    meet(next_is_refused_2);
    if (record.T >= n) meet(next_unfit_after_1_2);
    return {2, 0};
  }
  try {
    need(record.T < n, next_T);
    need_pair(n, record.out_head, record.out_tail, next_output_pair_head);
    const unsigned steps = named_by_bits(record, bits);
    const unsigned entry = (record.T + steps) % n;
    if (record.out_head != empty) {
      meet(next_of_the_output);
      if (steps != 0 && calendar.at[2 * entry] == empty) meet(next_of_the_output_reads_no_bit);
      return {0, 1};
    }
    if (steps != 0) {
      const uint16_t head = calendar.at[2 * entry], tail = calendar.at[2 * entry + 1];
      if (head == empty && tail == empty)
        for (unsigned k = steps + 1; k < n; ++k)
          if (is_marked(bits, (record.T + k) % n) && calendar.at[2 * ((record.T + k) % n)] < n) {
            meet(next_3_though_a_later_one_fits);
            break;
          }
      need_pair(n, head, tail, next_entry_pair_head);
      need(head != empty, next_entry_empty);
    }
    tally_next(record, calendar, bits, steps);
    return {0, static_cast<uint16_t>(steps)};
  } catch (const Unfit &unfit) {
    tally.clause[unfit.clause] += 1;
    return {3, 0};
  }
}

uint16_t walked(const clurimoon_record &record, Lent<const uint16_t> calendar) {
  if (record.out_head != empty) return 1;
  for (uint16_t slots = 1; slots < record.n; ++slots)
    if (calendar.at[2 * ((record.T + slots) % record.n)] != empty) return slots;
  return 0;
}

namespace {

// What a burst is lent besides the memories.
struct Burst {
  Lent<const uint8_t> arrivals, sizes;
  Lent<uint8_t> departures;
  Lent<uint16_t> answers;
};

uint16_t refuse_burst(const clurimoon_record &record, const Memory &lent, const Burst &b) {
  if (!sizes_in_range(record.n, record.v)) return 1;
  const size_t slots = b.sizes.length;
  const bool fit = lengths_fit(record.n, record.v, lent) && b.arrivals.length == 53 * slots &&
                   b.departures.length == 53 * slots && b.answers.length == 6 * slots;
  return fit ? 0 : 2;
}

// The slots of a burst that is not refused, one by one; each served one is told of.
template <class Then> clurimoon_burst_end serve_burst(const clurimoon_record &record, const Memory &lent, const Burst &b, Then then) {
  clurimoon_record now = record;
  for (size_t k = 0; k < b.sizes.length; ++k) {
    const clurimoon_served served = slot(now, lent, {b.arrivals.at + 53 * k, b.sizes.at[k]});
    const clurimoon_answer &a = served.answer;
    if (a.number != 0) return {now, a.number, k};
    now = served.record;
    const uint16_t numbers[6] = {a.number, a.verdict, a.vci, a.d, a.space, a.out_vci};
    std::copy(numbers, numbers + 6, b.answers.at + 6 * k);
    if (a.space != empty) std::copy_n(lent.cells.at + size_t{53} * a.space, 53, b.departures.at + 53 * k);
    then(now, a);
  }
  return {now, 0, b.sizes.length};
}

// Request (x): "64 bins beside the number of cells", "A tally of 2^32 cells takes no more".
constexpr uint64_t most_cells = 4294967296;
constexpr unsigned bins = 64;

// "3, a tally whose number is above 2^32 or not the sum of its bins": each bin is taken off the number, until none is left.
bool adds_up(const clurimoon_tally &t) {
  uint64_t left = t.cells;
  for (uint64_t bin : t.bins) {
    if (bin > left) return false;
    left -= bin;
  }
  return left == 0 && t.cells <= most_cells;
}

// How it doesn't add up: what a sum that wraps, one of 32 bits, or no look at the number would have let pass.
void tally_unfit(const clurimoon_tally &t) {
  uint64_t wrapped = 0;
  uint32_t low = 0;
  bool wide = false;
  for (uint64_t bin : t.bins) wrapped += bin, low += static_cast<uint32_t>(bin), wide = wide || bin >= most_cells;
  if (t.cells == most_cells + 1 && wrapped == t.cells) meet(unfit_cells_above);
  if (t.cells <= most_cells && !wide && wrapped == t.cells + 1) meet(unfit_sum_one_more);
  if (t.cells <= most_cells && !wide && wrapped + 1 == t.cells) meet(unfit_sum_one_less);
  if (t.cells <= most_cells && wrapped == t.cells) meet(unfit_sum_wraps);
  if (t.cells < most_cells && wide && wrapped != t.cells && low == t.cells) meet(unfit_bin_wide);
}

// "4 is for numbers that name none": document 02 numbers VCs 1 to V-1, and path p V + p, 1 to 255.
bool names_a_connection(unsigned v, unsigned c) { return (c >= 1 && c < v) || (c > v && c - v < paths); }

void tally_4(unsigned v, unsigned c) {
  meet(c == 0 ? tally_refused_4_0 : c == v ? tally_refused_4_V : c == v + paths ? tally_refused_4_V_256 : tally_refused_4_above);
}

void tally_waited(const clurimoon_record &record, const clurimoon_tally &before, uint16_t connection, uint16_t space, uint32_t arrival) {
  const uint32_t delay = record.t - arrival;
  if (delay <= 1) meet(delay == 0 ? waited_0 : waited_1);
  if (delay >= 62) meet(delay == 62 ? waited_62 : delay == 63 ? waited_63 : delay == 64 ? waited_64 : waited_longer);
  if (arrival > record.t && delay < 1024) meet(waited_over_the_wrap);
  meet(connection > record.v ? tallied_path : tallied_vc);
  if (space == record.n - 1) meet(tallied_the_last_space);
  if (before.cells == most_cells - 1) meet(took_the_last_cell);
}

} // namespace

clurimoon_burst_end burst(const clurimoon_record &record, Memory lent, Lent<const uint8_t> arrivals,
                          Lent<const uint8_t> sizes, Lent<uint8_t> departures, Lent<uint16_t> answers) {
  const Burst b = {arrivals, sizes, departures, answers};
  if (const uint16_t number = refuse_burst(record, lent, b)) return {record, number, 0};
  return serve_burst(record, lent, b, [](const clurimoon_record &, const clurimoon_answer &) {});
}

clurimoon_tallied tally_slot(const clurimoon_tally &before, const clurimoon_record &record, Lent<const uint32_t> arrived,
                             uint16_t connection, uint16_t space, uint16_t out_vci) {
  const bool fits = adds_up(before), named = names_a_connection(record.v, connection);
  if (!sizes_in_range(record.n, record.v)) {
    meet(tally_refused_1);
    if (arrived.length != record.n) meet(tally_1_before_2);
    return {1, before};
  }
  if (arrived.length != record.n) {
    meet(arrived.length < record.n ? tally_refused_2_short : tally_refused_2_long);
    if (!named) meet(tally_2_before_4);
    return {2, before};
  }
  if (!named) {
    tally_4(record.v, connection);
    if (!fits) meet(tally_4_before_3);
    return {4, before};
  }
  const bool left = out_vci == connection;
  if (!fits || (left && space >= record.n)) {
    if (!fits) tally_unfit(before);
    if (!fits && !left) meet(tally_3_though_another_left);
    if (fits) meet(space == record.n ? tally_3_space_N : tally_3_space_above);
    return {3, before};
  }
  if (!left) {
    meet(out_vci == 0 ? none_left : another_left);
    if (out_vci != 0 && space >= record.n) meet(another_left_with_a_wide_space);
    if (before.cells == most_cells) meet(full_and_another_left);
    return {0, before};
  }
  if (before.cells == most_cells) return meet(full_took_no_more), clurimoon_tallied{0, before};
  tally_waited(record, before, connection, space, arrived.at[space]);
  clurimoon_tallied after = {0, before};
  const uint32_t waited = record.t - arrived.at[space];
  unsigned bin = 0;
  while (bin < bins - 1 && bin != waited) ++bin; // "bin 63 holds all from 63 up"
  after.tally.bins[bin] += 1, after.tally.cells += 1;
  return after;
}

// "the lowest bin at which 1,000 times the running sum is at least the asked share times the cells sent"
clurimoon_bin percentile(const clurimoon_tally &t, uint16_t share) {
  const bool asked = share >= 1 && share <= 1000;
  if (!adds_up(t)) {
    tally_unfit(t);
    if (!asked) meet(percentile_3_before_15);
    return {3, 0};
  }
  if (!asked || t.cells == 0) {
    if (t.cells == 0 && asked) meet(percentile_refused_15_no_cell);
    if (share == 0) meet(percentile_refused_15_share_0);
    if (share == 1001) meet(percentile_refused_15_share_1001);
    return {15, 0};
  }
  uint16_t bin = 0;
  const auto reached = [&](unsigned at) { return 1000 * std::accumulate(t.bins, t.bins + at + 1, uint64_t{0}); };
  while (reached(bin) < share * t.cells) ++bin;
  if (share == 1) meet(percentile_of_share_1);
  if (share == 500) meet(percentile_of_share_500);
  if (share == 999) meet(percentile_of_share_999);
  if (share == 1000) meet(percentile_of_share_1000);
  meet(bin == 0 ? percentile_bin_0 : bin == bins - 1 ? percentile_bin_63 : percentile_between);
  if (reached(bin) == share * t.cells) meet(percentile_reached_exactly);
  if (bin > 0 && reached(bin - 1u) != 0) meet(percentile_one_short_before);
  if (bin > 0 && t.bins[bin - 1] == 0) meet(percentile_past_empty_bins);
  if (t.cells == most_cells) meet(percentile_of_2_to_the_32);
  return {0, bin};
}

clurimoon_burst_tally burst_tallied(const clurimoon_tally &before, uint16_t connection, const clurimoon_record &record, Memory lent,
                                    Lent<const uint8_t> arrivals, Lent<const uint8_t> sizes, Lent<uint8_t> departures,
                                    Lent<uint16_t> answers) {
  const Burst b = {arrivals, sizes, departures, answers};
  const bool named = names_a_connection(record.v, connection), fits = adds_up(before);
  const uint16_t unfit = refuse_burst(record, lent, b); // by N, V and all lengths
  // "the tally is judged once": as after a slot that sent nothing, and then the burst
  uint16_t number = !sizes_in_range(record.n, record.v) ? 1 : lent.arrived.length != record.n ? 2 : !named ? 4 : !fits ? 3 : unfit;
  if (number == 2 && lent.arrived.length == record.n) meet(burst_tally_2_after_the_tally);
  if (number == 2 && !named) meet(burst_tally_2_before_4);
  if (number == 4) {
    meet(burst_tally_refused_4);
    if (!fits) meet(burst_tally_4_before_3);
    if (unfit == 2) meet(burst_tally_4_before_2);
  }
  if (number == 3) {
    meet(burst_tally_refused_3);
    if (unfit == 2) meet(burst_tally_3_before_2);
    else if (sizes.length != 0 && sizes.at[0] != 0 && sizes.at[0] != 53) meet(burst_tally_3_before_9);
  }
  if (number != 0) return {{record, number, 0}, before};
  clurimoon_burst_tally after = {{}, before};
  unsigned took = 0;
  std::vector<bool> departed(record.n, false);
  bool again = false;
  after.end = serve_burst(record, lent, b, [&](const clurimoon_record &now, const clurimoon_answer &a) {
    const clurimoon_tallied tallied = tally_slot(after.tally, now, {lent.arrived.at, lent.arrived.length}, connection, a.space, a.out_vci);
    if (a.out_vci == connection) took += 1, again = again || departed[a.space], departed[a.space] = true;
    after.tally = tallied.tally;
  });
  const bool stopped = after.end.number != 0, filled = before.cells != most_cells && after.tally.cells == most_cells;
  if (stopped) meet(burst_tally_stopped);
  if (took != 0) meet(burst_tally_took);
  if (again) meet(burst_tally_space_taken_again);
  if (filled && after.tally.cells - before.cells < took) meet(burst_tally_filled_up);
  return after;
}

} // namespace calls
