#include "second.hpp"

#include <algorithm>

namespace second {

namespace {

constexpr size_t limit = 65536;

std::string text(uint64_t number) { return std::to_string(number); }
std::string text32(uint64_t number) { return std::to_string(number % (uint64_t{1} << 32)); }

// Octets of a record by its mark; 0 for a mark that is not known.
size_t record_size(uint8_t first, uint8_t second) {
  const std::string mark{static_cast<char>(first), static_cast<char>(second)};
  static const std::map<std::string, size_t> sizes = {
      {"GM", 2 + 2 + 2}, {"GR", 2 + 2 + 2}, {"GN", 2 + 2 + 2}, {"VO", 2 + 2 + 1 + 4 + 4},
      {"VX", 2 + 2},     {"CA", 2 + 53},    {"SL", 2 + 2},     {"PO", 2 + 2 + 1 + 4 + 4},
      {"PX", 2 + 2},     {"VS", 2 + 2 + 1 + 4 + 4 + 1 + 4 + 4 + 1}};
  const auto found = sizes.find(mark);
  return found == sizes.end() ? 0 : found->second;
}

} // namespace

uint64_t Spacer::number(size_t place, size_t octets) const {
  uint64_t value = 0;
  for (size_t k = 0; k < octets; ++k) value = value * 256 + input[place + k];
  return value;
}

std::string Spacer::list() {
  const bool more = input.size() > limit;
  run(std::min(input.size(), limit), more);
  uint64_t waiting = 0;
  for (const Opening &connection : openings) waiting += connection.waiting;
  listing += "end " + text32(accepted) + " " + text32(excess) + " " + text32(unknown) + " " + text32(sent) +
             " " + text32(waiting) + "\n";
  return listing;
}

void Spacer::stop(size_t place, const char *why) {
  met(std::string("stop: ") + why);
  listing += "stop 10 " + text(place) + "\n";
}

void Spacer::run(size_t readable, bool more) {
  if (readable == 0) return stop(0, "empty trace");
  size_t place = 0;
  while (place < readable) {
    const size_t left = readable - place;
    const size_t size = left < 2 ? 0 : record_size(input[place], input[place + 1]);
    if (left < 2) return stop(place, more ? "mark cut by the limit" : "one octet of a mark");
    if (size == 0) return stop(place, place == 0 ? "first mark unknown" : "mark unknown");
    const char mark = static_cast<char>(input[place + 1]);
    const bool sets_up = mark == 'M' || mark == 'R' || mark == 'N';
    if (place == 0 && !sets_up) return stop(place, "first is none of GM, GR and GN");
    if (place != 0 && sets_up) return stop(place, mark == 'M' ? "a later GM" : mark == 'R' ? "a later GR" : "a later GN");
    if (size > left) return stop(place, more ? "record cut by the limit" : "record cut by the end");
    if (mark == 'L' && number(place + 2, 2) == 0) return stop(place, "SL of 0");
    if (sets_up && !setup(place)) return;
    if (mark == 'O' || mark == 'S') open(place);
    if (mark == 'X') close(place);
    if (mark == 'A') slot(&input[place + 2]);
    if (mark == 'L')
      for (uint64_t k = number(place + 2, 2); k > 0; --k) slot(nullptr);
    place += size;
  }
  if (more) return stop(place, "input goes on at the limit");
  met(place == limit ? "plain end at the limit" : "plain end");
}

bool Spacer::setup(size_t place) {
  spaces = number(place + 2, 2), vcs = number(place + 4, 2);
  raw = input[place + 1] == 'R', nni = input[place + 1] == 'N';
  const bool good = spaces >= 1 && spaces <= 1024 && vcs >= 2 && vcs <= 1024;
  listing += "setup " + text(spaces) + " " + text(vcs) + (good ? " 0\n" : " 1\n");
  if (good && (spaces == 1 || spaces == 1024)) met("N at an edge");
  if (good && (vcs == 2 || vcs == 1024)) met("V at an edge");
  if (spaces == 0 || spaces == 1025) met("N one past an edge");
  if (vcs == 1 || vcs == 1025) met("V one past an edge");
  met(good ? "setup 0" : "setup 1");
  if (raw) met(good ? "GR: setup 0" : "GR: setup 1");
  if (nni) met(good ? "GN: setup 0" : "GN: setup 1");
  // "Path records, 256 with the first unused, stand after the V records and follow the same rules".
  if (good) openings.resize(vcs + 256), pasts.resize(vcs + 256);
  return good;
}

// The rules of refusal 6, and which of them are met exactly.
bool Spacer::within_rules(uint64_t m, uint64_t f, uint64_t c) {
  const uint64_t leak = m <= 15 ? uint64_t{1} << m : 0;
  const char *broken = m > 15                        ? "m"
                       : f < leak                    ? "F below L"
                       : f > 16777216                ? "F high"
                       : c < f                       ? "C below F"
                       : (c - f) / leak > spaces - 1 ? "C high"
                                                     : nullptr;
  if (broken) {
    met(std::string("6: ") + broken);
    if (m == 16) met("6: m 16");
    if (m <= 15 && f + 1 == leak) met("6: F one below L");
    if (m <= 15 && f == 16777217) met("6: F one high");
    if (m <= 15 && f >= leak && c + 1 == f) met("6: C one below F");
    if (m <= 15 && f >= leak && f <= 16777216 && c == f + spaces * leak) met("6: C one high");
    return false;
  }
  if (m == 15) met("0: m 15");
  if (f == leak) met("0: F is L");
  if (f == 16777216) met("0: F greatest");
  if (c == f) met("0: C is F");
  if (c == f + spaces * leak - 1) met("0: C greatest");
  return true;
}

namespace {

// The limits of 11: m (0 to 15), F (1 to 2^24), C (F to 2^30), flag (0 or 1), or all of them 0. F may be below L, and
// nothing is said of N.
const char *broken_limit(uint64_t m, uint64_t f, uint64_t c, uint64_t flag) {
  if (m == 0 && f == 0 && c == 0 && flag == 0) return nullptr;
  return m > 15          ? "m"
         : f == 0       ? "F 0"
         : f > 16777216 ? "F high"
         : c < f        ? "C below F"
         : c > 1u << 30 ? "C high"
         : flag > 1     ? "flag"
                        : nullptr;
}

} // namespace

// Which of the limits are broken, and which are met exactly.
bool Spacer::within_limits(const Opening &asked, uint64_t m2, uint64_t flag) {
  const uint64_t f = asked.f2, c = asked.c2;
  if (const char *broken = broken_limit(m2, f, c, flag)) {
    met(std::string("11: ") + broken);
    if (f == 0 && c == 0 && (m2 == 0 || flag == 0)) met("11: zeros but one");
    if (m2 == 16 && f != 0) met("11: m 16");
    if (m2 <= 15 && f == 16777217 && c >= f) met("11: F one high");
    if (m2 <= 15 && f > 1 && c + 1 == f) met("11: C one below F");
    if (m2 <= 15 && f != 0 && c == (1u << 30) + 1) met("11: C one high");
    return false;
  }
  if (f == 0) return true;
  if (m2 == 15) met("0: second m 15");
  if (f < uint64_t{1} << m2) met("0: second F below L");
  if (f == 1) met("0: second F 1");
  if (f == 16777216) met("0: second F greatest");
  if (c == f) met("0: second C is F");
  if (c == 1u << 30) met("0: second C greatest");
  if (c - f >= spaces << m2) met("0: second tolerance above N");
  return true;
}

// What an open or close names: a VC by its VCI, 1 to V-1, or a path by its VPI, 1 to 255.
Spacer::Named Spacer::named_at(size_t place) {
  const uint64_t asked = number(place + 2, 2);
  const bool path = input[place] == 'P', exists = asked >= 1 && asked <= (path ? 255 : vcs - 1);
  if (path && (asked == 1 || asked == 255)) met("path number at an edge");
  if (path && (asked == 0 || asked == 256)) met("path number one past an edge");
  if (path && vcs + asked == 66559) met("path number 66559");
  if (!path && asked > vcs && asked < vcs + 256 && openings[asked].open) met("4: VCI that is the number of an open path");
  return {path ? vcs + asked : asked, exists};
}

// VO; PO, which is VO with the VPI; or VS: "as VO, then m (8), F (32), C (32), flag (8)".
void Spacer::open(size_t place) {
  const bool sustained = input[place + 1] == 'S';
  const Named named = named_at(place);
  const uint64_t m = number(place + 4, 1);
  const uint64_t m2 = sustained ? number(place + 13, 1) : 0, flag = sustained ? number(place + 22, 1) : 0;
  Opening asked;
  asked.open = true;
  asked.f = number(place + 5, 4), asked.c = number(place + 9, 4);
  if (sustained) asked.f2 = number(place + 14, 4), asked.c2 = number(place + 18, 4);
  const int answer = open_with(asked, named, m, m2, flag);
  met((sustained ? "VS: open " : input[place] == 'P' ? "PO: open " : "open ") + text(static_cast<uint64_t>(answer)));
  if (sustained && answer == 0 && asked.f2 == 0) met("VS: open 0, zeros");
  listing += "open " + text(named.number) + " " + text(static_cast<uint64_t>(answer)) + "\n";
}

int Spacer::open_with(const Opening &asked, const Named &named, uint64_t m, uint64_t m2, uint64_t flag) {
  if (!named.exists) return 4;
  const uint64_t c = named.number;
  if (openings[c].open) return 5;
  if (!within_rules(m, asked.f, asked.c)) {
    if (broken_limit(m2, asked.f2, asked.c2, flag)) met("6 before 11");
    return 6;
  }
  if (!within_limits(asked, m2, flag)) return 11;
  openings[c] = asked;
  openings[c].m = static_cast<unsigned>(m), openings[c].m2 = static_cast<unsigned>(m2);
  openings[c].tags = flag == 1;
  const bool at_once = pasts[c].next_due != 0 && pasts[c].closed_at == now;
  if (at_once) met(c < vcs ? "reopened at once" : "path reopened at once");
  if (at_once && pasts[c].owed2 && asked.f2 != 0) met("reopened at once, the second debt wiped");
  return 0;
}

void Spacer::close(size_t place) {
  const Named named = named_at(place);
  const uint64_t c = named.number;
  int answer = 0;
  if (!named.exists) answer = 4;
  else if (!openings[c].open) answer = 7;
  else if (!may_close(openings[c])) answer = 8;
  if (answer == 0) {
    const Opening &vc = openings[c];
    // "Closing looks at the peak bucket only."
    const bool owed2 = vc.next_due2 > 0 && vc.next_due2 > (now - 1) << vc.m2;
    if (vc.f2 != 0) met(owed2 ? "close 0: second bucket not empty" : "close 0: second bucket empty");
    if (vc.next_due != 0) pasts[c] = {vc.next_due, vc.m, now, owed2};
    openings[c] = Opening();
  }
  met((input[place] == 'P' ? "PX: close " : "close ") + text(static_cast<uint64_t>(answer)));
  listing += "close " + text(c) + " " + text(static_cast<uint64_t>(answer)) + "\n";
}

// A connection may be closed when all its cells have left and a further cell, had it come in
// the slot just served, would not have been early by any part of a slot.
bool Spacer::may_close(const Opening &vc) {
  if (vc.next_due == 0) return met("close 0: no cell accepted"), true;
  // Slot now-1 was served, since a cell was accepted; `paid` is the first without debt.
  const uint64_t leak = uint64_t{1} << vc.m, paid = (vc.next_due + leak - 1) / leak;
  const bool owes = paid > now - 1;
  if (owes && paid == now) met("close 8: a slot before the debt is paid");
  if (owes) return met(vc.waiting ? "close 8: both" : "close 8: debt only"), false;
  if (vc.waiting != 0) return met("close 8: waiting only"), false;
  met(paid == now - 1 ? "close 0: in the slot in which the debt is paid" : "close 0: later");
  return true;
}

void Spacer::slot(const uint8_t *cell) {
  listing += text32(now) + " " + (cell ? take_in(cell) : ". - -");
  paused = !cell;
  // What is due now goes out after what is already leaving, the latest arrival first.
  const auto queue = due.find(now);
  if (queue != due.end()) {
    leaving.insert(leaving.end(), queue->second.rbegin(), queue->second.rend());
    due.erase(queue);
  }
  if (leaving.empty()) {
    listing += " -\n";
  } else {
    const Cell first = leaving.front();
    leaving.pop_front();
    openings[first.connection].waiting -= 1;
    sent += 1;
    if (spaces > 1 && now - first.due_slot == spaces - 1)
      met(first.connection < vcs ? "left N-1 slots late" : "path: left N-1 slots late");
    listing += " " + text(first.connection) + "\n";
  }
  now += 1;
}

// Where the trace is raw, the header check lets the cell through, mended or as it came, or drops it.
std::string Spacer::take_in(const uint8_t *cell) {
  const Header came = {cell[0], cell[1], cell[2], cell[3], cell[4]};
  if (!raw) {
    if (!is_clean(came)) met("not raw: another octet 5");
    return arrive(came);
  }
  const bool correcting = header_check.in_correction();
  Header header = came;
  const bool taken = header_check.takes(header);
  const std::string said = taken ? arrive(header) : "H - -";
  meet_check(came, correcting, taken, said[0]);
  return said;
}

void Spacer::meet_check(const Header &came, bool correcting, bool taken, char verdict) {
  const std::string mode = correcting ? " in correction" : " in detection";
  const unsigned bit = wrong_bit(came);
  const bool no_user_cell = (came[0] & 15) == 0 && came[1] == 0 && came[2] == 0 && came[3] < 16;
  if (bit == 40) met("raw: clean" + mode);
  if (!taken) met("H: " + std::string(bit == 41 ? "more than one" : "one wrong bit") + mode);
  if (!taken && paused) met("H: after a pause" + mode);
  if (!taken && due.count(now) + leaving.size() > 0) met("H: another cell leaves");
  if (!taken && no_user_cell) met("H: no user cell");
  if (bit == 40 && came == Header{0, 0, 0, 0, 0x55}) met("raw: unassigned, clean" + mode);
  if (bit == 40 && came == Header{0, 0, 0, 1, 0x52}) met("raw: idle, clean" + mode);
  if (!taken || bit == 40) return;
  met("raw: mended " + std::string(1, verdict));
  met("raw: bit " + text(bit) + " mended");
  if (no_user_cell && verdict != '.') met("raw: mended from no user cell");
}

// At the UNI octet 1 is GFC and the VPI's high four bits; at the NNI all eight of it are the VPI's.
Spacer::Read Spacer::read(const Header &cell) const {
  const unsigned high = nni ? cell[0] : cell[0] % 16;
  return {high * 16 + cell[1] / 16, cell[1] % 16 * 4096u + cell[2] * 16u + cell[3] / 16, cell[3] % 2 == 1};
}

std::string Spacer::arrive(const Header &cell) {
  const Read header = read(cell);
  const bool gfc = !nni && cell[0] >= 16;
  if (header.vpi == 0 && header.vci == 0) return met(gfc ? "no user cell, with GFC" : "no user cell"), ". - -";
  if (header.vpi == 0 && header.vci < vcs && openings[header.vci].open) {
    met(nni ? "VC at the NNI" : gfc ? "VC with GFC" : "VC");
    return arrive_open(openings[header.vci], header.vci, header.clp);
  }
  // "On VPI 1 to 255 all cells with that VPI share one bucket, whatever their VCI."
  const unsigned path = static_cast<unsigned>(vcs) + header.vpi;
  if (header.vpi >= 1 && header.vpi <= 255 && openings[path].open) {
    const std::string said = arrive_open(openings[path], path, header.clp);
    meet_path(openings[path], cell, header, said[0]);
    return said;
  }
  return arrive_unknown(header);
}

// "Any other VPI above 0 is unknown", and the VCI is the one that was read.
std::string Spacer::arrive_unknown(const Read &header) {
  const auto [vpi, vci, clp] = header;
  unknown += 1;
  const bool names_vc = vci < vcs && openings[vci].open;
  const std::string where = nni ? " at the NNI" : " at the UNI";
  if (vpi == 0) met(vci >= vcs ? "U: VCI high" : "U: not open");
  else if (vpi <= 255) met("U: closed path" + where);
  else met("U: VPI above 255");
  if (vpi == 0 && vci > vcs && vci < vcs + 256 && openings[vci].open) met("U: VCI that is the number of an open path");
  if (vpi != 0 && vci == 0) met("U: VPI not 0, VCI 0");
  if (vpi != 0 && vpi <= 255 && names_vc) met("U: closed path, VCI of an open VC");
  if (vpi == 256) met("U: VPI 256");
  if (vpi == 4095) met("U: VPI 4095");
  if (vpi > 255 && vpi % 256 == 0 && names_vc) met("U: VPI above 255 that ends in 0, VCI of an open VC");
  if (vpi > 255 && vpi % 256 != 0 && openings[vcs + vpi % 256].open) met("U: VPI above 255 that ends as an open path's");
  return "U " + text(vci) + " -";
}

void Spacer::meet_path(Opening &path, const Header &cell, const Read &header, char verdict) {
  const std::string where = nni ? " at the NNI" : " at the UNI";
  met(std::string("path: ") + verdict + where);
  if (header.vci == 0) met("path: VCI 0" + where);
  if (header.vci < vcs && openings[header.vci].open) met("path: VCI of an open VC");
  if (header.vci >= vcs) met("path: VCI of V or more");
  if (header.vpi == 1 || header.vpi == 255) met("path: VPI at an edge" + where);
  if (!nni && cell[0] >= 16) met("path: with GFC");
  if (path.has_vci && path.last_vci != header.vci) met(verdict == 'X' ? "path: X, another VCI than the cell before" : "path: another VCI than the cell before");
  path.last_vci = header.vci, path.has_vci = true;
}

std::string Spacer::arrive_open(Opening &vc, unsigned connection, bool clp) {
  const uint64_t leak = uint64_t{1} << vc.m, arrival = now * leak;
  const uint64_t due_time = std::max(arrival, vc.next_due);
  // The exact leak rule: what is still owed may be at most C-F.
  const bool above_peak = due_time - arrival > vc.c - vc.f;
  const bool within = sustained(vc, clp, above_peak);
  meet_engine(vc, due_time, above_peak);
  if (above_peak || (!within && !vc.tags)) {
    excess += 1;
    if (above_peak && due_time - arrival == vc.c - vc.f + 1) met("X: one part too early");
    return met(above_peak ? "X" : "X: by the second bucket"), "X " + text(connection) + " -";
  }
  if (due_time != arrival && due_time - arrival == vc.c - vc.f) met("A: just in time");
  if (vc.next_due == 0 && pasts[connection].next_due != 0) meet_reopening(vc, pasts[connection], due_time);
  vc.next_due = due_time + vc.f;
  vc.waiting += 1;
  accepted += 1;
  const uint64_t due_slot = due_time / leak;
  due[due_slot].push_back({connection, due_slot});
  if (spaces > 1 && due_slot - now == spaces - 1) met("A: D is N-1");
  if (due[due_slot].size() > 1) met("A: joins others");
  const char *const letter = within ? "A" : "T";
  if (!within && due_slot != now) met("T: D above 0");
  return met(letter), letter + (" " + text(connection)) + " " + text(due_slot - now);
}

// Whether the cell is within the sustainable rate; if so, and CLP 0 and not above the peak, it counts against it. A cell
// of CLP 1 is always within, and a VC without a second bucket has no such rate.
bool Spacer::sustained(Opening &vc, bool clp, bool above_peak) {
  if (vc.f2 == 0) return true;
  const uint64_t arrival = now << vc.m2, due_time = std::max(arrival, vc.next_due2), early = due_time - arrival;
  const bool above = early > vc.c2 - vc.f2;
  if (above_peak) {
    met(!above ? "X: within the second bucket" : vc.tags ? "X: above both, with the flag" : "X: above both");
    return true;
  }
  if (clp) return met(above ? "A: CLP 1, above the second bucket" : "A: CLP 1"), true;
  if (above && early == vc.c2 - vc.f2 + 1) met("second: one part too early");
  if (!above && early != 0 && early == vc.c2 - vc.f2) met("second: just in time");
  if (above) return false;
  vc.next_due2 = due_time + vc.f2, met("A: fills both");
  meet_bound(vc, arrival);
  return true;
}

// "In any w consecutive slots at most 1 + floor(((w-1) x L + C-F) / F)" of these cells: so the k-th and an earlier one,
// i-th, lie apart by at least (k - i) x F - (C-F) parts. The earlier one that asks for most is kept.
void Spacer::meet_bound(Opening &vc, uint64_t arrival) {
  const Wide spared = Wide(arrival) - Wide(vc.sustained_cells) * Wide(vc.f2), tolerance = Wide(vc.c2 - vc.f2);
  if (vc.sustained_cells == 0) vc.most_spared = spared;
  if (spared < vc.most_spared - tolerance) met("FALSE: more CLP 0 cells pass than the sustainable rate allows");
  if (vc.sustained_cells != 0 && spared - (vc.most_spared - tolerance) < Wide(vc.f2)) met("second: as many as the bound allows");
  vc.most_spared = std::max(vc.most_spared, spared);
  vc.sustained_cells += 1;
}

// Virtual scheduling says of each cell what the leak rule says, with the same due time: on a VC where nothing but the
// peak bucket makes a cell excess.
void Spacer::meet_engine(Opening &vc, uint64_t due_time, bool is_excess) {
  if (vc.f2 != 0 && !vc.tags) return;
  const Told told = gcra(vc.engine, {spaces, vc.m, vc.f, vc.c}, now);
  vc.engine = told.kept;
  if (told.number != 0 || told.verdict != (is_excess ? 2u : 1u) || told.due != (is_excess ? 0 : due_time))
    return met("FALSE: the generator's rule says otherwise");
  met(told.early > 0 ? is_excess ? "rule: nonconforming" : "rule: conforming, early" : "rule: conforming, late or on time");
}

// "The first due time is at least the last due time of the old opening plus its F",
// in slots as fractions; close leaves a whole slot to spare.
void Spacer::meet_reopening(const Opening &vc, const Past &past, uint64_t due_time) {
  const uint64_t leak = uint64_t{1} << vc.m, past_leak = uint64_t{1} << past.m;
  if (due_time * past_leak < past.next_due * leak) return met("FALSE: reopened before the old debt was paid");
  const bool soonest = due_time * past_leak == past.next_due * leak + leak * past_leak;
  met(soonest ? "A: reopened, exactly a slot after the old debt" : "A: reopened");
}

} // namespace second
