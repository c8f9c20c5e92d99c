#include "salvage.hpp"

#include <algorithm>
#include <map>

namespace second {

namespace {

// Octets of a record, and whether it is a first one, by its mark: the one list of known marks.
struct Known {
  size_t size;
  bool first;
};
const std::map<std::string, Known> marks = {{"GM", {6, true}},   {"GR", {6, true}},   {"GN", {6, true}},
                                            {"VO", {13, false}}, {"VS", {23, false}}, {"VX", {4, false}},
                                            {"PO", {13, false}}, {"PX", {4, false}},  {"CA", {55, false}},
                                            {"SL", {4, false}}};

class Table {
public:
  Table(const Octets &input, size_t kept) : input(input), kept(std::min(kept, input.size())), next(this->kept + 1) {
    next[this->kept] = input.size();
    for (size_t place = this->kept; place-- > 0;) next[place] = resumes(place) ? place : next[place + 1];
  }

  const Known *mark(size_t place) const {
    if (place + 2 > kept) return nullptr;
    const auto found = marks.find(std::string(input.begin() + static_cast<std::ptrdiff_t>(place),
                                              input.begin() + static_cast<std::ptrdiff_t>(place + 2)));
    return found == marks.end() ? nullptr : &found->second;
  }
  // The octets of the readable record at a place, or 0.
  size_t record(size_t place) const {
    const Known *known = mark(place);
    if (!known || known->first != (place == 0) || place + known->size > kept) return 0;
    if (input[place] == 'S' && input[place + 2] == 0 && input[place + 3] == 0) return 0;
    return known->size;
  }
  // "a whole readable record stands, directly followed by a known mark or the end"
  bool resumes(size_t place) const {
    const size_t size = record(place);
    return size != 0 && (place + size == input.size() || mark(place + size));
  }
  // The first place to resume at from `place` on, or the input's end.
  size_t from(size_t place) const { return place >= kept ? input.size() : next[place]; }

  const Octets &input;
  const size_t kept;

private:
  std::vector<size_t> next;
};

// Why nothing is read at a place, for the counters.
const char *why(const Table &table, size_t place) {
  const Known *known = table.mark(place);
  if (place == table.kept) return "nothing kept there";
  if (!known) return place + 2 > table.kept ? "half a mark" : "no mark";
  if (known->first) return "a later GM, GR or GN";
  return place + known->size > table.kept ? "a short record" : "SL of 0";
}

// What lies in a stretch, for the counters.
void meet(const Table &table, size_t from, size_t end, Met &met) {
  met(std::string("stretch: ") + why(table, from));
  for (size_t place = from + 1; place < std::min(end, table.kept); ++place) {
    const size_t size = table.record(place);
    if (size == 0) continue;
    const size_t left = table.input.size() - place - size;
    if (place + size == table.kept && left > 0) met("not resumed at: the kept octets end behind it");
    else met(left == 1 ? "not resumed at: one octet behind it" : "not resumed at: no mark behind it");
  }
  if (end == table.input.size()) met("stretch to the end");
  else met(end - from == 1 ? "stretch of one octet" : "stretch of more");
  if (end < table.input.size() && table.mark(end + table.record(end)) &&
      table.mark(end + table.record(end))->first)
    met("resumed before a GM, GR or GN");
  if (end < table.input.size() && end + table.record(end) == table.input.size()) met("resumed at the last record");
}

} // namespace

Salvaged salvage(const Octets &input, Met &met, size_t kept) {
  const Table table(input, kept);
  if (table.record(0) == 0) return met("17"), Salvaged{{}, "stop 17\n"};
  Salvaged all;
  size_t stretches = 0;
  for (size_t place = 0; place < input.size();) {
    if (const size_t size = table.record(place)) {
      const auto begin = input.begin() + static_cast<std::ptrdiff_t>(place);
      all.mended.insert(all.mended.end(), begin, begin + static_cast<std::ptrdiff_t>(size));
      if (stretches > 0) met("record kept after a stretch");
      place += size;
      if (place == table.kept && place < input.size()) met("record kept at the end of the kept octets");
      continue;
    }
    const size_t end = table.from(place + 1);
    meet(table, place, end, met);
    all.listing += std::to_string(place) + " " + std::to_string(end - place) + "\n";
    if (end > table.kept) met("stretch beyond the kept octets");
    ++stretches, place = end;
  }
  met(stretches == 0 ? "no stretch" : stretches == 1 ? "one stretch" : "several stretches");
  return all;
}

} // namespace second
