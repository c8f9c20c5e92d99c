#include "text.hpp"

#include <cctype>
#include <cstdint>
#include <map>
#include <vector>

namespace second {

namespace {

// The fields behind a mark, in octets; 53 is a cell.
const std::map<std::string, std::vector<size_t>> &fields() {
  static const std::map<std::string, std::vector<size_t>> all = {
      {"GM", {2, 2}}, {"GR", {2, 2}},       {"GN", {2, 2}}, {"VO", {2, 1, 4, 4}},
      {"VX", {2}},    {"PO", {2, 1, 4, 4}}, {"PX", {2}},    {"VS", {2, 1, 4, 4, 1, 4, 4, 1}},
      {"CA", {53}},   {"SL", {2}}};
  return all;
}

bool sets_up(const std::string &mark) { return mark[0] == 'G'; }

// The greatest number of a field; a pause may be longer than its record can say.
const char *bound(const std::string &mark, size_t octets) {
  if (mark == "SL" || octets == 4) return "4294967295";
  return octets == 1 ? "255" : "65535";
}

bool all_in(const std::string &word, const char *allowed) {
  return !word.empty() && word.find_first_not_of(allowed) == std::string::npos;
}

// Of two decimal numbers without leading zeros the longer is greater, and of two
// that are equally long the one that comes later in a dictionary.
bool is_number(const std::string &word, const std::string &most) {
  if (!all_in(word, "0123456789")) return false;
  if (word.size() > 1 && word[0] == '0') return false;
  return word.size() < most.size() || (word.size() == most.size() && word <= most);
}

std::string high_first(uint64_t number, size_t octets) {
  std::string text;
  for (size_t k = octets; k-- > 0;) text += static_cast<char>(number >> 8 * k & 255);
  return text;
}

unsigned hex_value(char digit) {
  const std::string low = "0123456789abcdef";
  return static_cast<unsigned>(low.find(static_cast<char>(std::tolower(static_cast<unsigned char>(digit)))));
}

std::vector<std::string> words_of(const std::string &line) {
  std::vector<std::string> words(1);
  for (char octet : line)
    if (octet == ' ') words.emplace_back();
    else words.back() += octet;
  return words;
}

struct Line {
  bool good = false;
  uint64_t pause = 0;  // of an SL
  std::string octets; // of any other record
};

// A line without its line feed.
Line read_line(const std::string &text, bool first) {
  const std::vector<std::string> words = words_of(text);
  const auto found = fields().find(words[0]);
  if (found == fields().end() || sets_up(words[0]) != first) return {};
  const std::vector<size_t> &wanted = found->second;
  if (words.size() != wanted.size() + 1) return {};
  Line line;
  line.octets = words[0];
  for (size_t k = 0; k < wanted.size(); ++k) {
    const std::string &word = words[k + 1];
    if (wanted[k] == 53) {
      if (word.size() != 106 || !all_in(word, "0123456789abcdefABCDEF")) return {};
      for (size_t i = 0; i < 106; i += 2)
        line.octets += static_cast<char>(hex_value(word[i]) * 16 + hex_value(word[i + 1]));
      continue;
    }
    if (!is_number(word, bound(words[0], wanted[k]))) return {};
    const uint64_t number = std::stoull(word);
    if (words[0] == "SL") line.pause = number;
    else line.octets += high_first(number, wanted[k]);
  }
  line.good = words[0] != "SL" || line.pause != 0;
  return line;
}

Said stop(const std::string &what) { return {"", "stop " + what + "\n"}; }

// A run of pauses, all of it: first how many records are full, then what is left.
// Those beyond the room aren't made: one octet too many says as much.
void write_pause(std::string &trace, uint64_t &sum, size_t room) {
  for (uint64_t full = sum / 65535; full > 0 && trace.size() <= room; --full) trace += "SL\xff\xff";
  if (sum % 65535 != 0) trace += "SL" + high_first(sum % 65535, 2);
  sum = 0;
}

std::string decimal(const std::string &trace, size_t place, size_t octets) {
  uint64_t number = 0;
  for (size_t k = 0; k < octets; ++k) number = number * 256 + static_cast<unsigned char>(trace[place + k]);
  return std::to_string(number);
}

std::string hex(const std::string &trace, size_t place) {
  static const char digits[] = "0123456789abcdef";
  std::string text;
  for (size_t k = 0; k < 53; ++k) {
    const auto octet = static_cast<unsigned char>(trace[place + k]);
    text += digits[octet / 16], text += digits[octet % 16];
  }
  return text;
}

} // namespace

Said scribe(const std::string &text, size_t room) {
  std::string trace;
  uint64_t sum = 0;
  size_t place = 0;
  do {
    const size_t feed = text.find('\n', place);
    if (feed == std::string::npos || feed >= text_limit) return stop("10 " + std::to_string(place));
    const Line line = read_line(text.substr(place, feed - place), place == 0);
    if (!line.good) return stop("10 " + std::to_string(place));
    if (line.pause == 0) write_pause(trace, sum, room), trace += line.octets;
    sum += line.pause;
    place = feed + 1;
  } while (place < text.size());
  write_pause(trace, sum, room);
  return trace.size() > room ? stop("14") : Said{trace, ""};
}

Said unscribe(const std::string &trace) {
  const std::string within = trace.substr(0, text_limit);
  Said said;
  size_t place = 0;
  do {
    const auto found = fields().find(within.substr(place, 2));
    size_t size = 2;
    if (found != fields().end())
      for (size_t octets : found->second) size += octets;
    const bool none = found == fields().end() || sets_up(found->first) != (place == 0) ||
                      within.size() - place < size ||
                      (found->first == "SL" && within.substr(place + 2, 2) == std::string(2, '\0'));
    if (none) return said.err = "stop 10 " + std::to_string(place) + "\n", said;
    said.out += found->first;
    size_t field = place + 2;
    for (size_t octets : found->second) {
      said.out += " " + (octets == 53 ? hex(within, field) : decimal(within, field, octets));
      field += octets;
    }
    said.out += "\n";
    place = field;
  } while (place < trace.size());
  return said;
}

} // namespace second
