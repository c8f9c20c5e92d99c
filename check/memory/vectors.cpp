// Runs the calls of a file of vectors, each through the archive and through the second implementation: the state before
// it, its arguments, its answer, and the state after it, whole.
//
//   vectors FILE
//
// With ALONE defined the second implementation is run by itself, and no archive is needed.
//
// A vector is some lines up to an empty one: `vector NAME CALL STATE`; the record, the lengths and what the memories hold
// (spaces, connections and words of bits that aren't named are 0); `args`; `answer`; then `after same`, or `after` and the lines that have changed.
// A tally of delays is a line of its own before the call, `tally`, and after it, `tally_after`: the number of cells, and the bins
// that aren't 0. A percentile has a tally and no state.
#include <cstdio>
#include <cstdlib>
#include <fstream>
#include <iterator>
#include <map>
#include <sstream>

#include "calls.hpp"

namespace {

using Lines = std::map<std::string, std::string>;

std::string name;

[[noreturn]] void fail(const std::string &what) {
  std::fprintf(stderr, "FAILED: vector %s: %s\n", name.c_str(), what.c_str());
  std::exit(1);
}

struct State {
  clurimoon_record record{};
  std::vector<uint8_t> cells;
  std::vector<uint16_t> links, calendar;
  std::vector<uint32_t> vcs;
  std::vector<uint64_t> bits;
  std::vector<uint32_t> arrived;
  bool names_arrived = true; // a vector from before request (x) doesn't: there may be anything in them
  clurimoon_tally tally{};
  calls::Memory lend() {
    return {{cells.data(), cells.size()}, {links.data(), links.size()},  {calendar.data(), calendar.size()},
            {vcs.data(), vcs.size()},     {bits.data(), bits.size()},    {arrived.data(), arrived.size()}};
  }
};

uint64_t number_of(const std::string &text) {
  size_t end = 0;
  const uint64_t value = std::stoull(text, &end);
  if (end != text.size()) fail("no number: " + text);
  return value;
}

// `key=value` words, each of which must be asked for.
class Fields {
public:
  explicit Fields(const std::string &line) {
    std::istringstream words(line);
    for (std::string word; words >> word;) {
      const size_t equals = word.find('=');
      if (equals == std::string::npos) fail("no field: " + word);
      values[word.substr(0, equals)] = word.substr(equals + 1);
    }
  }
  std::string text(const std::string &key) {
    const auto found = values.find(key);
    if (found == values.end()) fail("no " + key);
    const std::string value = found->second;
    values.erase(found);
    return value;
  }
  uint64_t number(const std::string &key, uint64_t most) {
    const uint64_t value = number_of(text(key));
    if (value > most) fail(key + " does not fit");
    return value;
  }
  bool has(const std::string &key) const { return values.count(key) != 0; }
  uint16_t half(const std::string &key) { return static_cast<uint16_t>(number(key, UINT16_MAX)); }
  // A field that a vector from before request (xi) hasn't: there all connections are the second operator's.
  uint16_t half_or(const std::string &key, uint16_t value) { return has(key) ? half(key) : value; }
  uint8_t octet(const std::string &key) { return static_cast<uint8_t>(number(key, UINT8_MAX)); }
  uint32_t word(const std::string &key) { return static_cast<uint32_t>(number(key, UINT32_MAX)); }
  void done() const {
    if (!values.empty()) fail("an unknown field: " + values.begin()->first);
  }

private:
  std::map<std::string, std::string> values;
};

std::vector<uint8_t> from_hex(const std::string &digits) {
  std::vector<uint8_t> octets;
  for (size_t k = 0; k + 1 < digits.size(); k += 2)
    octets.push_back(static_cast<uint8_t>(std::stoul(digits.substr(k, 2), nullptr, 16)));
  return octets;
}

template <class Word> std::vector<Word> numbers(std::string text) {
  for (char &c : text)
    if (c == ',') c = ' ';
  std::istringstream from(text);
  std::vector<Word> all;
  for (uint64_t value; from >> value;) all.push_back(static_cast<Word>(value));
  return all;
}

// `place:content` parts into a memory that is 0 elsewhere; `unit` elements a place.
template <class Word, class Read> void place_parts(std::vector<Word> &memory, const std::string &line, size_t unit, Read read, size_t from = 0) {
  std::istringstream parts(line);
  for (std::string part; parts >> part;) {
    const size_t colon = part.find(':');
    const std::vector<Word> content = read(part.substr(colon + 1));
    const size_t at = from + unit * number_of(part.substr(0, colon));
    if (at + content.size() > memory.size()) fail("more than was lent: " + part.substr(0, colon));
    std::copy(content.begin(), content.end(), memory.begin() + static_cast<std::ptrdiff_t>(at));
  }
}

clurimoon_record read_record(const std::string &line) {
  Fields f(line);
  clurimoon_record r{};
  r.n = f.half("N"), r.v = f.half("V"), r.t = f.word("t"), r.T = f.half("T"), r.rotation = f.half("rotation");
  r.free = f.half("free_number");
  r.out_head = f.half("out_head"), r.out_tail = f.half("out_tail");
  r.raw = f.half("raw"), r.mode = f.half("mode"), r.kind = f.half("kind");
  const uint16_t split = r.v == 0 ? 0 : 1; // a record of zeros has none
  r.split_vci = f.half_or("split_vci", split), r.split_path = f.half_or("split_path", split);
  return f.done(), r;
}

// `number=` and the bins that aren't 0.
clurimoon_tally read_tally(const std::string &line) {
  clurimoon_tally tally{};
  const size_t space = line.find(' ');
  Fields number(line.substr(0, space));
  tally.cells = number.number("number", UINT64_MAX), number.done();
  std::vector<uint64_t> bins(CLURIMOON_BINS);
  if (space != std::string::npos) place_parts(bins, line.substr(space + 1), 1, numbers<uint64_t>);
  std::copy(bins.begin(), bins.end(), tally.bins);
  return tally;
}

State read_state(Lines lines) {
  State state;
  if (lines.count("tally")) state.tally = read_tally(lines["tally"]);
  if (!lines.count("length")) return state;
  if (lines.count("rec")) state.record = read_record(lines["rec"]);
  Fields length(lines["length"]);
  state.cells.resize(length.word("cells")), state.vcs.resize(length.word("words"));
  // one lent memory: the bits of the entries stand behind those of the spaces
  const size_t free_bits = length.word("free_bits"), entry_bits = length.word("entry_bits");
  state.bits.resize(free_bits + entry_bits);
  state.links = numbers<uint16_t>(lines["links"]), state.calendar = numbers<uint16_t>(lines["calendar"]);
  if (state.links.size() != length.word("links") || state.calendar.size() != length.word("calendar")) fail("lengths");
  state.arrived = numbers<uint32_t>(lines["arrivals"]), state.names_arrived = length.has("arrivals");
  if (!state.names_arrived) state.arrived.resize(state.links.size());
  else if (state.arrived.size() != length.word("arrivals")) fail("lengths");
  length.done();
  place_parts(state.cells, lines["cells"], 53, from_hex);
  place_parts(state.vcs, lines["words"], 12, numbers<uint32_t>);
  place_parts(state.bits, lines["free_bits"], 1, numbers<uint64_t>);
  place_parts(state.bits, lines["entry_bits"], 1, numbers<uint64_t>, free_bits);
  return state;
}

std::vector<uint64_t> numbers_of(const clurimoon_record &r) {
  return {r.n, r.v, r.t, r.T, r.rotation, r.free, r.out_head, r.out_tail, r.raw, r.mode, r.kind, r.split_vci, r.split_path};
}
template <class Word> void same_memory(const std::string &what, const std::vector<Word> &expected, const std::vector<Word> &got) {
  for (size_t k = 0; k < expected.size(); ++k)
    if (expected[k] != got[k])
      fail(what + "[" + std::to_string(k) + "]: expected " + std::to_string(expected[k]) + ", got " + std::to_string(got[k]));
}

// Where the second implementation is run by itself, no call of the archive is compiled.
#ifdef ALONE
#define BOTH(theirs, ours) (static_cast<void>(archive), ours)
#else
#define BOTH(theirs, ours) (archive ? theirs : ours)
#endif

// Makes the call, on one side or the other, and writes its answer as the file does.
std::string make(bool archive, const std::string &call, const std::string &arguments, State &s) {
  Fields f(arguments);
  std::string answer;
#define THEIRS s.cells.data(), s.cells.size(), s.links.data(), s.links.size(), s.calendar.data(), s.calendar.size(), s.vcs.data(), s.vcs.size(), s.bits.data(), s.bits.size(), s.arrived.data(), s.arrived.size()
#define NAMED_WORDS s.record, s.vcs.data(), s.vcs.size()
  if (call == "setup") {
    const uint16_t n = f.half("N"), v = f.half("V");
    const bool raw = f.number("raw", 1) == 1;
    const uint16_t kind = f.half("kind");
    const calls::Splits splits = {f.half_or("split_vci", 1), f.half_or("split_path", 1)};
    const clurimoon_set set = BOTH(clurimoon_setup(n, v, raw, kind, splits.vci, splits.path, THEIRS),
                                   calls::setup(n, v, raw, kind, splits, s.lend()));
    s.record = set.record;
    answer = "number=" + std::to_string(set.number);
  } else if (call == "open") {
    const bool path = f.number("path", 1) == 1;
    const uint16_t number_asked = f.half("number"), owner = f.half_or("op", 1);
    calls::Rates r{};
    r.m = f.octet("m"), r.f = f.word("F"), r.c = f.word("C");
    r.m2 = f.octet("m2"), r.f2 = f.word("F2"), r.c2 = f.word("C2"), r.tag = f.octet("flag");
    State once_more = s;
    const calls::Name asked = {path, number_asked, owner};
    const uint16_t number = BOTH((path ? clurimoon_open_path : clurimoon_open_sustained)(NAMED_WORDS, owner, number_asked, r.m, r.f, r.c, r.m2, r.f2, r.c2, r.tag),
                                 calls::open(s.record, s.lend().vcs, asked, r));
    if (archive && !path && r.m2 == 0 && r.f2 == 0 && r.c2 == 0 && r.tag == 0) {
      std::swap(s, once_more);
      const uint16_t plain = BOTH(clurimoon_open(NAMED_WORDS, owner, number_asked, r.m, r.f, r.c), number);
      if (plain != number || once_more.vcs != s.vcs) fail("open differs from open_sustained with zeros");
    }
    answer = "number=" + std::to_string(number);
  } else if (call == "close") {
    const bool path = f.number("path", 1) == 1;
    const uint16_t number_asked = f.half("number"), owner = f.half_or("op", 1);
    const calls::Name asked = {path, number_asked, owner};
    answer = "number=" + std::to_string(BOTH((path ? clurimoon_close_path : clurimoon_close)(NAMED_WORDS, owner, number_asked),
                                             calls::close(s.record, s.lend().vcs, asked)));
  } else if (call == "slot") {
    const std::string digits = f.text("cell");
    const std::vector<uint8_t> cell = from_hex(digits == "-" ? "" : digits), before = cell;
    const calls::Lent<const uint8_t> arriving = {cell.data(), cell.size()};
    const clurimoon_served served = BOTH(clurimoon_slot(s.record, THEIRS, cell.data(), cell.size()), calls::slot(s.record, s.lend(), arriving));
    s.record = served.record;
    const clurimoon_answer &a = served.answer;
    if (cell != before) fail("the arriving cell was written");
    answer = "number=" + std::to_string(a.number) + " verdict=" + std::to_string(a.verdict) + " vci=" + std::to_string(a.vci) +
             " d=" + std::to_string(a.d) + " space=" + std::to_string(a.space) + " out=" + std::to_string(a.out_vci);
  } else if (call == "next") {
    const calls::Lent<const uint16_t> calendar = {s.calendar.data(), s.calendar.size()};
    const calls::Lent<const uint64_t> bits = {s.bits.data(), s.bits.size()};
    const clurimoon_wait wait = BOTH(clurimoon_next(s.record, calendar.at, calendar.length, bits.at, bits.length), calls::next(s.record, calendar, bits));
    answer = "number=" + std::to_string(wait.number) + " slots=" + std::to_string(wait.slots);
  } else if (call == "audit") {
    answer = std::string("yes=") + (BOTH(clurimoon_audit(s.record, THEIRS), calls::audit(s.record, s.lend())) ? "1" : "0");
  } else if (call == "tally") {
    const uint16_t named = f.half("named"), space = f.half("space"), out = f.half("out");
    const calls::Lent<const uint32_t> arrived = {s.arrived.data(), s.arrived.size()};
    const clurimoon_tallied tallied = BOTH(clurimoon_tally_slot(s.tally, s.record, arrived.at, arrived.length, named, space, out),
                                           calls::tally_slot(s.tally, s.record, arrived, named, space, out));
    s.tally = tallied.tally;
    answer = "number=" + std::to_string(tallied.number);
  } else if (call == "percentile") {
    const uint16_t share = f.half("share");
    const clurimoon_bin bin = BOTH(clurimoon_percentile(s.tally, share), calls::percentile(s.tally, share));
    answer = "number=" + std::to_string(bin.number) + " bin=" + std::to_string(bin.bin);
  } else {
    fail("no such call: " + call);
  }
  return f.done(), answer;
}

void run(bool archive, const std::string &call, const Lines &before, const Lines &after) {
  State state = read_state(before);
  const std::string who = archive ? "the archive" : "the second implementation";
  const std::string answer = make(archive, call, before.at("args"), state);
  if (answer != before.at("answer")) fail(who + " answers " + answer + ", expected " + before.at("answer"));
  State expected = read_state(after);
  if (numbers_of(expected.record) != numbers_of(state.record)) fail(who + " hands back another record");
  same_memory(who + ": cells", expected.cells, state.cells);
  same_memory(who + ": links", expected.links, state.links);
  same_memory(who + ": calendar", expected.calendar, state.calendar);
  same_memory(who + ": VC words", expected.vcs, state.vcs);
  same_memory(who + ": bits", expected.bits, state.bits);
  if (expected.names_arrived) same_memory(who + ": arrival slots", expected.arrived, state.arrived);
  if (expected.tally.cells != state.tally.cells) fail(who + ": another number of cells in the tally");
  same_memory(who + ": bins", std::vector<uint64_t>(expected.tally.bins, expected.tally.bins + CLURIMOON_BINS),
              std::vector<uint64_t>(state.tally.bins, state.tally.bins + CLURIMOON_BINS));
}

} // namespace

int main(int count, char **arguments) {
  if (count != 2) return std::fprintf(stderr, "vectors FILE\n"), 2;
  std::ifstream file(arguments[1]);
  if (!file) return std::perror(arguments[1]), 2;
  unsigned vectors = 0;
  std::map<std::string, unsigned> numbers_met;
  while (file.peek() != std::ifstream::traits_type::eof()) {
    Lines before, after;
    std::string call;
    bool changed = false;
    for (std::string line; std::getline(file, line) && !line.empty();) {
      const size_t space = line.find(' ');
      const std::string key = line.substr(0, space), rest = space == std::string::npos ? "" : line.substr(space + 1);
      if (key == "vector") {
        std::istringstream words(rest);
        words >> name >> call;
      } else if (key == "after") {
        changed = true, after = before;
        if (rest != "" && rest != "same") fail("after what?");
      } else if (key == "tally") {
        before[key] = after[key] = rest;
      } else if (key == "tally_after") {
        if (rest != "same") after["tally"] = rest;
      } else {
        (changed ? after : before)[key] = rest;
      }
    }
    if (!changed && call == "percentile") after = before, changed = true; // it has no state
    if (!changed) fail("it has no end");
    run(false, call, before, after);
#ifndef ALONE
    run(true, call, before, after);
#endif
    vectors += 1, numbers_met[call + " " + before["answer"].substr(0, before["answer"].find(' '))] += 1;
  }
#ifdef ALONE
  const char *const who = "second implementation";
#else
  const char *const who = "archive and second implementation";
#endif
  std::printf("vectors: %u calls from %s, %s:", vectors, arguments[1], who);
  for (const auto &[what, times] : numbers_met) std::printf(" %s (%u)", what.c_str(), times);
  std::printf("\n");
  return vectors == 0;
}
