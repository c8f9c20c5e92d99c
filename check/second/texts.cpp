// Runs `scribe` and `unscribe` on generated texts and traces and compares what they
// say with the second writer and printer, octet for octet, on both outputs.
//
//   texts SCRIBE UNSCRIBE SEED TEXTS FOLDER      generated texts and traces
//   texts SCRIBE UNSCRIBE vectors FILE FOLDER    stored ones
//
// A text that fails is kept in FOLDER. SCRIBE or UNSCRIBE may be `-`: the program is
// then left out.
#include <cstdio>
#include <cstdlib>
#include <cstring>
#include <fcntl.h>
#include <fstream>
#include <functional>
#include <map>
#include <string>
#include <sys/stat.h>
#include <sys/wait.h>
#include <unistd.h>
#include <vector>

#include "../random.hpp"
#include "text.hpp"

namespace {

using second::Said;

std::string folder;
std::map<std::string, uint64_t> met;
uint64_t runs = 0, octets = 0, failed = 0;

[[noreturn]] void give_up(const std::string &what) {
  std::perror(what.c_str());
  std::exit(2);
}

void write_file(const std::string &path, const std::string &data) {
  std::FILE *file = std::fopen(path.c_str(), "wb");
  if (!file || std::fwrite(data.data(), 1, data.size(), file) != data.size() || std::fclose(file) != 0) give_up(path);
}

std::string read_file(const std::string &path) {
  std::ifstream file(path, std::ios::binary);
  if (!file) give_up(path);
  return std::string(std::istreambuf_iterator<char>(file), {});
}

Said run(const std::string &program, const std::string &input) {
  const std::string in = folder + "/input", out = folder + "/out", err = folder + "/err";
  write_file(in, input);
  const pid_t child = fork();
  if (child < 0) give_up("fork");
  if (child == 0) {
    const int from = ::open(in.c_str(), O_RDONLY), to = ::open(out.c_str(), O_WRONLY | O_CREAT | O_TRUNC, 0666),
              beside = ::open(err.c_str(), O_WRONLY | O_CREAT | O_TRUNC, 0666);
    if (from < 0 || to < 0 || beside < 0) _exit(126);
    dup2(from, 0), dup2(to, 1), dup2(beside, 2);
    alarm(60);
    execl(program.c_str(), program.c_str(), static_cast<char *>(nullptr));
    _exit(127);
  }
  int status = 0;
  waitpid(child, &status, 0);
  Said said{read_file(out), read_file(err)};
  if (!WIFEXITED(status) || WEXITSTATUS(status) != 0) said.err += "(status " + std::to_string(status) + ")";
  return said;
}

// Compares one run; a name tells what was tried.
void compare(const std::string &program, const std::string &name, const std::string &input, const Said &wanted) {
  if (program == "-") return;
  const Said got = run(program, input);
  ++runs, octets += wanted.out.size() + wanted.err.size();
  if (got == wanted) return;
  const std::string path = folder + "/failed-" + std::to_string(++failed);
  write_file(path, input), write_file(path + ".expected", wanted.out);
  std::printf("FAILED: %s, kept as %s\n  expected %zu octets and '%s', %s says %zu and '%s'\n", name.c_str(), path.c_str(),
              wanted.out.size(), wanted.err.c_str(), program.c_str(), got.out.size(), got.err.c_str());
}

// Good lines

std::string number(Random &random, uint64_t most) {
  switch (random.below(6)) {
  case 0: return "0";
  case 1: return std::to_string(most);
  case 2: return std::to_string(random.below(10));
  case 3: return std::to_string(most - random.below(most < 10 ? most + 1 : 10));
  case 4: return std::to_string(random.below(most) >> random.below(32));
  default: return std::to_string(random.below(most + 1));
  }
}

std::string cell(Random &random) {
  static const char digits[] = "0123456789abcdefABCDEF";
  std::string text;
  const uint64_t kind = random.below(3);
  for (int k = 0; k < 106; ++k) text += kind == 0 ? '0' : digits[random.below(kind == 1 ? 16 : 22)];
  return text;
}

constexpr uint64_t wide = 4294967295;

// Pauses up to `most`: at edges of a record, or anywhere.
std::string pause(Random &random, uint64_t most) {
  const uint64_t edge = random.pick<uint64_t>({1, 2, 65534, 65535, 65536, 131069, 131070, 131071, wide - 1, wide});
  const uint64_t slots = random.once_in(2) ? edge : 1 + random.below(random.pick<uint64_t>({10, 70000, 1000000}));
  return "SL " + std::to_string(std::min(slots, most));
}

std::string head(Random &random) {
  const std::string mark = random.pick<const char *>({"GM", "GM", "GR", "GN"}), n = number(random, 65535);
  met["line: " + mark] += 1;
  return mark + " " + n + " " + number(random, 65535);
}

std::string later(Random &random, uint64_t most_pause) {
  const uint64_t kind = random.below(10);
  if (kind < 5) return pause(random, most_pause);
  if (kind < 6) {
    const std::string mark = random.once_in(2) ? "PX" : "VX";
    met["line: " + mark] += 1;
    return mark + " " + number(random, 65535);
  }
  if (kind < 8) {
    std::string line = random.pick<const char *>({"VS", "VS", "VO", "PO"});
    met["line: " + line] += 1;
    const bool sustained = line == "VS";
    for (uint64_t most : {uint64_t{65535}, uint64_t{255}, wide, wide}) line += " " + number(random, most);
    if (sustained)
      for (uint64_t most : {uint64_t{255}, wide, wide, uint64_t{255}}) line += " " + number(random, most);
    return line;
  }
  return "CA " + cell(random);
}

// A good text as its lines, without line feeds.
std::vector<std::string> good(Random &random, size_t lines, uint64_t most_pause) {
  std::vector<std::string> text = {head(random)};
  while (text.size() < lines) text.push_back(later(random, most_pause));
  return text;
}

std::string joined(const std::vector<std::string> &lines) {
  std::string text;
  for (const std::string &line : lines) text += line + "\n";
  return text;
}

// Bad lines: each class makes one line bad, whatever it was.
struct Class {
  const char *name;
  std::function<std::string(Random &, const std::string &)> spoil;
};

// The line with one word of digits put in the place of another. Every line but a CA has a number.
std::string with_number(Random &random, const std::string &line, const std::string &word) {
  std::vector<size_t> starts;
  for (size_t k = 0; k + 1 < line.size(); ++k)
    if (line[k] == ' ') starts.push_back(k + 1);
  const size_t from = random.pick(starts), to = line.find(' ', from);
  return line.substr(0, from) + word + (to == std::string::npos ? "" : line.substr(to));
}

std::string inserted(const std::string &line, size_t at, const std::string &what) {
  return line.substr(0, at) + what + line.substr(at);
}

// One octet somewhere in the line, at its ends too.
std::string octet_in(Random &random, const std::string &line, const std::string &what) {
  return inserted(line, random.pick<size_t>({0, line.size(), random.below(line.size() + 1)}), what);
}

std::string digits_of(Random &random, size_t many) {
  std::string text(1, static_cast<char>('1' + random.below(9)));
  while (text.size() < many) text += static_cast<char>('0' + random.below(10));
  return text;
}

std::string spoiled_cell(Random &random, size_t digits, const std::string &other) {
  std::string text = cell(random) + "0123456789";
  text.resize(digits);
  if (!other.empty()) text[random.below(digits)] = other[random.below(other.size())];
  return "CA " + text;
}

size_t a_space(Random &random, const std::string &line) {
  std::vector<size_t> spaces;
  for (size_t k = 0; k < line.size(); ++k)
    if (line[k] == ' ') spaces.push_back(k);
  return random.pick(spaces);
}

const std::vector<Class> &classes() {
  static const std::vector<Class> all = {
      {"empty line", [](Random &, const std::string &) { return std::string(); }},
      {"CR", [](Random &, const std::string &line) { return line + "\r"; }},
      {"tab", [](Random &r, const std::string &line) { return octet_in(r, line, "\t"); }},
      {"tab for a space", [](Random &r, std::string line) { return line[a_space(r, line)] = '\t', line; }},
      {"NUL", [](Random &r, const std::string &line) { return octet_in(r, line, std::string(1, '\0')); }},
      {"byte order mark", [](Random &, const std::string &line) { return "\xef\xbb\xbf" + line; }},
      {"comment", [](Random &r, const std::string &line) { return r.once_in(2) ? "# " + line : line + " # why"; }},
      {"space before", [](Random &, const std::string &line) { return " " + line; }},
      {"space after", [](Random &, const std::string &line) { return line + " "; }},
      {"space doubled", [](Random &r, const std::string &line) { return inserted(line, a_space(r, line), " "); }},
      {"no space", [](Random &r, std::string line) { return line.erase(a_space(r, line), 1); }},
      {"+1", [](Random &r, const std::string &line) { return with_number(r, line, "+1"); }},
      {"-0", [](Random &r, const std::string &line) { return with_number(r, line, "-0"); }},
      {"00", [](Random &r, const std::string &line) { return with_number(r, line, "00"); }},
      {"07", [](Random &r, const std::string &line) { return with_number(r, line, "07"); }},
      {"1e3", [](Random &r, const std::string &line) { return with_number(r, line, "1e3"); }},
      {"0x1", [](Random &r, const std::string &line) { return with_number(r, line, "0x1"); }},
      {"octet beside the digits", [](Random &r, const std::string &line) { return with_number(r, line, r.pick<const char *>({"3/", ":3", "1,0", "1.0"})); }},
      {"no number", [](Random &r, const std::string &line) { return with_number(r, line, ""); }},
      {"16 bits, one too many", [](Random &r, const std::string &) { return r.pick<const char *>({"VX ", "PX "}) + std::to_string(65536 + r.below(3)); }},
      {"16 bits in GM", [](Random &r, const std::string &) { return r.pick<const char *>({"GM 65536 4", "GR 5 65536", "GR 5 65540", "GN 65536 4", "GN 5 65536"}); }},
      {"16 bits in PO", [](Random &r, const std::string &) { return "PO " + std::to_string(65536 + r.below(9)) + " 0 1 1"; }},
      {"8 bits, one too many", [](Random &r, const std::string &) { return r.pick<const char *>({"VO 1 ", "PO 1 "}) + std::to_string(256 + r.below(3)) + " 3 4"; }},
      {"32 bits, one too many", [](Random &r, const std::string &) { return r.once_in(2) ? "VO 1 2 4294967296 4" : "VO 1 2 3 4294967296"; }},
      {"pause, one too many", [](Random &r, const std::string &) { return "SL " + std::to_string(wide + 1 + r.below(9)); }},
      {"wraps into range at 2^32", [](Random &r, const std::string &line) { return with_number(r, line, std::to_string(wide + 2 + r.below(200))); }},
      {"wraps into range at 2^64", [](Random &r, const std::string &line) { return with_number(r, line, "184467440737095516" + std::to_string(17 + r.below(80))); }},
      {"a long number", [](Random &r, const std::string &line) { return with_number(r, line, digits_of(r, 11 + r.below(60))); }},
      {"a very long number", [](Random &r, const std::string &line) { return with_number(r, line, digits_of(r, 1000 + r.below(90000))); }},
      {"many zeros", [](Random &r, const std::string &line) { return with_number(r, line, std::string(2 + r.below(40), '0')); }},
      {"105 hex digits", [](Random &r, const std::string &) { return spoiled_cell(r, 105, ""); }},
      {"107 hex digits", [](Random &r, const std::string &) { return spoiled_cell(r, 107, ""); }},
      {"104 hex digits", [](Random &r, const std::string &) { return spoiled_cell(r, 104, ""); }},
      {"no hex digit", [](Random &r, const std::string &) { return spoiled_cell(r, 106, "/:@G`g \n\xff"); }},
      {"SL 0", [](Random &, const std::string &) { return std::string("SL 0"); }},
      {"unknown mark", [](Random &r, const std::string &line) { return r.pick<const char *>({"XX", "SO", "VL", "CS", "GA", "PS", "PM", "VN", "GP"}) + line.substr(2); }},
      {"small letters", [](Random &r, std::string line) { return line[r.below(2)] |= 32, line; }},
      {"half a mark", [](Random &, const std::string &line) { return line.substr(1); }},
      {"three letters", [](Random &, const std::string &line) { return line.substr(0, 2) + line.substr(1); }},
      {"a mark alone", [](Random &r, const std::string &line) { return line.substr(0, r.once_in(2) ? 2 : 3); }},
      {"field too many", [](Random &, const std::string &line) { return line + " 1"; }},
      {"field missing", [](Random &, const std::string &line) { return line.substr(0, line.rfind(' ')); }},
      {"octet above ASCII", [](Random &r, const std::string &line) { return octet_in(r, line, "\xc3\xa4"); }},
      {"a GM kind in a wrong place", [](Random &r, const std::string &line) { return line[0] == 'G' ? later(r, 9) : head(r); }},
  };
  return all;
}

void bad_text(Random &random, const std::string &scribe, size_t index) {
  const Class &kind = classes()[index % classes().size()];
  const size_t lines = random.once_in(8) ? 2 + random.below(4000) : 1 + random.below(12);
  std::vector<std::string> text = good(random, lines, random.once_in(8) ? wide : 200000);
  const size_t where = index / classes().size() % 4, at = where == 0 ? 0 : where == 1 ? text.size() - 1 : random.below(text.size());
  size_t place = 0;
  for (size_t k = 0; k < at; ++k) place += text[k].size() + 1;
  // beside another pause, where there is a line before and one after
  if (std::strcmp(kind.name, "SL 0") == 0)
    for (size_t k = at == 0 ? 1 : at - 1; k < text.size() && k < at + 2; ++k)
      if (k > 0 && k != at && random.once_in(2)) {
        const size_t before = text[k].size();
        text[k] = "SL 7";
        if (k < at) place = place + 4 - before;
      }
  text[at] = kind.spoil(random, text[at]);
  const Said wanted = second::scribe(joined(text));
  // the place is known from how the text was made, whatever the second program says
  if (wanted.err != "stop 10 " + std::to_string(place) + "\n") {
    ++failed;
    write_file(folder + "/misjudged", joined(text));
    std::printf("FAILED: %s at %zu: the second program says '%s'\n", kind.name, place, wanted.err.c_str());
  }
  met[std::string(kind.name) + (at == 0 ? ", first line" : ", later line")] += 1;
  if (at > 0 && at + 1 < text.size()) met["bad: between good lines"] += 1;
  if (at > 0 && at + 1 == text.size()) met["bad: last line"] += 1;
  if (place > 65536) met["bad: beyond 65,536 octets"] += 1;
  compare(scribe, kind.name, joined(text), wanted);
}

// A text cut anywhere: within a line it lacks its line feed.
void cut_text(Random &random, const std::string &scribe) {
  const std::string text = joined(good(random, 1 + random.below(6), 200000));
  const size_t feed = text.find('\n'), within = random.below(text.size());
  const std::string cut = text.substr(0, random.pick<size_t>({within, text.size() - 1, within, feed + 1}));
  const Said wanted = second::scribe(cut);
  met[wanted.err.empty() ? "cut behind a line" : cut.empty() ? "empty text" : "last line without a line feed"] += 1;
  compare(scribe, "a text cut", cut, wanted);
}

// A good text: its trace, the text of that, and the trace of that again.
void good_text(Random &random, const std::string &scribe, const std::string &unscribe) {
  const bool large = random.once_in(6);
  const uint64_t most = random.pick<uint64_t>({9, 70000, 200000, wide});
  const std::string text = joined(good(random, large ? 2000 + random.below(4000) : 1 + random.below(40), most));
  const Said wanted = second::scribe(text);
  met[wanted.err == "stop 14\n" ? "good: 14" : wanted.err.empty() ? "good: written" : "good: goes on beyond"] += 1;
  compare(scribe, "a good text", text, wanted);
  if (!wanted.err.empty()) return;
  const Said back = second::unscribe(wanted.out);
  compare(unscribe, "the trace of a good text", wanted.out, back);
  // a text may be longer than its trace, and then too long
  const Said again = second::scribe(back.out);
  if (back.out.size() <= second::text_limit && !(again == wanted)) ++failed, std::printf("FAILED: the second program, there and back\n");
  compare(scribe, "the text of a trace", back.out, again);
  met[again == wanted ? "there and back" : "there, and too long to come back"] += 1;
  if (back.out == text) met["there and back: the same text"] += 1;
}

// A trace, good or damaged in one octet, cut, or with pauses that aren't full; its text, and what that makes.
void trace_text(Random &random, const std::string &scribe, const std::string &unscribe) {
  std::string trace;
  for (const std::string &line : good(random, 1 + random.below(random.once_in(5) ? 3000 : 30), 65535)) {
    const Said record = second::scribe((trace.empty() ? "" : "GM 1 2\n") + line + "\n");
    trace += record.out.substr(trace.empty() ? 0 : 6);
  }
  const uint64_t damage = random.below(4);
  if (damage == 1) trace.resize(random.below(trace.size() + 1));
  if (damage == 2) trace[random.below(trace.size())] ^= static_cast<char>(1 << random.below(8));
  if (damage == 3) trace.insert(random.below(trace.size() + 1), std::string(1 + random.below(3), static_cast<char>(random.below(256))));
  const Said wanted = second::unscribe(trace);
  met[wanted.err.empty() ? "trace: read throughout" : wanted.out.empty() ? "trace: stop 10 0" : "trace: stop 10 behind lines"] += 1;
  compare(unscribe, "a trace", trace, wanted);
  if (!wanted.err.empty()) return;
  const Said again = second::scribe(wanted.out);
  met[again.out == trace ? "trace: made again" : "trace: made again, its pauses in fewer records"] += 1;
  compare(scribe, "the text of a trace", wanted.out, again);
}

// A trace with one record that can't be read, of each kind, in each place where it may stand.
void bad_trace(Random &random, const std::string &unscribe, size_t index) {
  std::vector<std::string> records;
  for (const std::string &line : good(random, 2 + random.below(12), 65535)) {
    const Said record = second::scribe((records.empty() ? "" : "GM 1 2\n") + line + "\n");
    records.push_back(record.out.substr(records.empty() ? 0 : 6));
  }
  static const char *const kinds[] = {"no octet", "no GM first", "a later GM", "SL of 0", "unknown mark", "half a mark", "small letters", "short"};
  const size_t kind = index % 8;
  const size_t at = kind < 2 ? 0 : 1 + random.below(records.size() - 1);
  size_t place = 0;
  for (size_t k = 0; k < at; ++k) place += records[k].size();
  switch (kind) {
  case 0: records.clear(); break;
  case 1: records.erase(records.begin()); break;
  case 2: records.insert(records.begin() + static_cast<long>(at), random.once_in(2) ? records[0] : random.pick<const char *>({"GM", "GR", "GN"}) + std::string(4, '\1')); break;
  case 3: records.insert(records.begin() + static_cast<long>(at), "SL" + std::string(2, '\0')); break;
  case 4: records[at][random.below(2)] = random.pick<char>({'Q', '\0', '\xff'}); break;
  case 5: records.resize(at), records.push_back(random.pick<const char *>({"C", "S", "V", "G", "P"})); break;
  case 6: records[at][random.below(2)] |= 32; break;
  default: records.resize(at + 1), records[at].resize(1 + random.below(records[at].size() - 1)); break;
  }
  std::string trace;
  for (const std::string &record : records) trace += record;
  const Said wanted = second::unscribe(trace);
  // the place is known from how the trace was made, whatever the second program says
  if (wanted.err != "stop 10 " + std::to_string(place) + "\n") {
    ++failed;
    write_file(folder + "/misjudged", trace);
    std::printf("FAILED: %s at %zu: the second printer says '%s'\n", kinds[kind], place, wanted.err.c_str());
  }
  met[std::string("unreadable: ") + kinds[kind]] += 1;
  compare(unscribe, kinds[kind], trace, wanted);
}

// Texts and traces around the programs' limit of octets.
void at_limit(Random &random, const std::string &scribe, const std::string &unscribe, size_t index) {
  const size_t limit = second::text_limit, more = index / 4 % 4; // up to the limit, one octet or record more, a line more
  std::string text = "GM 5 64\n", trace = "GM" + std::string("\0\5\0\x40", 4);
  if (index % 4 < 2) {
    const std::string line = index % 2 ? "CA " + cell(random) + "\n" : "VX 40\n";
    while (text.size() + line.size() + 22 < limit) text += line;
    while (text.size() + 11 < limit) text += "SL 1\n";
    text += "SL " + std::string(limit - text.size() - 4, '1') + "\n";
    if (more == 1) text.insert(text.size() - 2, "1");
    if (more >= 2) text += random.once_in(2) ? "SL 1\n" : "x";
    const Said wanted = second::scribe(text);
    met[more == 0 ? "text: ends at the limit" : more == 1 ? "text: a line cut by the limit" : "text: goes on at the limit"] += 1;
    return compare(scribe, "a text at the limit", text, wanted);
  }
  const std::string record = index % 4 == 2 ? "CA" + std::string(53, static_cast<char>(random.below(256))) : "VX" + std::string(2, '\1');
  while (trace.size() + record.size() + 13 + 55 < limit) trace += record;
  while (trace.size() % 4 != limit % 4) trace += "VO" + std::string(11, static_cast<char>(random.below(256)));
  while (trace.size() < limit) trace += "SL" + std::string(2, '\2');
  if (more == 1) trace.insert(6, "CA" + std::string(53, 'c'));
  if (more == 2) trace += random.once_in(2) ? "SL" + std::string(2, '\2') : "S";
  // 13 octets for 12: the last record ends one octet beyond
  if (more == 3) trace = trace.substr(0, limit - 16) + "VO" + std::string(11, '\3') + trace.substr(limit - 4);
  const Said wanted = second::unscribe(trace);
  met[more == 0 ? "trace: ends at the limit" : more == 1 ? "trace: a record cut by the limit" : more == 2 ? "trace: goes on at the limit" : "trace: a record lacks one octet at the limit"] += 1;
  compare(unscribe, "a trace at the limit", trace, wanted);
}

// Records that fill the output to the last octet (two VO make up the odd ones), one octet more, and pauses beyond.
void at_room(Random &random, const std::string &scribe, size_t index) {
  const size_t kind = index % 4, openings = kind == 3 ? 3 : 2;
  std::string text = "GM 5 64\n";
  for (size_t k = 0; k < openings; ++k) text += "VO 1 2 3 4\n";
  const uint64_t records = (second::text_limit - 6 - 13 * openings + 3) / 4; // of three VO they end one octet beyond
  uint64_t left = records * 65535 + (kind == 1 ? 1 : kind == 2 ? 65535 * (1 + random.below(9)) : 0);
  while (left > 0) {
    const uint64_t some = std::min<uint64_t>(left, random.once_in(2) ? wide : 1 + random.below(wide));
    text += "SL " + std::to_string(some) + "\n", left -= some;
  }
  const Said wanted = second::scribe(text);
  if (wanted.out.size() != (kind == 0 ? second::text_limit : 0)) ++failed, std::printf("FAILED: the second writer, %zu octets\n", wanted.out.size());
  met[kind == 0 ? "room: filled" : kind == 3 ? "room: an octet too many, 14" : "room: a record too many, 14"] += 1;
  compare(scribe, "pauses that fill the output", text, wanted);
  if (kind == 1) compare(scribe, "10 before 14", text + "SL 0\n", second::scribe(text + "SL 0\n")), met["room: 10 before 14"] += 1;
}

// Stored ones: name, length of the output or `-`, text, result. An output of another length
// than the program's is for the second writer alone.
std::string octets_of(const std::string &text) {
  std::string out;
  for (size_t k = 0; k < text.size(); ++k) {
    if (text[k] != '\\') out += text[k];
    else if (text[++k] == 'x') out += static_cast<char>(std::stoul(text.substr(k + 1, 2), nullptr, 16)), k += 2;
    else out += text[k] == 'n' ? '\n' : text[k] == 'r' ? '\r' : text[k] == 't' ? '\t' : '\\';
  }
  return out;
}

int vectors(const std::string &scribe, const std::string &path) {
  std::ifstream file(path);
  if (!file) give_up(path);
  uint64_t all = 0;
  for (std::string line; std::getline(file, line); ++all) {
    std::vector<std::string> parts(1);
    for (char octet : line)
      if (octet == '\t') parts.emplace_back();
      else parts.back() += octet;
    if (parts.size() != 4) return std::printf("FAILED: a vector of %zu parts\n", parts.size()), 1;
    const std::string text = octets_of(parts[2]), &result = parts[3];
    Said wanted;
    if (result.compare(0, 2, "0 ") != 0) wanted.err = "stop " + result + "\n";
    else
      for (size_t k = 2; k < result.size(); k += 2) wanted.out += static_cast<char>(std::stoul(result.substr(k, 2), nullptr, 16));
    const bool ample = parts[1] == "-";
    if (!(second::scribe(text, ample ? second::text_limit : std::stoul(parts[1])) == wanted))
      ++failed, std::printf("FAILED: the second program, %s\n", parts[0].c_str());
    if (ample) compare(scribe, parts[0], text, wanted);
  }
  if (failed || all < 100) return std::printf("texts: FAILED on %llu vectors of %llu\n", (unsigned long long)failed, (unsigned long long)all), 1;
  return std::printf("texts: %llu vectors, %llu of them through scribe, all as stored\n", (unsigned long long)all, (unsigned long long)runs), 0;
}

bool met_enough() {
  std::vector<std::string> needed = {"bad: between good lines", "bad: last line", "bad: beyond 65,536 octets", "cut behind a line",
                                     "empty text", "last line without a line feed", "good: 14", "good: written", "there and back",
                                     "there and back: the same text", "trace: read throughout", "trace: stop 10 0",
                                     "trace: stop 10 behind lines", "trace: made again", "trace: made again, its pauses in fewer records",
                                     "text: ends at the limit", "text: a line cut by the limit", "text: goes on at the limit",
                                     "trace: ends at the limit", "trace: a record cut by the limit", "trace: goes on at the limit",
                                     "trace: a record lacks one octet at the limit", "unreadable: no octet", "unreadable: no GM first",
                                     "unreadable: a later GM", "unreadable: SL of 0", "unreadable: unknown mark", "unreadable: half a mark",
                                     "unreadable: small letters", "unreadable: short",
                                     "line: GM", "line: GR", "line: GN", "line: VO", "line: VS", "line: VX", "line: PO", "line: PX",
                                     "room: filled", "room: an octet too many, 14", "room: a record too many, 14", "room: 10 before 14"};
  for (const Class &kind : classes())
    for (const char *where : {", first line", ", later line"}) needed.push_back(std::string(kind.name) + where);
  bool all = true;
  int shown = 0;
  for (const std::string &what : needed) {
    const uint64_t times = met[what];
    std::printf("%s%s %llu%s", shown++ % 6 == 0 ? "\n    " : "; ", what.c_str(), (unsigned long long)times, times < 2 ? " (TOO SELDOM)" : "");
    all = all && times >= 2;
  }
  std::printf("\n");
  return all;
}

} // namespace

int main(int count, char **arguments) {
  if (count < 6) return std::fprintf(stderr, "texts SCRIBE UNSCRIBE SEED TEXTS FOLDER | texts SCRIBE UNSCRIBE vectors FILE FOLDER\n"), 2;
  const std::string scribe = arguments[1], unscribe = arguments[2];
  folder = arguments[5];
  mkdir(folder.c_str(), 0777);
  if (std::strcmp(arguments[3], "vectors") == 0) return vectors(scribe, arguments[4]);
  const uint64_t seed = std::strtoull(arguments[3], nullptr, 0), texts = std::strtoull(arguments[4], nullptr, 0);
  std::printf("texts: seed %llu\n", (unsigned long long)seed);
  for (uint64_t index = 0; index < texts && failed < 5; ++index) {
    Random random(seed * 1000003 + index);
    const uint64_t round = index / 13;
    switch (index % 13) {
    case 0: good_text(random, scribe, unscribe); break;
    case 1: trace_text(random, scribe, unscribe); break;
    case 2: cut_text(random, scribe); break;
    case 3:
      if (round % 4 == 0) at_limit(random, scribe, unscribe, round / 4);
      else if (round % 4 == 1) at_room(random, scribe, round / 4);
      else trace_text(random, scribe, unscribe);
      break;
    case 12: bad_trace(random, unscribe, round); break;
    default: bad_text(random, scribe, round * 8 + index % 13 - 4); break;
    }
  }
  if (failed) return std::printf("texts: FAILED %llu times\n", (unsigned long long)failed), 1;
  std::printf("  met:");
  const bool all = met_enough();
  std::printf("texts: %llu texts and traces, %llu runs, %llu octets compared, all equal\n", (unsigned long long)texts,
              (unsigned long long)runs, (unsigned long long)octets);
  if (!all) return std::printf("texts: FAILED, something was met too seldom\n"), 1;
}
