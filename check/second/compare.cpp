// Runs a spacer and the second program on generated traces and compares their
// listings, octet for octet. A trace that fails is kept, and kept again as small
// as it could be made.
//
//   compare SPACER SEED TRACES FOLDER       all traces
//   compare SPACER SEED INDEX FOLDER one    one trace, shown
#include <cerrno>
#include <csignal>
#include <cstdio>
#include <cstdlib>
#include <cstring>
#include <fcntl.h>
#include <functional>
#include <string>
#include <sys/resource.h>
#include <sys/stat.h>
#include <sys/wait.h>
#include <unistd.h>

#include "generate.hpp"
#include "second.hpp"

namespace {

using second::Octets;

std::string spacer, folder;

[[noreturn]] void give_up(const char *what) {
  std::perror(what);
  std::exit(2);
}

void write_file(const std::string &path, const void *data, size_t length) {
  std::FILE *file = std::fopen(path.c_str(), "wb");
  if (!file || std::fwrite(data, 1, length, file) != length || std::fclose(file) != 0) give_up(path.c_str());
}

// Small pieces, the first of them with a pause between, so that reads come short.
void write_all(int to, const uint8_t *data, size_t length, Random &random) {
  for (int piece = 0; length > 0; ++piece) {
    if (piece > 0 && piece < 5) usleep(300);
    const size_t chunk = std::min<size_t>(length, 1 + random.below(random.once_in(4) ? 3 : 3000));
    const ssize_t written = write(to, data, chunk);
    if (written <= 0) return; // the reader may stop early
    data += written, length -= static_cast<size_t>(written);
  }
}

struct Outcome {
  std::string listing;
  int status;
};

// The child's side: input on descriptor `in`, output on `out`, time bounded.
[[noreturn]] void become_spacer(int in, int out) {
  const rlimit seconds = {30, 30};
  setrlimit(RLIMIT_CPU, &seconds);
  dup2(in, 0), dup2(out, 1);
  for (int descriptor = 3; descriptor < 32; ++descriptor) close(descriptor);
  execl(spacer.c_str(), spacer.c_str(), static_cast<char *>(nullptr));
  _exit(127);
}

std::string read_all(int from) {
  std::string text;
  char buffer[65536];
  for (ssize_t got; (got = read(from, buffer, sizeof buffer)) != 0;) {
    if (got < 0 && errno == EINTR) continue;
    if (got < 0) give_up("read");
    text.append(buffer, static_cast<size_t>(got));
  }
  return text;
}

// Runs the spacer with its input in a file, or in pieces through a pipe.
Outcome run_spacer(const Octets &input, bool pieces) {
  int out[2], in[2] = {-1, -1};
  if (pipe(out) != 0) give_up("pipe");
  pid_t writer = -1;
  if (pieces) {
    if (pipe(in) != 0) give_up("pipe");
    if ((writer = fork()) == 0) {
      std::signal(SIGPIPE, SIG_IGN);
      close(in[0]), close(out[0]), close(out[1]);
      Random random(input.size());
      write_all(in[1], input.data(), input.size(), random);
      _exit(0);
    }
    close(in[1]);
  } else {
    const std::string path = folder + "/input";
    write_file(path, input.data(), input.size());
    if ((in[0] = ::open(path.c_str(), O_RDONLY)) < 0) give_up(path.c_str());
  }
  const pid_t child = fork();
  if (child < 0) give_up("fork");
  if (child == 0) become_spacer(in[0], out[1]);
  close(in[0]), close(out[1]);
  Outcome outcome{read_all(out[0]), 0};
  close(out[0]);
  waitpid(child, &outcome.status, 0);
  if (writer > 0) waitpid(writer, nullptr, 0);
  return outcome;
}

std::string expected_listing(const Octets &input) {
  second::Met unused;
  return second::Spacer(input, unused).list();
}

bool fails(const Octets &input, bool pieces) {
  const Outcome got = run_spacer(input, pieces);
  return !WIFEXITED(got.status) || got.listing != expected_listing(input);
}

// Takes away records, then shortens pauses, as long as the trace still fails.
second::Trace shrink(second::Trace trace, bool pieces) {
  int runs = 600;
  const auto still = [&](const second::Trace &smaller) {
    return runs-- > 0 && fails(smaller.octets(), pieces);
  };
  for (size_t chunk = trace.records.size(); chunk > 0 && runs > 0; chunk /= 2)
    for (size_t from = 0; from < trace.records.size();) {
      second::Trace smaller = trace;
      const auto begin = smaller.records.begin() + static_cast<std::ptrdiff_t>(from);
      smaller.records.erase(
          begin, begin + static_cast<std::ptrdiff_t>(std::min(chunk, trace.records.size() - from)));
      if (still(smaller)) trace = smaller;
      else from += chunk;
    }
  for (Octets &record : trace.records)
    while (record.size() == 4 && record[0] == 'S' && record[1] == 'L') {
      const Octets before = record;
      const unsigned half = (record[2] * 256u + record[3]) / 2;
      if (half == 0) break;
      record[2] = static_cast<uint8_t>(half >> 8), record[3] = static_cast<uint8_t>(half);
      if (!still(trace)) {
        record = before;
        break;
      }
    }
  return trace;
}

// Shows the first line in which two listings differ.
void show_difference(const std::string &expected, const std::string &got) {
  size_t at = 0, line = 1, start = 0;
  for (; at < expected.size() && at < got.size() && expected[at] == got[at]; ++at)
    if (expected[at] == '\n') ++line, start = at + 1;
  const auto from = [&](const std::string &text) {
    return start >= text.size() ? std::string("(nothing)")
                                : text.substr(start, text.find('\n', start) - start);
  };
  std::printf("  line %zu: expected '%s', spacer has '%s'\n", line, from(expected).c_str(),
              from(got).c_str());
}

void keep_failure(uint64_t seed, uint64_t index, const second::Trace &trace, bool pieces,
                  const Outcome &first) {
  const std::string name = folder + "/failed-" + std::to_string(seed) + "-" + std::to_string(index);
  const Octets whole = trace.octets();
  write_file(name + ".trace", whole.data(), whole.size());
  std::printf("FAILED: trace %llu (%s), seed %llu, kept as %s.trace\n",
              static_cast<unsigned long long>(index), trace.kind.c_str(),
              static_cast<unsigned long long>(seed), name.c_str());
  if (WIFSIGNALED(first.status)) std::printf("  ended by signal %d\n", WTERMSIG(first.status));
  else std::printf("  exit status %d\n", WEXITSTATUS(first.status));
  show_difference(expected_listing(whole), first.listing);
  const second::Trace small = shrink(trace, pieces);
  const Octets octets = small.octets();
  const std::string expected = expected_listing(octets);
  write_file(name + ".small.trace", octets.data(), octets.size());
  write_file(name + ".small.expected", expected.data(), expected.size());
  std::printf("  shrunk to %zu octets: %s.small.trace, with .small.expected\n", octets.size(), name.c_str());
  show_difference(expected, run_spacer(octets, pieces).listing);
}

// What the traces of a full run must have met, each at least so often.
bool met_enough(const second::Met &met) {
  static const char *const needed[] = {"setup 0",
                                       "setup 1",
                                       "N at an edge",
                                       "V at an edge",
                                       "N one past an edge",
                                       "V one past an edge",
                                       "open 0",
                                       "open 4",
                                       "open 5",
                                       "open 6",
                                       "close 0",
                                       "close 4",
                                       "close 7",
                                       "close 8: waiting only",
                                       "close 8: debt only",
                                       "close 8: both",
                                       "close 8: a slot before the debt is paid",
                                       "close 0: in the slot in which the debt is paid",
                                       "close 0: later",
                                       "close 0: no cell accepted",
                                       "reopened at once",
                                       "A: reopened",
                                       "A: reopened, exactly a slot after the old debt",
                                       "6: m",
                                       "6: m 16",
                                       "6: F below L",
                                       "6: F one below L",
                                       "6: F high",
                                       "6: F one high",
                                       "6: C below F",
                                       "6: C one below F",
                                       "6: C high",
                                       "6: C one high",
                                       "0: m 15",
                                       "0: F is L",
                                       "0: F greatest",
                                       "0: C is F",
                                       "0: C greatest",
                                       "A",
                                       "A: D is N-1",
                                       "A: joins others",
                                       "A: just in time",
                                       "X",
                                       "X: one part too early",
                                       "VS: open 0",
                                       "VS: open 0, zeros",
                                       "VS: open 4",
                                       "VS: open 5",
                                       "VS: open 6",
                                       "VS: open 11",
                                       "6 before 11",
                                       "11: m",
                                       "11: m 16",
                                       "11: F 0",
                                       "11: F high",
                                       "11: F one high",
                                       "11: C below F",
                                       "11: C one below F",
                                       "11: C high",
                                       "11: C one high",
                                       "11: flag",
                                       "11: zeros but one",
                                       "0: second m 15",
                                       "0: second F 1",
                                       "0: second F below L",
                                       "0: second F greatest",
                                       "0: second C is F",
                                       "0: second C greatest",
                                       "0: second tolerance above N",
                                       "A: fills both",
                                       "A: CLP 1",
                                       "A: CLP 1, above the second bucket",
                                       "T",
                                       "T: D above 0",
                                       "X: by the second bucket",
                                       "X: within the second bucket",
                                       "X: above both",
                                       "X: above both, with the flag",
                                       "second: one part too early",
                                       "second: just in time",
                                       "second: as many as the bound allows",
                                       "close 0: second bucket empty",
                                       "close 0: second bucket not empty",
                                       "reopened at once, the second debt wiped",
                                       "rule: nonconforming",
                                       "rule: conforming, early",
                                       "rule: conforming, late or on time",
                                       "U: VPI not 0, VCI 0",
                                       "U: VCI high",
                                       "U: not open",
                                       "no user cell",
                                       "left N-1 slots late",
                                       "stop: empty trace",
                                       "stop: one octet of a mark",
                                       "stop: first mark unknown",
                                       "stop: mark unknown",
                                       "stop: first is none of GM, GR and GN",
                                       "stop: a later GM",
                                       "stop: a later GR",
                                       "stop: a later GN",
                                       "GN: setup 0",
                                       "GN: setup 1",
                                       "PO: open 0",
                                       "PO: open 4",
                                       "PO: open 5",
                                       "PO: open 6",
                                       "PX: close 0",
                                       "PX: close 4",
                                       "PX: close 7",
                                       "PX: close 8",
                                       "path number at an edge",
                                       "path number one past an edge",
                                       "path number 66559",
                                       "4: VCI that is the number of an open path",
                                       "path reopened at once",
                                       "path: A at the UNI",
                                       "path: A at the NNI",
                                       "path: X at the UNI",
                                       "path: X at the NNI",
                                       "path: VCI 0 at the UNI",
                                       "path: VCI 0 at the NNI",
                                       "path: VCI of an open VC",
                                       "path: VCI of V or more",
                                       "path: VPI at an edge at the UNI",
                                       "path: VPI at an edge at the NNI",
                                       "path: with GFC",
                                       "path: another VCI than the cell before",
                                       "path: X, another VCI than the cell before",
                                       "path: left N-1 slots late",
                                       "VC",
                                       "VC with GFC",
                                       "VC at the NNI",
                                       "no user cell, with GFC",
                                       "U: closed path at the UNI",
                                       "U: closed path at the NNI",
                                       "U: closed path, VCI of an open VC",
                                       "U: VPI above 255",
                                       "U: VPI 256",
                                       "U: VPI 4095",
                                       "U: VPI above 255 that ends in 0, VCI of an open VC",
                                       "U: VPI above 255 that ends as an open path's",
                                       "U: VCI that is the number of an open path",
                                       "GR: setup 0",
                                       "GR: setup 1",
                                       "not raw: another octet 5",
                                       "raw: clean in correction",
                                       "raw: clean in detection",
                                       "raw: idle, clean in correction",
                                       "raw: idle, clean in detection",
                                       "raw: unassigned, clean in correction",
                                       "raw: unassigned, clean in detection",
                                       "raw: mended A",
                                       "raw: mended X",
                                       "raw: mended T",
                                       "raw: mended U",
                                       "raw: mended .",
                                       "raw: mended from no user cell",
                                       "H: more than one in correction",
                                       "H: more than one in detection",
                                       "H: one wrong bit in detection",
                                       "H: after a pause in correction",
                                       "H: after a pause in detection",
                                       "H: another cell leaves",
                                       "H: no user cell",
                                       "stop: record cut by the end",
                                       "stop: record cut by the limit",
                                       "stop: mark cut by the limit",
                                       "stop: SL of 0",
                                       "stop: input goes on at the limit",
                                       "plain end at the limit",
                                       "plain end"};
  bool all = true;
  int shown = 0;
  std::vector<std::string> all_needed(std::begin(needed), std::end(needed));
  for (unsigned bit = 0; bit < 40; ++bit) all_needed.push_back("raw: bit " + std::to_string(bit) + " mended");
  for (const std::string &what : all_needed) {
    const auto found = met.times.find(what);
    const uint64_t times = found == met.times.end() ? 0 : found->second;
    std::printf("%s%s %llu%s", shown++ % 6 == 0 ? "\n    " : "; ", what.c_str(),
                static_cast<unsigned long long>(times), times < 3 ? " (TOO SELDOM)" : "");
    all = all && times >= 3;
  }
  std::printf("\n");
  // What must never be met, whatever the spacer says.
  for (const auto &[what, times] : met.times)
    if (what.compare(0, 6, "FALSE:") == 0)
      std::printf("    %s, %llu times\n", what.c_str(), static_cast<unsigned long long>(times)), all = false;
  return all;
}

} // namespace

int main(int count, char **arguments) {
  if (count < 5) return std::fprintf(stderr, "compare SPACER SEED TRACES FOLDER [one]\n"), 2;
  spacer = arguments[1], folder = arguments[4];
  const uint64_t seed = std::strtoull(arguments[2], nullptr, 0),
                 traces = std::strtoull(arguments[3], nullptr, 0);
  if (access(spacer.c_str(), X_OK) != 0) give_up(spacer.c_str());
  mkdir(folder.c_str(), 0777);
  std::printf("listings: seed %llu\n", static_cast<unsigned long long>(seed));
  if (count > 5) {
    const second::Trace trace = second::generate(seed, traces);
    const bool pieces = traces % 4 == 3;
    if (!fails(trace.octets(), pieces))
      return std::printf("trace %llu (%s) agrees\n", static_cast<unsigned long long>(traces),
                         trace.kind.c_str()),
             0;
    return keep_failure(seed, traces, trace, pieces, run_spacer(trace.octets(), pieces)), 1;
  }
  second::Met met;
  uint64_t failed = 0, octets_compared = 0, lines = 0;
  for (uint64_t index = 0; index < traces && failed < 5; ++index) {
    const second::Trace trace = second::generate(seed, index);
    const bool pieces = index % 4 == 3;
    const Octets input = trace.octets();
    const std::string expected = second::Spacer(input, met).list();
    const Outcome got = run_spacer(input, pieces);
    octets_compared += expected.size();
    for (char octet : expected) lines += octet == '\n';
    if (!WIFEXITED(got.status) || got.listing != expected)
      ++failed, keep_failure(seed, index, trace, pieces, got);
    if ((index + 1) % 500 == 0)
      std::printf("  %llu traces\n", static_cast<unsigned long long>(index + 1)), std::fflush(stdout);
  }
  if (failed)
    return std::printf("listings: FAILED on %llu traces\n", static_cast<unsigned long long>(failed)), 1;
  std::printf("  met:");
  const bool all = met_enough(met);
  std::printf("listings: %llu traces, %llu lines, %llu octets compared, all equal\n",
              static_cast<unsigned long long>(traces), static_cast<unsigned long long>(lines),
              static_cast<unsigned long long>(octets_compared));
  if (!all) return std::printf("listings: FAILED, something was met too seldom, or must not be met\n"), 1;
}
