// Damages generated traces, runs a salvage on each, and compares what it writes on both outputs with the second salvage,
// octet for octet. Also run: what it wrote, through it again; and the stored cases.
//
//   damage SALVAGE SEED TRACES FOLDER CASES
//
// A line of CASES: name, damaged trace in hex, `17` or `0 MENDEDHEX FIRST:LENGTH ..`, separated by tabs.
#include <algorithm>
#include <cerrno>
#include <cstdio>
#include <cstdlib>
#include <fcntl.h>
#include <fstream>
#include <sstream>
#include <sys/resource.h>
#include <sys/stat.h>
#include <sys/wait.h>
#include <unistd.h>

#include "salvage.hpp"

namespace {

using second::Octets;

constexpr size_t kept = 524288;
std::string program, folder;

[[noreturn]] void give_up(const char *what) {
  std::perror(what);
  std::exit(2);
}

void write_file(const std::string &path, const void *data, size_t length) {
  std::FILE *file = std::fopen(path.c_str(), "wb");
  if (!file || std::fwrite(data, 1, length, file) != length || std::fclose(file) != 0) give_up(path.c_str());
}

std::string read_file(const std::string &path) {
  std::ifstream file(path, std::ios::binary);
  std::ostringstream all;
  all << file.rdbuf();
  return all.str();
}

struct Outcome {
  std::string mended, listing;
  int status;
};

int opened(const std::string &path, int how) {
  const int descriptor = ::open(path.c_str(), how, 0666);
  if (descriptor < 0) give_up(path.c_str());
  return descriptor;
}

// Runs the program with its input in a file, or in small pieces through a pipe.
Outcome run(const Octets &input, bool pieces) {
  const std::string in = folder + "/input", out = folder + "/output", err = folder + "/errors";
  write_file(in, input.data(), input.size());
  int ends[2] = {-1, -1};
  pid_t writer = -1;
  if (pieces) {
    if (pipe(ends) != 0) give_up("pipe");
    if ((writer = fork()) == 0) {
      close(ends[0]);
      for (size_t at = 0; at < input.size();) {
        const size_t chunk = std::min<size_t>(input.size() - at, 1 + at % 4093);
        const ssize_t put = write(ends[1], input.data() + at, chunk);
        if (put <= 0) break;
        at += static_cast<size_t>(put);
      }
      _exit(0);
    }
    close(ends[1]);
  }
  const pid_t child = fork();
  if (child < 0) give_up("fork");
  if (child == 0) {
    const rlimit seconds = {30, 30};
    setrlimit(RLIMIT_CPU, &seconds);
    dup2(pieces ? ends[0] : opened(in, O_RDONLY), 0);
    dup2(opened(out, O_WRONLY | O_CREAT | O_TRUNC), 1);
    dup2(opened(err, O_WRONLY | O_CREAT | O_TRUNC), 2);
    for (int descriptor = 3; descriptor < 32; ++descriptor) close(descriptor);
    execl(program.c_str(), program.c_str(), static_cast<char *>(nullptr));
    _exit(127);
  }
  if (pieces) close(ends[0]);
  Outcome outcome{{}, {}, 0};
  waitpid(child, &outcome.status, 0);
  if (writer > 0) waitpid(writer, nullptr, 0);
  outcome.mended = read_file(out), outcome.listing = read_file(err);
  return outcome;
}

std::string text(const Octets &octets) { return {octets.begin(), octets.end()}; }

bool same(const Outcome &got, const second::Salvaged &expected) {
  return WIFEXITED(got.status) && got.mended == text(expected.mended) && got.listing == expected.listing;
}

// ---- damage

size_t place_in(Random &random, const Octets &octets) { return static_cast<size_t>(random.below(octets.size())); }

void damage_once(Random &random, Octets &octets) {
  if (octets.empty()) return;
  const size_t at = place_in(random, octets);
  const auto place = octets.begin() + static_cast<std::ptrdiff_t>(at);
  const size_t long_ = std::min<size_t>(octets.size() - at, 1 + random.below(random.once_in(3) ? 200 : 12));
  switch (random.below(8)) {
  case 0: *place = static_cast<uint8_t>(random.next()); break;
  case 1: *place ^= static_cast<uint8_t>(1 << random.below(8)); break;
  case 2: octets.erase(place, place + static_cast<std::ptrdiff_t>(long_)); break;
  case 3: {
    Octets noise(long_);
    for (uint8_t &octet : noise) octet = static_cast<uint8_t>(random.next());
    octets.insert(place, noise.begin(), noise.end());
    break;
  }
  case 4: octets.resize(at); break;
  case 5: std::fill(place, place + static_cast<std::ptrdiff_t>(long_), uint8_t{0}); break;
  case 6: {
    const char *mark = random.pick({"GM", "GR", "GN", "VO", "VS", "VX", "PO", "PX", "CA", "SL"});
    octets.insert(place, mark, mark + 2);
    break;
  }
  default: {
    // letters of marks, as damage that looks like records
    Octets letters(long_);
    for (uint8_t &octet : letters) octet = static_cast<uint8_t>(random.pick({'S', 'L', 'V', 'X', 'O', 'C', 'A', 'G', 'M', 'R', 'N', 'P', '\0', '\1'}));
    octets.insert(place, letters.begin(), letters.end());
  }
  }
}

// Short records by themselves: holes, lone octets and records that are not resumed at lie close together.
Octets dense(Random &random) {
  const uint64_t head = random.below(20);
  Octets octets = head == 0 ? second::gr(5, 64) : head <= 3 ? second::gn(5, 64) : second::gm(5, 64);
  for (uint64_t k = random.below(40); k > 0; --k) {
    Octets more;
    switch (random.below(10)) {
    case 0: more = second::vx(static_cast<unsigned>(random.below(70000))); break;
    case 1: more = second::sl(static_cast<unsigned>(random.below(3))); break;
    case 2: more = {static_cast<uint8_t>(random.pick({'S', 'V', 'G', 'P', '\0'}))}; break;
    case 3: more = random.once_in(4) ? second::gm(1, 2) : random.once_in(4) ? second::gn(1, 2) : second::sl(7); break;
    case 4: more = second::vo(1, 2, 10, 26); break;
    case 6: more = second::px(static_cast<unsigned>(random.below(300))); break;
    case 7: more = second::po(1, 2, 10, 26); break;
    case 5: more = random.once_in(3) ? second::ca(random, 0, 40) : second::vx(1); break;
    default: more = second::sl(static_cast<unsigned>(random.between(1, 65535)));
    }
    octets.insert(octets.end(), more.begin(), more.end());
  }
  return octets;
}

// An input about as long as what is kept, or longer, damaged near that border too.
Octets long_input(Random &random) {
  Octets octets = second::gm(5, 64);
  const size_t aim = random.percent(25) ? kept : kept + static_cast<size_t>(random.below(30)) - 15;
  while (octets.size() + 4 <= aim) {
    const Octets more = octets.size() + 400 < aim && random.percent(30) ? second::ca(random, 0, 1) : second::sl(1);
    octets.insert(octets.end(), more.begin(), more.end());
  }
  for (uint64_t k = random.below(4); k > 0; --k) damage_once(random, octets);
  if (random.percent(60) && octets.size() > kept - 200) {
    const size_t at = kept - 200 + static_cast<size_t>(random.below(190));
    if (at < octets.size()) octets.insert(octets.begin() + static_cast<std::ptrdiff_t>(at), uint8_t{0});
  }
  // a hole, and then a record that ends where the kept octets do, in an input that goes on or not
  if (random.percent(30)) {
    const Octets last = second::sl(1);
    octets.resize(kept, 0);
    octets[kept - 5] = 0;
    std::copy(last.begin(), last.end(), octets.end() - 4);
    octets.resize(kept + static_cast<size_t>(random.below(3)), 'S');
    return octets;
  }
  if (random.percent(70)) octets.resize(random.percent(50) ? kept : kept + static_cast<size_t>(random.below(200000)), 'S');
  return octets;
}

Octets input_of(uint64_t seed, uint64_t index) {
  Random random(Random(seed).next() ^ Random(index * 2 + 12345).next());
  if (index % 25 == 24) return long_input(random);
  Octets octets = index % 2 == 0 ? dense(random) : second::generate(seed, index).octets();
  for (uint64_t k = random.below(6); k > 0; --k) damage_once(random, octets);
  return octets;
}

// ---- stored cases

Octets from_hex(const std::string &hex) {
  Octets octets;
  for (size_t k = 0; k + 1 < hex.size(); k += 2)
    octets.push_back(static_cast<uint8_t>(std::strtoul(hex.substr(k, 2).c_str(), nullptr, 16)));
  return octets;
}

second::Salvaged stored(const std::string &result) {
  if (result == "17") return {{}, "stop 17\n"};
  std::istringstream words(result);
  std::string zero, mended, stretch, listing;
  words >> zero >> mended;
  while (words >> stretch) {
    stretch[stretch.find(':')] = ' ';
    listing += stretch + "\n";
  }
  return {from_hex(mended), listing};
}

uint64_t run_cases(const std::string &path, uint64_t &failed) {
  std::ifstream file(path);
  if (!file) give_up(path.c_str());
  uint64_t cases = 0;
  second::Met unused;
  for (std::string line; std::getline(file, line); ++cases) {
    const size_t one = line.find('\t'), two = line.find('\t', one + 1);
    const Octets input = from_hex(line.substr(one + 1, two - one - 1));
    const second::Salvaged expected = stored(line.substr(two + 1)), own = second::salvage(input, unused);
    const bool agree = own.mended == expected.mended && own.listing == expected.listing;
    if (agree && same(run(input, false), expected)) continue;
    ++failed;
    std::printf("FAILED: case '%s'%s\n", line.substr(0, one).c_str(), agree ? "" : ": the second salvage says otherwise");
  }
  return cases;
}

bool met_enough(const second::Met &met) {
  static const char *const needed[] = {"17",
                                       "no stretch",
                                       "one stretch",
                                       "several stretches",
                                       "stretch of one octet",
                                       "stretch of more",
                                       "stretch to the end",
                                       "stretch: no mark",
                                       "stretch: half a mark",
                                       "stretch: a short record",
                                       "stretch: SL of 0",
                                       "stretch: a later GM, GR or GN",
                                       "stretch: nothing kept there",
                                       "record kept after a stretch",
                                       "resumed before a GM, GR or GN",
                                       "resumed at the last record",
                                       "not resumed at: one octet behind it",
                                       "not resumed at: no mark behind it",
                                       "not resumed at: the kept octets end behind it",
                                       "record kept at the end of the kept octets",
                                       "stretch beyond the kept octets"};
  bool all = true;
  int shown = 0;
  for (const char *what : needed) {
    const auto found = met.times.find(what);
    const uint64_t times = found == met.times.end() ? 0 : found->second;
    std::printf("%s%s %llu%s", shown++ % 4 == 0 ? "\n    " : "; ", what, static_cast<unsigned long long>(times),
                times < 3 ? " (TOO SELDOM)" : "");
    all = all && times >= 3;
  }
  std::printf("\n");
  return all;
}

} // namespace

int main(int count, char **arguments) {
  if (count != 6) return std::fprintf(stderr, "damage SALVAGE SEED TRACES FOLDER CASES\n"), 2;
  program = arguments[1], folder = arguments[4];
  const uint64_t seed = std::strtoull(arguments[2], nullptr, 0), traces = std::strtoull(arguments[3], nullptr, 0);
  if (access(program.c_str(), X_OK) != 0) give_up(program.c_str());
  mkdir(folder.c_str(), 0777);
  std::printf("salvage: seed %llu\n", static_cast<unsigned long long>(seed));
  uint64_t failed = 0, octets = 0, lines = 0;
  const uint64_t cases = run_cases(arguments[5], failed);
  second::Met met;
  for (uint64_t index = 0; index < traces && failed < 5; ++index) {
    const Octets input = input_of(seed, index);
    const second::Salvaged expected = second::salvage(input, met);
    const Outcome got = run(input, index % 4 == 3);
    octets += input.size();
    for (char octet : expected.listing) lines += octet == '\n';
    if (!same(got, expected)) {
      ++failed;
      const std::string name = folder + "/failed-" + std::to_string(seed) + "-" + std::to_string(index);
      write_file(name + ".damaged", input.data(), input.size());
      write_file(name + ".mended", expected.mended.data(), expected.mended.size());
      write_file(name + ".stretches", expected.listing.data(), expected.listing.size());
      std::printf("FAILED: trace %llu, kept as %s.damaged, with .mended and .stretches as expected\n",
                  static_cast<unsigned long long>(index), name.c_str());
    } else if (index % 16 == 0 && !expected.mended.empty()) {
      const Outcome again = run(expected.mended, false);
      if (again.mended != got.mended || !again.listing.empty())
        ++failed, std::printf("FAILED: trace %llu, mended twice\n", static_cast<unsigned long long>(index));
      met("mended again");
    }
    if ((index + 1) % 500 == 0)
      std::printf("  %llu traces\n", static_cast<unsigned long long>(index + 1)), std::fflush(stdout);
  }
  if (failed) return std::printf("salvage: FAILED on %llu traces\n", static_cast<unsigned long long>(failed)), 1;
  std::printf("  met:");
  const bool all = met_enough(met);
  std::printf("salvage: %llu stored cases, %llu damaged traces of %llu octets, %llu stretches, both outputs equal\n",
              static_cast<unsigned long long>(cases), static_cast<unsigned long long>(traces),
              static_cast<unsigned long long>(octets), static_cast<unsigned long long>(lines));
  if (!all) return std::printf("salvage: FAILED, something was met too seldom\n"), 1;
}
