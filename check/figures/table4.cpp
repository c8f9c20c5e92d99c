// Source 003, Table IV: a connection policed at 8 Mb/s of 149.76 Mb/s with a
// tolerance of 60 microseconds, fed with traffic of 4.0 to 7.0 % of the line.
//
//   table4 SPACER FOLDER [SVG]
//
// The traffic is 1,100 cells a trace, evenly spaced as far as whole slots allow.
#include <cstdint>
#include <cstdlib>
#include <cstring>

#include "chart.hpp"

namespace {

constexpr unsigned cells = 1100, vci = 32;
// In slots of 424 bits: 149.76 / 8 = 18.72 and 60 us x 149.76 Mb/s / 424 = 5616/265.
constexpr uint64_t leak = 1u << 15;
constexpr uint64_t fill = (1872 * leak + 50) / 100, tolerance = 5616 * leak / 265;

void put(std::string &to, uint64_t number, int octets) {
  while (octets-- > 0) to.push_back(static_cast<char>(number >> 8 * octets & 255));
}

// The slot in which cell k is sent, for a rate in tenths of a percent of the line.
uint64_t sending_slot(uint64_t k, uint64_t rate) { return k * 1000 / rate; }

std::string trace_of(uint64_t rate) {
  std::string trace = "GM";
  put(trace, tolerance / leak + 1, 2), put(trace, 64, 2);
  trace += "VO";
  put(trace, vci, 2), put(trace, 15, 1), put(trace, fill, 4), put(trace, fill + tolerance, 4);
  uint64_t next = 0;
  for (unsigned k = 0; k < cells; ++k) {
    const uint64_t slot = sending_slot(k, rate);
    if (slot > next) trace += "SL", put(trace, slot - next, 2);
    trace += "CA", put(trace, vci << 4, 4), trace += std::string(49, 'x');
    next = slot + 1;
  }
  return trace;
}

// The share of excess cells, from the end line of the program's listing.
double loss_of(const std::string &spacer, const std::string &folder, uint64_t rate) {
  const std::string path = folder + "/table4-" + std::to_string(rate) + ".trace", trace = trace_of(rate);
  if (trace.size() > 65536 || !write_text(path, trace)) std::perror(path.c_str()), std::exit(2);
  std::FILE *listing = popen(("'" + spacer + "' < '" + path + "'").c_str(), "r");
  unsigned long accepted = 0, excess = 0;
  char line[200];
  while (listing && std::fgets(line, sizeof line, listing))
    std::sscanf(line, "end %lu %lu", &accepted, &excess);
  if (!listing || pclose(listing) != 0 || accepted + excess != cells) {
    std::fprintf(stderr, "table4: FAILED, the program did not judge %u cells\n", cells);
    std::exit(1);
  }
  return static_cast<double>(excess) / cells;
}

} // namespace

int main(int count, char **arguments) {
  if (count < 3) return std::fprintf(stderr, "table4 SPACER FOLDER [SVG]\n"), 2;
  struct Row {
    uint64_t rate; // tenths of a percent
    int source;    // hundredths, as the source prints them
  };
  const Row rows[] = {{40, 0}, {45, 0}, {50, 0}, {55, 2}, {60, 10}, {65, 17}, {70, 23}};
  std::vector<Point> ours, theirs;
  bool same = true;
  std::printf("| Rate of the traffic | Loss in source 003 | Loss through spacer |\n|---|---|---|\n");
  for (const Row &row : rows) {
    const double loss = loss_of(arguments[1], arguments[2], row.rate);
    std::printf("| %.1f %% | %.2f | %.4f |\n", static_cast<double>(row.rate) / 10, row.source / 100.0, loss);
    same = same && static_cast<int>(loss * 100) == row.source;
    ours.push_back({static_cast<double>(row.rate) / 10, loss}),
        theirs.push_back({static_cast<double>(row.rate) / 10, row.source / 100.0});
  }
  Chart chart("Loss at 8 Mb/s of 149.76 Mb/s, tolerance 60 microseconds",
              {"rate of the traffic, percent of the line", 4, 7, {4, 4.5, 5, 5.5, 6, 6.5, 7}, false},
              {"loss", 0, 0.25, {0, 0.05, 0.1, 0.15, 0.2, 0.25}, false});
  chart.curve(ours, "#1f5fa8", "", "through spacer");
  chart.marks(theirs, "#b03030", "source 003, Table IV (cut to two places)");
  if (count > 3 && !write_text(arguments[3], chart.finish())) return std::perror(arguments[3]), 2;
  if (!same)
    return std::fprintf(stderr, "table4: FAILED, a loss cut to two places differs from the source's\n"), 1;
}
