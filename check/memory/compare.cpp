// Compares the archive with the second implementation of the calls, after every
// call: the answer, the record, all six memories, and what lies around them.
//
//   compare SEED CALLS [SCENARIO]
//
// Scenario i depends on SEED and i alone, so a failure is run again by its number.
#include <csignal>

#include "scenario.hpp"

namespace memories {

// How often everything was met; a thing met less than `enough` times fails the run.
class Summary {
public:
  explicit Summary(uint64_t enough) : enough(enough) {}
  bool complete = true;

  void numbers() {
    const std::map<std::string, std::vector<unsigned>> expected = {{"setup", {0, 1, 2, 13}},
                                                                   {"open", {0, 1, 2, 3, 4, 5, 6, 16}},
                                                                   {"open_sustained", {0, 1, 2, 3, 4, 5, 6, 11, 16}},
                                                                   {"open_path", {0, 1, 2, 3, 4, 5, 6, 11, 16}},
                                                                   {"close", {0, 1, 2, 3, 4, 7, 8, 16}},
                                                                   {"close_path", {0, 1, 2, 3, 4, 7, 8, 16}},
                                                                   {"slot", {0, 1, 2, 3, 9}},
                                                                   {"next", {0, 1, 2, 3}},
                                                                   {"burst", {0, 1, 2, 3, 9}},
                                                                   {"tally_slot", {0, 1, 2, 3, 4}},
                                                                   {"percentile", {0, 3, 15}},
                                                                   {"burst_tallied", {0, 1, 2, 3, 4, 9}}};
    for (const auto &[call, which] : expected) {
      std::printf("  %-14s", call.c_str());
      for (unsigned number : which) item("  " + std::to_string(number) + ":", met[call][number]);
      std::printf("\n");
    }
  }
  void others() {
    std::printf("  verdicts in served slots:");
    item(" nothing", verdicts[0]), item(", accepted", verdicts[1]), item(", excess", verdicts[2]);
    item(", unknown", verdicts[3]);
    item(", dropped", verdicts[4]);
    item(", tagged", verdicts[5]);
    item("; sent", sent), item("; slots in bursts", burst_slots);
    std::printf("\n  audits:");
    item(" yes", audits_yes), item(", no", audits_no), item("; line parts: empty", parts_empty);
    item(", idle", parts_idle), item(", space", parts_cell), item("; damages", damages);
    std::printf("\n  slots beside the old form:"), item("", beside_old), item(", in another space", other_spaces);
    std::printf("\n  next departures beside a walk over the entries: none waits"), item("", walked_none), item(", some", walked_some);
    item("; beside what then left", left_asleep), item(", empty slots", slots_asleep);
    std::printf("\n  delays beside a recount of the answers: by slots"), item("", followed_sent), item(", in bursts", followed_sent_in_bursts);
    std::printf("\n");
  }
  // Which of the forty bits were mended: the one least often, that is.
  void bits() {
    uint64_t least = UINT64_MAX;
    for (uint64_t times : calls::tally.mended_bit) least = std::min(least, times);
    std::printf("  header bits mended, of forty the least often:");
    item("", least);
    std::printf("\n");
  }
  template <size_t size>
  void clauses(const char *title, const char *const (&names)[size], const std::array<uint64_t, size> &times) {
    std::printf("  %s", title);
    for (size_t k = 0; k < size; ++k)
      item((k % 5 == 0 ? "\n    " : "; ") + std::string(names[k]), times[k]);
    std::printf("\n");
  }

private:
  const uint64_t enough;
  void item(const std::string &name, uint64_t times) {
    std::printf("%s %llu%s", name.c_str(), static_cast<unsigned long long>(times),
                times < enough ? " (TOO SELDOM)" : "");
    complete = complete && times >= enough;
  }
};

} // namespace memories

using namespace memories;

int main(int count_arguments, char **arguments) {
  if (count_arguments < 3) return std::fprintf(stderr, "compare SEED CALLS [SCENARIO]\n"), 2;
  const uint64_t seed = std::strtoull(arguments[1], nullptr, 0);
  const uint64_t wanted = std::strtoull(arguments[2], nullptr, 0);
  std::signal(SIGSEGV, on_fault), std::signal(SIGBUS, on_fault);
  std::signal(SIGILL, on_fault), std::signal(SIGFPE, on_fault), std::signal(SIGABRT, on_fault);
  const auto seed_of = [&](uint64_t number) { return Random(seed ^ number << 20).next() + number; };
  std::printf("memories: seed %llu\n", static_cast<unsigned long long>(seed));
  if (count_arguments > 3) {
    scenario = std::strtoull(arguments[3], nullptr, 0);
    Scenario(seed_of(scenario)).run();
    return std::printf("scenario %llu agrees\n", static_cast<unsigned long long>(scenario)), 0;
  }
  for (uint64_t shown = 1; made < wanted; ++scenario) {
    Scenario(seed_of(scenario)).run();
    if (made * 5 >= wanted * shown && shown < 5)
      std::printf("  %llu calls agree\n", static_cast<unsigned long long>(made)), std::fflush(stdout),
          ++shown;
  }
  Summary summary(wanted / 40000 + 1);
  summary.numbers();
  summary.others();
  summary.clauses("refusal 3 by clause:", calls::clause_name, calls::tally.clause);
  summary.clauses("the audit's no by clause:", calls::fault_name, calls::tally.fault);
  summary.clauses("close by what is left of S:", calls::close_name, calls::tally.close);
  summary.clauses("cells and openings by the second bucket:", calls::bucket_name, calls::tally.bucket);
  summary.clauses("line kind and paths:", calls::path_name, calls::tally.path);
  summary.clauses("bits and number of free spaces:", calls::space_name, calls::tally.space);
  summary.clauses("bits of the calendar entries:", calls::mark_name, calls::tally.mark);
  summary.clauses("splits and operators:", calls::owner_name, calls::tally.owner);
  summary.clauses("arrival slots, tallies and percentiles:", calls::delay_name, calls::tally.delay);
  summary.clauses("the header check:", calls::check_name, calls::tally.check), summary.bits();
  std::printf("memories: %llu calls in %llu scenarios compared, all equal\n",
              static_cast<unsigned long long>(made), static_cast<unsigned long long>(scenario));
  if (!summary.complete) return std::fprintf(stderr, "memories: FAILED, something was met too seldom\n"), 1;
}
