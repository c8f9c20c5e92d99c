// What the comparison of memories is made of: every buffer twice, a failure with
// its place, and the counts of what was met.
#pragma once
#include <cstdio>
#include <cstdlib>
#include <cstring>
#include <map>
#include <string>
#include <unistd.h>

#include "calls.hpp"

namespace memories {

using calls::Lent;
constexpr uint16_t none = CLURIMOON_NONE;
// Elements around every lent buffer that no call may touch: whole cells, whole connections.
constexpr size_t slack = 53 * 12;

inline uint64_t scenario, made;
inline const char *call_name = "none";

[[noreturn]] inline void fail(const std::string &what) {
  std::fflush(stdout);
  std::fprintf(stderr, "\nFAILED in scenario %llu, call %llu (%s): %s\n",
               static_cast<unsigned long long>(scenario), static_cast<unsigned long long>(made), call_name,
               what.c_str());
  std::exit(1);
}

// A fault inside a call is a failure with its place, too.
inline void on_fault(int signal_number) {
  char text[160];
  const int length =
      std::snprintf(text, sizeof text, "\nFAILED in scenario %llu, call %llu (%s): signal %d\n",
                    static_cast<unsigned long long>(scenario), static_cast<unsigned long long>(made),
                    call_name, signal_number);
  if (write(2, text, static_cast<size_t>(length)) < 0) _exit(3);
  _exit(2);
}

// A buffer, twice: `ours` for the second implementation, `theirs` for the archive.
template <class Word> class Twin {
public:
  // What lies around the buffer repeats `around`: numbers that would pass for
  // stored ones, so that a call that reads them answers otherwise.
  void resize(size_t elements, const std::vector<Word> &around) {
    length = elements;
    ours.resize(elements + 2 * slack);
    for (size_t k = 0; k < slack; ++k) ours[k] = ours[slack + elements + k] = around[k % around.size()];
    for (size_t k = 0; k < elements; ++k) ours[slack + k] = static_cast<Word>(0xa5a5a5a5u);
    theirs = ours;
  }
  size_t size() const { return length; }
  // Sets an element on both sides.
  void set(size_t at, Word value) { ours[slack + at] = theirs[slack + at] = value; }
  Word get(size_t at) const { return ours[slack + at]; }
  Lent<Word> lend_ours(size_t lent) { return {ours.data() + slack, lent}; }
  // An empty slice is lent as NULL now and then.
  Word *lend_theirs(size_t lent, bool null) { return lent == 0 && null ? nullptr : theirs.data() + slack; }
  void compare(const char *name) const {
    if (std::memcmp(ours.data(), theirs.data(), ours.size() * sizeof(Word)) == 0) return;
    for (size_t at = 0; at < ours.size(); ++at)
      if (ours[at] != theirs[at])
        fail(std::string(name) + "[" +
             std::to_string(static_cast<long long>(at) - static_cast<long long>(slack)) + "]: expected " +
             std::to_string(ours[at]) + ", archive has " + std::to_string(theirs[at]));
  }

private:
  size_t length = 0;
  std::vector<Word> ours, theirs;
};

inline std::string show(const clurimoon_record &r) {
  std::string text = "{";
  for (uint32_t number :
       {uint32_t{r.n}, uint32_t{r.v}, r.t, uint32_t{r.T}, uint32_t{r.rotation}, uint32_t{r.free}, uint32_t{r.out_head}, uint32_t{r.out_tail}, uint32_t{r.raw}, uint32_t{r.mode},
        uint32_t{r.kind}, uint32_t{r.split_vci}, uint32_t{r.split_path}})
    text += " " + std::to_string(number);
  return text + " }";
}
inline std::string show(const clurimoon_answer &a) {
  std::string text = "{";
  for (unsigned number : {a.number, a.verdict, a.vci, a.d, a.space, a.out_vci})
    text += " " + std::to_string(number);
  return text + " }";
}
inline std::string show(uint64_t number) { return std::to_string(number); }

template <class T> void same(const char *name, const T &expected, const T &got) {
  const std::string a = show(expected), b = show(got);
  if (a != b) fail(std::string(name) + ": expected " + a + ", archive says " + b);
}
inline void same_record(const clurimoon_record &expected, const clurimoon_record &got) {
  const bool equal = expected.n == got.n && expected.v == got.v && expected.t == got.t &&
                     expected.T == got.T && expected.rotation == got.rotation &&
                     expected.free == got.free && expected.out_head == got.out_head &&
                     expected.out_tail == got.out_tail && expected.raw == got.raw && expected.mode == got.mode && expected.kind == got.kind &&
                     expected.split_vci == got.split_vci && expected.split_path == got.split_path;
  if (!equal) same("record", expected, got);
}

// How often each call gave each number, and each verdict was met.
inline std::map<std::string, std::array<uint64_t, 17>> met;
inline std::array<uint64_t, 6> verdicts;
inline uint64_t sent, audits_yes, audits_no, parts_empty, parts_idle, parts_cell, burst_slots, damages, beside_old, other_spaces, walked_none, walked_some,
    left_asleep, slots_asleep, followed_sent, followed_sent_in_bursts;

inline void count(const char *call, unsigned number) {
  if (number > 16) fail("a number above 16");
  met[call][number] += 1;
}

} // namespace memories
