// A second spacer, written from documents 01 and 02 and source 000 alone, on due
// times and queues: each connection keeps the due time of its next cell in parts of
// 1/L slot on a clock that never wraps; cells wait by due slot and then in one queue.
// There are no links, heads, tails, spaces or buckets here, and no rotation.
#pragma once
#include <array>
#include <cstdint>
#include <deque>
#include <map>
#include <string>
#include <vector>

#include "gcra.hpp"
#include "hec.hpp"

namespace second {

// What a run met, so that the runner can say that every case was met.
struct Met {
  std::map<std::string, uint64_t> times;
  void operator()(const std::string &what) { times[what] += 1; }
};

class Spacer {
public:
  Spacer(const std::vector<uint8_t> &input, Met &met) : input(input), met(met) {}

  // The whole listing of the input.
  std::string list();

private:
  // One opening of a VC or path. All times are in parts of 1/L slot, from slot 0 on.
  struct Opening {
    bool open = false;
    unsigned m = 0;
    uint64_t f = 0, c = 0;
    uint64_t next_due = 0; // the last accepted cell's due time plus F, or 0
    uint64_t waiting = 0;
    Kept engine; // the generator's rule beside it, from its first cell on
    // The sustainable rate of CLP 0 cells, in parts of its own 1/L slot; F 0 for none.
    unsigned m2 = 0;
    uint64_t f2 = 0, c2 = 0;
    bool tags = false;
    uint64_t next_due2 = 0; // as next_due, of the cells that filled the second bucket
    uint64_t sustained_cells = 0;
    Wide most_spared = 0; // for the bound on them
    unsigned last_vci = 0; // of a path's last cell, and whether there was one
    bool has_vci = false;
  };
  // A connection's last opening that accepted a cell and is closed, to hold the next against.
  struct Past {
    uint64_t next_due = 0; // 0 for none
    unsigned m = 0;
    uint64_t closed_at = 0; // `now` at its close
    bool owed2 = false;     // its second bucket was not empty then
  };
  // An accepted cell; the slot in which it is due is the queue that it is in.
  struct Cell {
    unsigned connection;
    uint64_t due_slot;
  };
  // What a header says, by the line kind.
  struct Read {
    unsigned vpi, vci;
    bool clp;
  };

  const std::vector<uint8_t> &input;
  Met &met;
  std::string listing;
  uint64_t spaces = 0, vcs = 0;
  bool raw = false;
  bool nni = false; // no GFC, a VPI of twelve bits
  HeaderCheck header_check;
  bool paused = false; // the slot before brought no cell
  uint64_t now = 0; // the next slot's number
  std::vector<Opening> openings; // VCs by VCI, then paths: V + VPI
  std::vector<Past> pasts;
  std::map<uint64_t, std::vector<Cell>> due; // by due slot, in order of arrival
  std::deque<Cell> leaving;
  uint64_t accepted = 0, excess = 0, unknown = 0, sent = 0;

  uint64_t number(size_t place, size_t octets) const;
  void run(size_t readable, bool more);
  bool setup(size_t place);
  struct Named {
    uint64_t number; // as listed: the VCI, or V + VPI
    bool exists;
  };
  Named named_at(size_t place);
  void open(size_t place);
  int open_with(const Opening &asked, const Named &, uint64_t m, uint64_t m2, uint64_t flag);
  bool within_limits(const Opening &asked, uint64_t m2, uint64_t flag);
  void close(size_t place);
  bool may_close(const Opening &);
  void meet_reopening(const Opening &, const Past &, uint64_t due_time);
  void slot(const uint8_t *cell);
  std::string take_in(const uint8_t *cell);
  void meet_check(const Header &came, bool correcting, bool taken, char verdict);
  Read read(const Header &) const;
  std::string arrive(const Header &);
  std::string arrive_unknown(const Read &);
  std::string arrive_open(Opening &, unsigned connection, bool clp);
  void meet_path(Opening &, const Header &, const Read &, char verdict);
  bool sustained(Opening &, bool clp, bool above_peak);
  void meet_bound(Opening &, uint64_t arrival);
  void meet_engine(Opening &, uint64_t due_time, bool is_excess);
  bool within_rules(uint64_t m, uint64_t f, uint64_t c);
  void stop(size_t place, const char *why);
};

} // namespace second
