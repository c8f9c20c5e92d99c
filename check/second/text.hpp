// A second writer of traces and a second printer of them, written from document 02,
// request (viii), alone: a line is cut into words at its spaces, a number is held
// against its bound as a text, and the pauses of a run are added up before any is
// written. Nothing here reads a digit into a narrow number or keeps a rest.
#pragma once
#include <cstddef>
#include <string>

namespace second {

// What a program says: octets on standard output, a line on standard error.
struct Said {
  std::string out, err;
  bool operator==(const Said &other) const { return out == other.out && err == other.err; }
};

// What both programs take in at most, and what the first writes at most.
constexpr size_t text_limit = 524288;

// The trace of a text, for an output of `room` octets.
Said scribe(const std::string &text, size_t room = text_limit);

// The text of a trace, a line a record.
Said unscribe(const std::string &trace);

} // namespace second
