// The generator of this folder as a tool, for a lab: one trace on standard output, by seed, kind and number. The same three
// always give the same octets.
//
//   traces kinds                 names the kinds
//   traces SEED KIND NUMBER      trace NUMBER (from 0) of a kind; of KIND `any` the kinds come in turn
#include <cstdio>
#include <cstdlib>
#include <cstring>

#include "generate.hpp"

namespace {

// A kind's name as a word.
std::string word(std::string name) {
  for (char &letter : name)
    if (letter == ' ') letter = '-';
  return name;
}

// The kinds come in turn by a trace's index, so the first name that is met again tells that all were.
std::vector<std::string> kinds() {
  std::vector<std::string> names;
  for (uint64_t index = 0;; ++index) {
    const std::string name = word(second::generate(0, index).kind);
    if (!names.empty() && name == names[0]) return names;
    names.push_back(name);
  }
}

bool number(const char *text, uint64_t &to) {
  char *end;
  to = std::strtoull(text, &end, 10);
  return *text >= '0' && *text <= '9' && *end == 0;
}

} // namespace

int main(int words, char **arguments) {
  const std::vector<std::string> names = kinds();
  if (words == 2 && std::strcmp(arguments[1], "kinds") == 0) {
    for (const std::string &name : names) std::puts(name.c_str());
    return 0;
  }
  uint64_t seed, index;
  if (words != 4 || !number(arguments[1], seed) || !number(arguments[3], index)) {
    std::fprintf(stderr, "traces kinds | traces SEED KIND NUMBER\n");
    return 2;
  }
  if (std::strcmp(arguments[2], "any") != 0) {
    size_t at = 0;
    while (at < names.size() && names[at] != arguments[2]) ++at;
    if (at == names.size()) {
      std::fprintf(stderr, "traces: no kind '%s'; 'traces kinds' names them\n", arguments[2]);
      return 2;
    }
    index = index * names.size() + at;
  }
  const second::Octets octets = second::generate(seed, index).octets();
  return std::fwrite(octets.data(), 1, octets.size(), stdout) == octets.size() ? 0 : 1;
}
