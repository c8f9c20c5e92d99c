// A second salvage, written from document 02 (xii) alone. It goes over the input from its end: for each place it notes
// whether a record stands there, whether the place is one to resume at, and which is the next such place. The program
// goes forward and keeps no such table.
#pragma once
#include <string>

#include "generate.hpp"
#include "second.hpp"

namespace second {

struct Salvaged {
  Octets mended;       // standard output
  std::string listing; // standard error
};

// What `salvage` writes for an input of any length, of which it keeps so many octets.
Salvaged salvage(const Octets &input, Met &met, size_t kept = 524288);

} // namespace second
