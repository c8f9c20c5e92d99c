// The second program: a trace on standard input, its listing on standard output.
#include <cstdio>

#include "second.hpp"

int main() {
  std::vector<uint8_t> input;
  // One octet beyond the limit tells that the input goes on.
  for (int octet; input.size() <= 65536 && (octet = std::getchar()) != EOF;)
    input.push_back(static_cast<uint8_t>(octet));
  second::Met met;
  const std::string listing = second::Spacer(input, met).list();
  return std::fwrite(listing.data(), 1, listing.size(), stdout) == listing.size() ? 0 : 1;
}
