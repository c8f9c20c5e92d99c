// Prints the header vectors that the crate hec holds as a theorem, or, with the word
// `count`, how the 40 single, 780 double, 9,880 triple and 91,390 quadruple errors of
// some headers are taken.
#include "hec.hpp"
#include "../random.hpp"
#include <cstdio>
#include <cstring>
#include <vector>

using second::Header;

// Unassigned, idle, three small ones and all ones; every other single bit; some by
// chance.
static std::vector<Header> headers() {
  std::vector<Header> all;
  const auto add = [&](uint32_t w) {
    Header h{static_cast<uint8_t>(w >> 24), static_cast<uint8_t>(w >> 16), static_cast<uint8_t>(w >> 8), static_cast<uint8_t>(w), 0};
    h[4] = second::octet5(h);
    all.push_back(h);
  };
  for (uint32_t w : {0x00000000u, 0x00000001u, 0x00000003u, 0x00000009u, 0x00000050u, 0xffffffffu}) add(w);
  for (unsigned i = 1; i < 32; ++i) add(1u << i);
  Random random(432);
  for (unsigned i = 0; i < 24; ++i) add(static_cast<uint32_t>(random.next()));
  return all;
}

static void count(const Header &clean) {
  unsigned long one = 0, two = 0, three = 0, four = 0;
  for (unsigned i = 0; i < 40; ++i) {
    const Header a = second::with_bit_changed(clean, i);
    one += second::wrong_bit(a) == i;
    for (unsigned j = i + 1; j < 40; ++j) {
      const Header b = second::with_bit_changed(a, j);
      two += second::wrong_bit(b) == 41;
      for (unsigned k = j + 1; k < 40; ++k) {
        const Header c = second::with_bit_changed(b, k);
        three += second::wrong_bit(c) < 40;
        for (unsigned l = k + 1; l < 40; ++l) four += second::is_clean(second::with_bit_changed(c, l));
      }
    }
  }
  std::printf("single errors named: %lu of 40; double ones seen as more than one: %lu of 780; triple ones taken for single: %lu of 9880; quadruple ones not seen: %lu of 91390\n",
              one, two, three, four);
}

int main(int argc, char **argv) {
  const std::vector<Header> all = headers();
  if (argc > 1 && std::strcmp(argv[1], "count") == 0) {
    for (size_t i : {size_t{1}, size_t{5}, all.size() - 1}) count(all[i]);
    return 0;
  }
  for (const Header &h : all) std::printf("    (0x%02x ∷ 0x%02x ∷ 0x%02x ∷ 0x%02x ∷ 0x%02x ∷ []) ∷\n", h[0], h[1], h[2], h[3], h[4]);
}
