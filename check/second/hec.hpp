// Header error control (ITU-T I.432) for the second program, bit by bit and with no
// table: a shift register of eight bits takes one header bit after the other, and a
// wrong bit is found by trying all forty.
#pragma once
#include <array>
#include <cstdint>

namespace second {

using Header = std::array<uint8_t, 5>;

// The bit of forty that is sent i-th: octet 1 first, its highest bit first.
inline unsigned bit_of(const Header &h, unsigned i) { return h[i / 8] >> (7 - i % 8) & 1; }

inline Header with_bit_changed(Header h, unsigned i) {
  h[i / 8] = static_cast<uint8_t>(h[i / 8] ^ 1u << (7 - i % 8));
  return h;
}

// Octet 5 as the first four octets ask for it. The register holds the remainder of
// what has come in, times x^8; bits leave at the left, and one that is 1 comes back
// as x^2 + x + 1.
inline uint8_t octet5(const Header &h) {
  std::array<unsigned, 8> reg{}; // reg[k]: the coefficient of x^k
  for (unsigned i = 0; i < 32; ++i) {
    const unsigned back = reg[7] ^ bit_of(h, i);
    for (unsigned k = 7; k > 0; --k) reg[k] = reg[k - 1];
    reg[0] = back;
    reg[1] ^= back;
    reg[2] ^= back;
  }
  unsigned octet = 0;
  for (unsigned k = 8; k > 0; --k) octet = 2 * octet + reg[k - 1];
  return static_cast<uint8_t>(octet ^ 0x55); // 01010101
}

inline bool is_clean(const Header &h) { return octet5(h) == h[4]; }

// The one bit of forty that makes the header clean when changed: 40 where none
// needs to be, 41 where none does.
inline unsigned wrong_bit(const Header &h) {
  if (is_clean(h)) return 40;
  for (unsigned i = 0; i < 40; ++i)
    if (is_clean(with_bit_changed(h, i))) return i;
  return 41;
}

// The check with its two modes.
class HeaderCheck {
public:
  // Whether the cell is let through; the header is mended where one bit is wrong in
  // correction mode.
  bool takes(Header &h) {
    const unsigned bit = wrong_bit(h);
    const bool mends = correcting && bit < 40;
    correcting = bit == 40;
    if (mends) h = with_bit_changed(h, bit);
    return mends || bit == 40;
  }
  bool in_correction() const { return correcting; }

private:
  bool correcting = true;
};

} // namespace second
