/* What the rule for machine code must refuse, and one function that it must let through: a rule that never refuses, or
   always, shows nothing. Each wide function is one way that a product of 47 bits can come back;
   what another function does is not seen, so a call is refused too. */
#include <stdint.h>

uint32_t wide_shift(uint32_t s, uint32_t m, uint32_t slots) {
  uint64_t fall = (uint64_t)slots << (m & 15);
  return fall <= s ? s - (uint32_t)fall : 0;
}

uint32_t wide_product(uint32_t s, uint32_t rate, uint32_t slots) {
  uint64_t fall = (uint64_t)slots * rate;
  return fall <= s ? s - (uint32_t)fall : 0;
}

uint32_t wide_quotient(uint32_t s, uint32_t rate, uint32_t slots) { return slots < s / (rate | 1) ? s : 0; }

uint32_t elsewhere(uint32_t s);
uint32_t wide_call(uint32_t s) { return elsewhere(s + 1); }

uint32_t narrow_shift(uint32_t s, uint32_t m, uint32_t slots) {
  return slots <= s >> (m & 15) ? s - (slots << (m & 15)) : 0;
}
