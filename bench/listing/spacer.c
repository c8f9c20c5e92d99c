/* A program like spacer, written by hand: the slot of bench/slot/checking.c, digits by hand, a buffer of 64 KiB, one write
   a fill. It lists legal traces whose records are all readable; it is there to be timed, not to be used. */
#include <stdbool.h>
#include <string.h>
#include <unistd.h>

#include "../slot/slots.h"

static uint8_t input[65537], out[65536];
static uint8_t cells[53 * 1024];
static uint16_t links[1024], calendar[2048];
static uint32_t vcs[CLURIMOON_VCS(1024)];
static uint64_t bits[CLURIMOON_BITS];
static uint32_t arrived[1024];
static size_t used;

static void flush(void) {
  for (size_t done = 0; done < used;) {
    ssize_t put = write(1, out + done, used - done);
    if (put <= 0) _exit(1);
    done += (size_t)put;
  }
  used = 0;
}

static inline uint8_t *four(uint8_t *p, uint32_t n) {
  uint32_t h = n / 100, l = n % 100;
  p[0] = (uint8_t)(48 + h / 10), p[1] = (uint8_t)(48 + h % 10);
  p[2] = (uint8_t)(48 + l / 10), p[3] = (uint8_t)(48 + l % 10);
  return p + 4;
}

static inline uint8_t *head(uint8_t *p, uint32_t n) {
  if (n < 10) return *p = (uint8_t)(48 + n), p + 1;
  if (n < 100) return p[0] = (uint8_t)(48 + n / 10), p[1] = (uint8_t)(48 + n % 10), p + 2;
  if (n < 1000)
    return p[0] = (uint8_t)(48 + n / 100), p[1] = (uint8_t)(48 + n / 10 % 10), p[2] = (uint8_t)(48 + n % 10), p + 3;
  return four(p, n);
}

static inline uint8_t *number(uint8_t *p, uint32_t n, uint8_t after) {
  if (n < 10000) p = head(p, n);
  else if (n < 100000000) p = four(head(p, n / 10000), n % 10000);
  else p = four(four(head(p, n / 100000000), n / 10000 % 10000), n % 10000);
  return *p = after, p + 1;
}

static inline uint8_t *field(uint8_t *p, bool shown, uint32_t n, uint8_t after) {
  if (shown) return number(p, n, after);
  return p[0] = '-', p[1] = after, p + 2;
}

static inline void slot_line(uint32_t t, clurimoon_answer a) {
  uint8_t *p = number(out + used, t, ' ');
  *p++ = (uint8_t)(".AXUHT"[a.verdict]), *p++ = ' ';
  p = field(p, a.verdict != 0, a.vci, ' ');
  p = field(p, a.verdict == 1 || a.verdict == 5, a.d, ' ');
  p = field(p, a.space != 65535, a.out_vci, '\n');
  used = (size_t)(p - out);
}

static void text_line(const char *text, const uint32_t *numbers, int many) {
  size_t long_ = strlen(text);
  memcpy(out + used, text, long_);
  uint8_t *p = out + used + long_;
  for (int i = 0; i < many; i++) p = number(p, numbers[i], i + 1 < many ? ' ' : '\n');
  used = (size_t)(p - out);
}

static inline uint32_t be16(const uint8_t *p) { return (uint32_t)p[0] << 8 | p[1]; }
static inline uint32_t be32(const uint8_t *p) { return be16(p) << 16 | be16(p + 2); }

int main(void) {
  size_t long_ = 0;
  for (ssize_t got; long_ < sizeof input && (got = read(0, input + long_, sizeof input - long_)) > 0;) long_ += (size_t)got;
  uint32_t n = be16(input + 2), v = be16(input + 4), tally[5] = {0};
  clurimoon_record r = {.n = (uint16_t)n, .v = (uint16_t)v, .t = UINT32_MAX, .T = (uint16_t)(n - 1),
                        .rotation = (uint16_t)(v + 255), .free = (uint16_t)n,
                        .out_head = 65535, .out_tail = 65535, .kind = input[1] == 'N'};
  const lent_memory lent = {cells, links, calendar, vcs, bits, arrived, 53 * n, n, 2 * n, CLURIMOON_VCS(v), CLURIMOON_BITS, n};
  memset(calendar, 255, sizeof calendar);
  for (uint32_t i = 0; i < n; i++) bits[i / 64] |= (uint64_t)1 << i % 64;
  text_line("setup ", (uint32_t[]){n, v, 0}, 3);
  for (size_t at = 6; at < long_;) {
    const uint8_t *p = input + at, *cell = p + 2;
    uint32_t slots = 0;
    size_t cell_long = 0;
    if (sizeof out - used < 160) flush();
    const bool named = p[0] == 'V' || p[0] == 'P';
    const uint32_t name = be16(p + 2) + (p[0] == 'P' ? v : 0);
    if (named && p[1] != 'X') {
      uint32_t *vc = vcs + 12 * name;
      vc[0] = 1, vc[1] = p[4], vc[2] = be32(p + 5), vc[3] = be32(p + 9), vc[4] = 0, vc[5] = r.t, vc[6] = 0;
      if (p[1] == 'S') vc[7] = p[13], vc[8] = be32(p + 14), vc[9] = be32(p + 18), vc[11] = p[22];
      text_line("open ", (uint32_t[]){name, 0}, 2), at += p[1] == 'S' ? 23 : 13;
    } else if (named) {
      memset(vcs + 12 * name, 0, 48);
      text_line("close ", (uint32_t[]){name, 0}, 2), at += 4;
    } else if (p[0] == 'C') slots = 1, cell_long = 53, at += 55;
    else slots = be16(p + 2), at += 4;
    for (uint32_t i = 0; i < slots; i++) {
      if (sizeof out - used < 160) flush();
      clurimoon_answer a;
      checking_slot(&r, &lent, cell, cell_long, &a);
      slot_line(r.t, a);
      tally[0] += a.verdict == 1 || a.verdict == 5, tally[1] += a.verdict == 2, tally[2] += a.verdict == 3;
      tally[3] += a.space != 65535;
    }
  }
  tally[4] = tally[0] - tally[3];
  if (sizeof out - used < 160) flush();
  text_line("end ", tally, 5);
  flush();
  return 0;
}
