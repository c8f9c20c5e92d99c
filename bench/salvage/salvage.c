/* salvage by hand in C, for comparison: the same input, the same two outputs. */
#include <stdint.h>
#include <stdio.h>
#include <unistd.h>

enum { KEPT = 524288 };
static uint8_t in[KEPT], out[KEPT];
static char text[65536];
static size_t kept, total, listed;

static unsigned mark(size_t p) { return p + 2 > kept ? 0 : in[p] << 8 | in[p + 1]; }

static size_t size_of(unsigned m) {
  switch (m) {
  case 0x4341: return 55;
  case 0x534c: return 4;
  case 0x564f: return 13;
  case 0x5653: return 23;
  case 0x5658: return 4;
  case 0x504f: return 13;
  case 0x5058: return 4;
  case 0x474d: case 0x4752: case 0x474e: return 6;
  default: return 0;
  }
}

/* The end of the record at p, or 0. */
static size_t record(size_t p) {
  const unsigned m = mark(p);
  const size_t end = p + size_of(m);
  if (end == p || end > kept || (m >> 8 == 'G') != (p == 0)) return 0;
  if (m == 0x534c && in[p + 2] == 0 && in[p + 3] == 0) return 0;
  return end;
}

static void put(int to, const void *data, size_t size) {
  const char *at = data;
  while (size > 0) {
    const ssize_t done = write(to, at, size);
    if (done <= 0) _exit(1);
    at += done, size -= (size_t)done;
  }
}

static void list(size_t first, size_t size) {
  if (listed + 64 > sizeof text) put(2, text, listed), listed = 0;
  listed += (size_t)snprintf(text + listed, 64, "%zu %zu\n", first, size);
}

int main(void) {
  size_t p = 0, q, e, used = 0;
  ssize_t got;
  while (kept < KEPT && (got = read(0, in + kept, KEPT - kept)) > 0) kept += (size_t)got;
  total = kept;
  while ((got = read(0, out, KEPT)) > 0) total += (size_t)got;
  if (got < 0) return 1;
  if (record(0) == 0) return put(2, "stop 17\n", 8), 0;
  while (p < total) {
    if ((e = record(p)) != 0) {
      for (; p < e; ++p) out[used++] = in[p];
      continue;
    }
    for (q = p + 1; q < kept; ++q)
      if ((e = record(q)) != 0 && (e == total || size_of(mark(e)) != 0)) break;
    if (q >= kept) q = total;
    list(p, q - p);
    p = q;
  }
  put(1, out, used), put(2, text, listed);
  return 0;
}
