#include "generate.hpp"

#include <algorithm>

#include "hec.hpp"

namespace second {

namespace {

void put(Octets &to, uint64_t number, unsigned octets) {
  for (unsigned k = octets; k-- > 0;) to.push_back(static_cast<uint8_t>(number >> 8 * k));
}
Octets marked(const char *mark) { return {static_cast<uint8_t>(mark[0]), static_cast<uint8_t>(mark[1])}; }

} // namespace

Octets gm(unsigned n, unsigned v) {
  Octets to = marked("GM");
  return put(to, n, 2), put(to, v, 2), to;
}
Octets gr(unsigned n, unsigned v) {
  Octets to = marked("GR");
  return put(to, n, 2), put(to, v, 2), to;
}
Octets gn(unsigned n, unsigned v) {
  Octets to = marked("GN");
  return put(to, n, 2), put(to, v, 2), to;
}
Octets vo(unsigned vci, unsigned m, uint32_t f, uint32_t c) {
  Octets to = marked("VO");
  return put(to, vci, 2), put(to, m, 1), put(to, f, 4), put(to, c, 4), to;
}
Octets vs(unsigned vci, unsigned m, uint32_t f, uint32_t c, const SecondBucket &second) {
  Octets to = vo(vci, m, f, c);
  to[1] = 'S';
  return put(to, second.m, 1), put(to, second.f, 4), put(to, second.c, 4), put(to, second.flag, 1), to;
}
Octets vx(unsigned vci) {
  Octets to = marked("VX");
  return put(to, vci, 2), to;
}
Octets po(unsigned vpi, unsigned m, uint32_t f, uint32_t c) {
  Octets to = vo(vpi, m, f, c);
  return to[0] = 'P', to;
}
Octets px(unsigned vpi) {
  Octets to = vx(vpi);
  return to[0] = 'P', to;
}
Octets sl(unsigned count) {
  Octets to = marked("SL");
  return put(to, count, 2), to;
}
// GFC, PTI, CLP, HEC and the payload are random: of them only CLP matters where headers aren't checked.
Octets ca(Random &random, unsigned vpi, unsigned vci, bool nni) {
  Octets to = marked("CA");
  const uint64_t rest = random.next(), first = nni ? vpi : (rest & 15) << 8 | (vpi & 255);
  put(to, first << 20 | uint64_t{vci} << 4 | (rest >> 4 & 15), 4);
  put(to, rest >> 8, 1);
  for (unsigned k = 0; k < 6; ++k) put(to, random.next(), 8);
  return to;
}

namespace {

// Numbers are drawn one after the other, none in the midst of a call beside another: so each compiler makes the same traces.
class Generator {
public:
  Generator(uint64_t seed, uint64_t index)
      : random(Random(seed).next() ^ Random(index * 2 + 1).next()), index(index) {}

  Trace make() {
    struct Kind {
      const char *name;
      void (Generator::*fill)();
    };
    static const Kind kinds[] = {
        {"mixed traffic", &Generator::mixed},   {"full load", &Generator::full_load},
        {"steady sources", &Generator::steady}, {"on and off", &Generator::on_off},
        {"churn", &Generator::churn},           {"rules of 6", &Generator::rules},
        {"setup edges", &Generator::setups},    {"reader", &Generator::reader},
        {"limit", &Generator::limit},           {"latest departure", &Generator::latest},
        {"headers", &Generator::headers},       {"long pauses", &Generator::pauses},
        {"debts", &Generator::debts},           {"late cells", &Generator::late},
        {"header bits", &Generator::bits},      {"raw traffic", &Generator::raw_traffic},
        {"sustained", &Generator::sustained},   {"limits of 11", &Generator::limits},
        {"second debts", &Generator::second_debts},
        {"paths", &Generator::paths},           {"path numbers", &Generator::path_numbers},
        {"paths beside VCs", &Generator::beside},
    };
    const Kind &kind = kinds[index % (sizeof kinds / sizeof kinds[0])];
    trace.kind = kind.name;
    (this->*kind.fill)();
    return trace;
  }

private:
  Random random;
  const uint64_t index;
  Trace trace;
  unsigned n = 1, v = 2;
  bool raw = false, nni = false;
  bool by_path = false; // the connections 1 and 2 of some kinds of trace are paths
  unsigned wrong = 0; // cells in a hundred with a wrong header, in a raw trace
  unsigned of_paths = 0; // cells in a hundred that are of a path, where one was opened
  std::vector<unsigned> in_use, paths_in_use; // VCIs and VPIs

  void add(Octets record) { trace.records.push_back(std::move(record)); }
  unsigned small(unsigned most) { return static_cast<unsigned>(random.below(most)); }

  void begin() {
    n = random.percent(50)   ? 1 + small(12)
        : random.percent(50) ? 1 + small(1024)
                             : random.pick({1u, 2u, 5u, 37u, 75u, 76u, 1023u, 1024u});
    v = random.percent(50)   ? 2 + small(12)
        : random.percent(50) ? 2 + small(1023)
                             : random.pick({2u, 3u, 64u, 1023u, 1024u});
    set_up(4);
  }
  unsigned some_vci() { return random.percent(10) ? random.pick({1u, v - 1}) : 1 + small(v - 1); }

  // Parameters within the rules: peak intervals from one slot up, tolerances up to N-1; some VCs with a second bucket.
  void open_good(unsigned vci, unsigned slowest) {
    open_peak(vci, slowest);
    Octets &record = trace.records.back();
    if (!random.percent(40)) return;
    const unsigned m = record[4];
    const uint32_t f = value(record, 5), c = value(record, 9);
    record = vs(vci, m, f, c, random.percent(90) ? a_second(m, f) : SecondBucket());
  }
  static uint32_t value(const Octets &record, size_t at) {
    return uint32_t{record[at]} << 24 | uint32_t{record[at + 1]} << 16 | uint32_t{record[at + 2]} << 8 | record[at + 3];
  }
  // A second bucket for a VC with this peak: mostly slower by some times and with a tolerance of some cells, so that it
  // is met by a source at its peak.
  SecondBucket a_second(unsigned m, uint64_t f) {
    SecondBucket second;
    second.m = random.percent(50) ? small(4) : small(16);
    const uint64_t leak = uint64_t{1} << second.m;
    uint64_t fill = (f * (1 + random.below(4)) << second.m) >> m;
    fill += random.below(leak + 1);
    if (random.once_in(8)) fill = 1 + random.below(leak + 1);
    fill = std::min<uint64_t>(std::max<uint64_t>(fill, 1), 16777216);
    uint64_t most = fill * (1 + random.below(7));
    most += random.below(fill);
    if (random.once_in(5)) most = fill;
    second.f = static_cast<uint32_t>(fill);
    second.c = static_cast<uint32_t>(std::min<uint64_t>(most, 1073741824));
    second.flag = random.percent(60) ? 1 : 0;
    return second;
  }
  void open_peak(unsigned vci, unsigned slowest) {
    const unsigned m = random.percent(50) ? small(4) : small(16);
    const uint32_t leak = 1u << m;
    uint64_t f = leak;
    if (random.percent(85)) f = leak + random.below(uint64_t{leak} * slowest + 1);
    f = std::min<uint64_t>(f, 16777216);
    const uint64_t delay = random.percent(60) ? n - 1 : random.below(n);
    const uint64_t part = random.percent(40) ? leak - 1 : random.below(leak);
    add(vo(vci, m, static_cast<uint32_t>(f), static_cast<uint32_t>(f + delay * leak + part)));
    in_use.push_back(vci);
  }
  void open_some(unsigned most, unsigned slowest) {
    for (unsigned k = 1 + small(most); k > 0; --k) open_good(some_vci(), slowest);
    if (random.once_in(3)) open_some_paths(3, slowest);
  }
  unsigned some_vpi() {
    const unsigned any = 1 + small(255);
    return random.pick({any, 1u, 2u, 15u, 16u, 128u, 255u});
  }
  void open_some_paths(unsigned most, unsigned slowest) {
    for (unsigned k = 1 + small(most); k > 0; --k) open_path(some_vpi(), slowest);
    of_paths = random.pick({20u, 50u, 90u});
  }
  // As a VC would be opened, with the VPI.
  void open_path(unsigned vpi, unsigned slowest) {
    open_peak(vpi, slowest);
    in_use.pop_back();
    trace.records.back()[0] = 'P';
    paths_in_use.push_back(vpi);
  }
  // The trace's first record: raw once in so many times, then with some wrong headers; otherwise at times of the NNI.
  void set_up(unsigned times) {
    raw = random.once_in(times);
    nni = !raw && random.once_in(2);
    by_path = random.once_in(3);
    wrong = random.pick({0u, 2u, 10u, 40u});
    add(raw ? gr(n, v) : nni ? gn(n, v) : gm(n, v));
  }
  // What a trace does with a connection that is VC 1 or 2, or path 1 or 2.
  Octets opens(unsigned c, unsigned m, uint32_t f, uint32_t cap) const { return by_path ? po(c, m, f, cap) : vo(c, m, f, cap); }
  Octets closes(unsigned c) const { return by_path ? px(c) : vx(c); }
  void arrives(unsigned c) {
    if (!by_path) return arrive(0, c);
    const unsigned vci = vci_within();
    arrive(c, vci);
  }
  // Any VCI of a path's cell: 0, that of a VC, the path's number, the greatest, any.
  unsigned vci_within() {
    const unsigned any = small(65536), vc = small(v);
    return random.pick({0u, vc, v, v + 1, 65535u, any, any});
  }
  // A cell arrives. In a raw trace its octet 5 is right, but for some wrong bits now and then.
  void arrive(unsigned vpi, unsigned vci) {
    Octets record = ca(random, vpi, vci, nni);
    if (raw) put_octet_5(record), spoil(record);
    add(std::move(record));
  }
  static void put_octet_5(Octets &record) {
    record[6] = octet5({record[2], record[3], record[4], record[5], 0});
  }
  static void change_bit(Octets &record, unsigned bit) {
    record[2 + bit / 8] = static_cast<uint8_t>(record[2 + bit / 8] ^ 128 >> bit % 8);
  }
  void spoil(Octets &record) {
    if (!random.percent(wrong)) return;
    const uint64_t kind = random.below(10);
    for (uint64_t bits = kind < 6 ? 1 : kind < 8 ? 2 : kind < 9 ? 3 : random.between(4, 9); bits > 0; --bits)
      change_bit(record, small(40));
  }
  // A cell with CLP 0 or 1.
  void arrive_with(unsigned vci, unsigned clp) {
    Octets record = ca(random, 0, vci, nni);
    record[5] = static_cast<uint8_t>((record[5] & 254u) | clp);
    if (raw) put_octet_5(record), spoil(record);
    add(std::move(record));
  }
  void cell() {
    if (paths_in_use.empty() || !random.percent(of_paths)) return arrive(0, random.pick(in_use));
    path_cell();
  }
  void path_cell() {
    const unsigned vpi = random.pick(paths_in_use), vci = vci_within();
    arrive(vpi, random.once_in(4) ? random.pick(in_use) : vci);
  }
  void quiet(unsigned most) { add(sl(1 + small(most))); }

  void mixed() {
    begin();
    open_some(6, 6);
    const unsigned load = random.pick({10u, 50u, 80u, 95u});
    for (unsigned k = small(500); k > 0; --k) {
      if (random.percent(load)) cell();
      else quiet(3);
      if (random.once_in(40)) odd_event();
    }
    if (random.percent(70)) quiet(2 * n + 5);
  }
  void odd_event() {
    switch (random.below(10)) {
    case 0: add(vx(some_vci())); break;
    case 1: open_good(some_vci(), 6); break;
    case 2: arrive(0, some_vci()); break;
    case 3: odd_header(); break;
    case 4: quiet(200); break;
    case 5: add(vx(random.pick({0u, v, 65535u}))); break;
    case 6: add(px(paths_in_use.empty() ? some_vpi() : random.pick(paths_in_use))); break;
    case 7: open_path(some_vpi(), 6); break;
    case 8: add(px(random.pick({0u, 256u, 257u, 65535u, v}))); break;
    case 9: odd_path(); break;
    }
  }
  void odd_header() {
    const unsigned vci = random.pick({0u, v, 65535u});
    arrive(random.pick({0u, 1u, 255u}), vci);
  }
  // Headers beside those of open paths: another VPI, at the NNI one that ends alike in four bits more, and a VCI that is the
  // number of a path.
  void odd_path() {
    const unsigned vpi = paths_in_use.empty() ? some_vpi() : random.pick(paths_in_use), vci = random.pick(in_use);
    const unsigned more = 256 * (1 + small(15)), above = random.pick({256u, 4095u, 3840u}), which = small(5);
    if (which == 0) arrive(nni ? vpi | more : (vpi ^ 1) & 255, vci);
    if (which == 1) arrive(nni ? more : some_vpi(), vci);
    if (which == 2) arrive(0, v + vpi);
    if (which == 3) arrive(nni ? above : 255, random.once_in(2) ? 0 : vci);
    if (which == 4) arrive(vpi, 0);
  }
  void full_load() {
    begin();
    const unsigned slowest = random.pick({1u, 3u, 20u});
    open_some(random.once_in(2) ? 2 : 40, slowest);
    for (unsigned k = small(1100); k > 0; --k) cell();
    if (random.percent(70)) quiet(2 * n + 5);
  }
  void steady() {
    begin();
    // A source every so many slots, at, above or below its peak rate.
    const unsigned vci = some_vci(), interval = 1 + small(60), m = small(16);
    const uint64_t leak = 1u << m;
    const uint64_t f = std::max<uint64_t>(leak, leak * interval + random.between(0, leak) - leak / 2);
    const unsigned connection = by_path ? (vci - 1) % 255 + 1 : vci;
    add(opens(connection, m, static_cast<uint32_t>(f), static_cast<uint32_t>(f + random.below(n * leak))));
    for (unsigned k = small(400); k > 0; --k) {
      arrives(connection);
      if (interval > 1) add(sl(interval - 1));
    }
  }
  void on_off() {
    begin();
    open_some(5, 8);
    for (unsigned k = small(30); k > 0; --k) {
      const unsigned vci = random.pick(in_use), cells = small(40);
      if (!paths_in_use.empty() && random.once_in(2)) burst_of_path(random.pick(paths_in_use), cells);
      else
        for (unsigned left = cells; left > 0; --left) arrive(0, vci);
      quiet(random.pick({2u, 20u, 300u}));
    }
  }
  void burst_of_path(unsigned vpi, unsigned cells) {
    for (; cells > 0; --cells) arrive(vpi, vci_within());
  }
  void churn() {
    begin();
    open_some(3, 4);
    for (unsigned k = small(400); k > 0; --k) {
      const unsigned vci = random.percent(85) ? random.pick(in_use) : some_vci();
      if (!paths_in_use.empty() && random.once_in(3)) {
        churn_path(random.percent(85) ? random.pick(paths_in_use) : some_vpi());
        continue;
      }
      switch (random.below(8)) {
      case 0: add(vx(vci)); break;
      case 1: open_good(vci, 4); break;
      case 2: quiet(n + 2); break;
      case 3: add(vx(vci)), open_good(vci, 4); break;
      default: arrive(0, vci); break;
      }
    }
  }
  void churn_path(unsigned vpi) {
    switch (random.below(8)) {
    case 0: add(px(vpi)); break;
    case 1: open_path(vpi, 4); break;
    case 2: quiet(n + 2); break;
    case 3: add(px(vpi)), open_path(vpi, 4); break;
    default: arrive(vpi, vci_within()); break;
    }
  }
  // Both sides of every rule of 6, then cells that show what opened.
  void rules() {
    begin();
    for (unsigned k = 1 + small(25); k > 0; --k) {
      const bool path = random.once_in(4);
      const unsigned vci = random.once_in(10) ? random.pick({0u, v, v + 1, 65535u}) : path ? some_vpi() : some_vci();
      unsigned m = small(16);
      const uint32_t leak = 1u << m;
      uint32_t f = random.pick({leak, leak, leak + small(5 * leak), 16777216u});
      uint32_t c = random.pick({f, f + n * leak - 1, f + small(n * leak)});
      switch (random.below(14)) {
      case 0: f = leak - 1, c = random.pick({f, f + 1, f + n * leak - 1}); break;
      case 1: f = 16777217, c = random.pick({f, f + n * leak - 1}); break;
      case 2: c = f - 1; break;
      case 3: c = f + n * leak; break;
      case 4: m = random.pick({16u, 16u, 17u, 31u, 32u, 64u, 255u}); break;
      case 5: m = 15, f = 32768, c = f; break;
      case 6: f = 0, c = random.pick({0u, leak, 4294967295u}); break;
      case 7: c = 4294967295u; break;
      case 8: f = 4294967295u, c = f; break;
      case 9: c = 0; break;
      default: break;
      }
      add(path ? po(vci, m, f, c) : vo(vci, m, f, c));
      if (path) paths_in_use.push_back(vci % 256), of_paths = 40;
      if (!path || in_use.empty()) in_use.push_back(vci);
      for (unsigned cells = small(8); cells > 0; --cells) cell();
      if (random.once_in(4)) add(path ? px(random.pick(paths_in_use)) : vx(random.pick(in_use)));
      if (random.once_in(4)) quiet(n);
    }
    for (unsigned cells = small(60); cells > 0; --cells) cell();
  }
  void setups() {
    n = random.pick({0u, 1u, 2u, 1023u, 1024u, 1025u, 65535u, 256u, 4u << 8});
    v = random.pick({0u, 1u, 2u, 3u, 1023u, 1024u, 1025u, 65535u, 512u});
    set_up(3);
    const bool good = n >= 1 && n <= 1024 && v >= 2 && v <= 1024;
    if (!good) n = std::max(1u, std::min(n, 1024u)), v = std::max(2u, std::min(v, 1024u));
    open_good(random.pick({1u, v - 1}), 3);
    for (unsigned k = small(80); k > 0; --k) cell();
    if (random.once_in(3)) add(sl(0));
  }

  // A short run, spoilt in one of the ways that the reader must refuse.
  void reader() {
    if (!random.once_in(8)) mixed_short();
    const size_t last = trace.records.size();
    switch (random.below(16)) {
    case 0: trace.records.clear(); break;
    case 1: cut(); break;
    case 2: cut(); break;
    case 3: insert(sl(0)); break;
    case 4: insert(gm(random.pick({n, 1u, 0u}), v)); break;
    case 5: insert(unknown_mark()); break;
    case 6:
      if (last > 1) trace.records.erase(trace.records.begin());
      break;
    case 7: trace.records = {{random.pick<uint8_t>({'G', 'M', 'S', 0})}}; break;
    case 8: trace.records.insert(trace.records.begin(), unknown_mark()); break;
    case 9: add({random.pick<uint8_t>({'G', 'V', 'C', 'S', 0, 10})}); break;
    case 10: random_octets(); break;
    case 11: add(gm(n, v)); break;
    case 12: add(gr(n, v)); break;
    case 13: insert(gr(n, v)); break;
    case 14: add(gn(n, v)); break;
    case 15: insert(gn(n, v)); break;
    }
  }
  void mixed_short() {
    begin();
    open_some(3, 3);
    for (unsigned k = small(30); k > 0; --k) {
      if (random.percent(70)) cell();
      else if (random.percent(50)) quiet(4);
      else odd_event();
    }
  }
  void cut() {
    if (trace.records.empty()) return;
    trace.records.resize(1 + random.below(trace.records.size()));
    Octets &record = trace.records.back();
    record.resize(random.percent(50) ? record.size() - 1 : random.below(record.size()));
  }
  void insert(Octets record) {
    const size_t place = random.below(trace.records.size() + 1);
    trace.records.insert(trace.records.begin() + static_cast<std::ptrdiff_t>(place), std::move(record));
  }
  Octets unknown_mark() {
    static const char *const marks[] = {"gm", "MG", "VV", "OV", "CX", "AC", "LS", "SX",
                                        "VA", "GO", "CL", "  ", "ca", "VM", "SO", "VN",
                                        "gr", "RG", "VR", "SR", "GX", "vs", "SV", "GS", "CS", "SS",
                                        "PS", "PA", "PL", "PM", "PN", "OP", "XP", "po", "px", "gn", "NG", "PP", "GP", "SN"};
    Octets record = marked(marks[random.below(sizeof marks / sizeof marks[0])]);
    record.resize(2 + random.below(55), 0);
    return record;
  }
  void random_octets() {
    Octets octets;
    for (unsigned k = small(80); k > 0; --k) octets.push_back(static_cast<uint8_t>(random.next()));
    insert(octets);
  }

  // A trace that ends, or goes on, within some octets of 65,536.
  void limit() {
    begin();
    open_some(3, 4);
    const bool cells = random.percent(70);
    size_t length = trace.octets().size();
    const size_t near = 65536 - 70;
    while (length < near) {
      if (cells && random.percent(97)) cell();
      else if (cells || random.percent(96)) add(sl(random.percent(97) ? 1 : 1 + small(30)));
      else add(vx(some_vci()));
      length += trace.records.back().size();
    }
    // Records of 4 and 13 octets reach every length from 36 on.
    const size_t more = random.pick<size_t>({0, 0, 0, 0, 1, 2, 3, 4, 5});
    const size_t target = 65536 + more - random.pick<size_t>({0, 0, 0, 1, 2, 3, 4, 12});
    while (length + 36 < target) add(sl(1)), length += 4;
    while (length < target && (target - length) % 4 != 0) open_peak(some_vci(), 4), length += 13;
    while (length < target) add(sl(1 + small(3))), length += 4;
    switch (random.below(6)) {
    case 0: cell(); break;
    case 1: add({random.pick<uint8_t>({'C', 0, 'x'})}); break;
    case 2: add(sl(1)), add(sl(2)); break;
    case 3: add(vx(1)); break;
    default: break;
    }
  }

  // The construction that makes a cell leave exactly N-1 slots after its due slot.
  void latest() {
    n = 2 + small(random.once_in(4) ? 28 : 9), v = 3 + small(60);
    set_up(4);
    unsigned m = 0;
    while (1u << m < n - 1) ++m;
    const uint32_t leak = 1u << m;
    add(opens(1, m, leak, leak + small(2)));
    add(opens(2, m, leak + 1, leak + 1 + n * leak - 1));
    const unsigned change = random.once_in(3) ? small(4) : 0;
    for (unsigned k = n * leak - std::min(change, n * leak); k > 0 && trace.records.size() < 1100; --k) arrives(2);
    for (unsigned k = n - 1; k > 0; --k) arrives(random.once_in(40) ? 2 : 1);
    quiet(3 * n);
  }
  // A VC that sends, stops, and is closed and reopened: at once, a slot before its
  // debt is paid, in the slot in which it is, and around it; then it sends again.
  void debts() {
    n = 1 + small(random.once_in(3) ? 60 : 8), v = 3 + small(10);
    set_up(4);
    uint64_t now = 0, next_due = 0;
    const bool crowd = random.once_in(3);
    if (crowd) add(opens(2, 0, 1, 1));
    for (unsigned openings = 1 + small(6); openings > 0; --openings) {
      const unsigned m = random.percent(60) ? small(4) : small(16);
      const uint64_t leak = uint64_t{1} << m;
      const uint64_t f = leak + random.below(leak * random.pick({1u, 3u, 30u}) + 1);
      const uint64_t spare = random.percent(60) ? n * leak - 1 : random.below(n * leak);
      add(opens(1, m, static_cast<uint32_t>(f), static_cast<uint32_t>(f + spare)));
      next_due = 0;
      for (unsigned cells = small(9); cells > 0; --cells) {
        const uint64_t due = std::max(now * leak, next_due);
        if (due - now * leak <= spare) next_due = due + f;
        arrives(1), now += 1;
        if (random.once_in(6)) add(sl(1)), now += 1;
        if (random.once_in(6)) add(closes(1));
      }
      add(closes(1));
      if (random.once_in(3)) add(opens(1, m, static_cast<uint32_t>(f), static_cast<uint32_t>(f)));
      now = wait_out(now, (next_due + leak - 1) / leak, crowd);
    }
  }
  // Up to slot `paid`, where no debt is left, with closes on both sides of it.
  uint64_t wait_out(uint64_t now, uint64_t paid, bool crowd) {
    const uint64_t before = paid - std::min<uint64_t>(paid, small(4));
    while (now < before) {
      const uint64_t slots = crowd ? 1 : std::min<uint64_t>(before - now, 1 + random.below(9000));
      if (crowd && random.percent(70)) arrives(2);
      else add(sl(static_cast<unsigned>(slots)));
      now += slots;
      if (crowd || random.once_in(4)) add(closes(1));
    }
    // Slot `now` comes next: closes from slot paid-1 to paid+1, mostly in each.
    while (now <= paid + (random.once_in(3) ? 1 : 0)) {
      if (random.percent(80)) add(closes(1));
      add(sl(1)), now += 1;
    }
    add(closes(1));
    return now;
  }
  // Cells that leave so late that their VC has no debt any more, with closes all the while.
  void late() {
    n = 4 + small(9), v = 3 + small(20);
    set_up(4);
    unsigned m = 0;
    while (1u << m < n - 1) ++m;
    const uint32_t leak = 1u << m;
    add(opens(1, m, leak, leak + small(2)));
    add(opens(2, m, leak + 1, leak + 1 + n * leak - 1));
    for (unsigned k = n * leak - small(4); k > 0; --k) arrives(2);
    for (unsigned k = n - 1; k > 0; --k) arrives(1);
    for (unsigned k = 2 * n; k > 0; --k) {
      for (unsigned c = 1; c <= 2; ++c)
        if (random.percent(70)) add(closes(c));
      if (random.once_in(8)) add(opens(1 + small(2), m, leak, leak));
      if (random.once_in(5)) arrives(1 + small(2));
      else add(sl(1));
    }
    add(closes(1)), add(closes(2));
  }
  // Sources of variable rate: bursts of mostly CLP 0 cells at some interval, then a pause.
  void sustained() {
    begin();
    for (unsigned k = 1 + small(4); k > 0; --k) {
      const unsigned vci = some_vci(), m = small(8);
      const uint64_t leak = uint64_t{1} << m, f = leak + random.below(2 * leak + 1), tolerance = random.below(n * leak);
      const SecondBucket second = a_second(m, f);
      add(vs(vci, m, static_cast<uint32_t>(f), static_cast<uint32_t>(f + tolerance), second));
      in_use.push_back(vci);
    }
    for (unsigned k = small(40); k > 0; --k) {
      const unsigned vci = random.pick(in_use), interval = random.pick({1u, 1u, 2u, 3u, 5u}), clp_1 = random.pick({0u, 0u, 10u, 50u});
      for (unsigned cells = small(30); cells > 0; --cells) {
        arrive_with(vci, random.percent(clp_1) ? 1 : 0);
        if (interval > 1) add(sl(interval - 1));
      }
      if (random.once_in(2)) quiet(random.pick({2u, 20u, 300u}));
      if (random.once_in(10)) odd_event();
    }
    if (random.percent(70)) quiet(2 * n + 5);
  }
  // Both sides of every limit of 11, alone and with 6 broken too, then cells that show what opened.
  void limits() {
    begin();
    for (unsigned k = 1 + small(25); k > 0; --k) {
      const unsigned vci = random.once_in(12) ? random.pick({0u, v, v + 1, 65535u}) : some_vci(), m = small(16);
      const uint32_t leak = 1u << m, f = leak + small(2 * leak), good = f + small(n * leak);
      const unsigned asked_m = random.once_in(10) ? 16 : m;
      const uint32_t c = random.once_in(10) ? f + n * leak : good;
      SecondBucket second = a_second(m, f);
      switch (random.below(16)) {
      case 0: second.m = random.pick({16u, 16u, 17u, 31u, 32u, 64u, 255u}); break;
      case 1: second.f = 0; break;
      case 2: second.f = 16777217, second.c = random.pick({16777217u, 16777218u, 1073741824u}); break;
      case 3: second.c = second.f - 1; break;
      case 4: second.c = random.pick({1073741825u, 2147483648u, 4294967295u}); break;
      case 5: second.flag = random.pick({2u, 3u, 128u, 255u}); break;
      case 6: second = {1 + small(16), 0, 0, 0}; break;
      case 7: second = {0, 0, 0, random.pick({1u, 1u, 2u})}; break;
      case 8: second = {}; break;
      case 9: second.f = 16777216, second.c = random.pick({16777216u, 16777215u, 1073741824u}); break;
      case 10: second.f = random.pick({1u, 1u, 2u}), second.c = random.pick({second.f, 1073741824u}); break;
      case 11: second.m = 15; break;
      case 12: second = {0, 0, random.pick({1u, 1073741824u}), 1}; break;
      default: break;
      }
      add(vs(vci, asked_m, f, c, second));
      in_use.push_back(vci);
      for (unsigned cells = small(8); cells > 0; --cells) {
        const unsigned clp = random.once_in(4) ? 1 : 0;
        arrive_with(random.pick(in_use), clp);
      }
      if (random.once_in(4)) add(vx(random.pick(in_use)));
      if (random.once_in(4)) quiet(n);
    }
    for (unsigned cells = small(60); cells > 0; --cells) arrive_with(random.pick(in_use), 0);
  }
  // A fast peak beside a slow second bucket: the peak's debt is soon paid, the second one's isn't. The VC is closed and
  // reopened, and what was above its sustainable rate is within it again.
  void second_debts() {
    n = 1 + small(20), v = 3 + small(10);
    set_up(4);
    for (unsigned openings = 1 + small(8); openings > 0; --openings) {
      const unsigned m = small(4), m2 = small(16);
      const uint32_t leak = 1u << m;
      const uint64_t fill = std::min<uint64_t>(uint64_t{10 + small(500)} << m2, 16777216), spare = small(50);
      const uint64_t most = fill * (1 + small(4)) + spare;
      const SecondBucket second = {m2, static_cast<uint32_t>(fill), static_cast<uint32_t>(most), random.percent(60) ? 1u : 0u};
      add(vs(1, m, leak, leak + small(n * leak), second));
      for (unsigned cells = 1 + small(12); cells > 0; --cells) {
        arrive_with(1, random.once_in(6) ? 1 : 0);
        if (random.once_in(3)) quiet(3);
      }
      for (unsigned closes = small(3); closes > 0; --closes) add(vx(1)), add(sl(1));
      quiet(2 * n + 4);
      add(vx(1));
      if (random.once_in(4)) quiet(600);
    }
  }
  // A raw trace with each of the forty bits wrong alone, then two, three or more, in both modes; idle
  // and unassigned cells, clean and spoilt, lead back, are mended or are dropped like others.
  void bits() {
    begin();
    raw = true, nni = false, wrong = 0;
    trace.records = {gr(n, v)};
    open_some(4, 2);
    const unsigned first = small(40);
    for (unsigned k = 0; k < 40; ++k) {
      wrong_bits(1, (first + k) % 40);
      if (random.percent(30)) {
        const unsigned from = small(40);
        wrong_bits(1 + small(4), from);
      }
      if (random.once_in(4)) quiet(3);
      if (random.once_in(4)) wrong_bits(1, small(40));
      for (unsigned clean = random.pick({0u, 1u, 1u, 1u, 2u}); clean > 0; --clean) wrong_bits(0, 0);
    }
    quiet(2 * n + 2);
  }
  // A cell of a VC in use, or an idle or unassigned one, with so many wrong bits from `bit` on.
  void wrong_bits(unsigned bits, unsigned bit) {
    Octets record = ca(random, 0, random.pick(in_use));
    if (random.once_in(5)) record[2] = record[3] = record[4] = 0, record[5] = random.pick<uint8_t>({0, 1});
    put_octet_5(record);
    for (unsigned k = 0; k < bits; ++k) change_bit(record, bit), bit = (bit + 1 + small(30)) % 40;
    add(std::move(record));
  }
  void raw_traffic() {
    begin();
    raw = true, nni = false;
    trace.records = {gr(n, v)};
    open_some(6, 6);
    for (unsigned k = small(500); k > 0; --k) {
      if (random.percent(85)) cell();
      else quiet(3);
      if (random.once_in(40)) odd_event();
      if (random.once_in(60)) wrong = random.pick({0u, 2u, 10u, 40u, 100u});
    }
    if (random.percent(70)) quiet(2 * n + 5);
  }
  // Paths of both line kinds with cells of many VCIs, closed and opened again, and what lies beside them.
  void paths() {
    begin();
    open_some(3, 4);
    open_some_paths(6, 6);
    const unsigned load = random.pick({50u, 80u, 100u});
    for (unsigned k = small(500); k > 0; --k) {
      if (!random.percent(load)) quiet(3);
      else if (random.percent(70)) path_cell();
      else cell();
      if (random.once_in(12)) odd_path();
      if (random.once_in(25)) churn_path(random.pick(paths_in_use));
      if (random.once_in(60)) odd_event();
    }
    if (random.percent(70)) quiet(2 * n + 5);
  }
  // Both sides of every edge of a path's number, in opens, closes and cells, at the least and the greatest V.
  void path_numbers() {
    begin();
    if (random.once_in(3)) v = random.pick({2u, 3u, 1023u, 1024u}), trace.records.clear(), set_up(4);
    open_some(2, 3);
    for (unsigned k = 1 + small(40); k > 0; --k) {
      const unsigned any = small(65536), vpi = random.pick({0u, 1u, 1u, 2u, 254u, 255u, 255u, 256u, 256u, 257u, 511u, 4095u, 65535u, v, any});
      switch (random.below(4)) {
      case 0: add(px(vpi)); break;
      case 1:
      case 2: open_path(vpi, 3); break;
      default: add(vx(random.pick({v, v + 1, v + 255, vpi}))); break;
      }
      if (vpi > 255 && !paths_in_use.empty() && paths_in_use.back() == vpi) paths_in_use.pop_back();
      for (unsigned cells = small(4); cells > 0; --cells) {
        const unsigned from = random.pick({0u, 1u, 254u, 255u, 256u, 257u, 511u, 4095u}), vci = vci_within();
        arrive(nni ? from : from & 255, vci);
      }
    }
    quiet(n + 5);
  }
  // A path and VCs whose cells look alike but for their VPI: each has its own bucket, at its peak or above.
  void beside() {
    begin();
    const unsigned vpi = some_vpi(), vci = some_vci(), other = vpi == 255 ? 254 : vpi + 1;
    open_peak(vci, 3), open_path(vpi, 3);
    if (random.once_in(2)) open_path(other, 3);
    for (unsigned k = small(200); k > 0; --k) {
      const unsigned which = small(4);
      if (which == 0) arrive(0, vci);
      if (which == 1) arrive(vpi, vci);
      if (which == 2) arrive(other, vci);
      if (which == 3) arrive(nni ? vpi + 256 * (1 + small(15)) : vpi, vci);
      if (random.once_in(3)) quiet(4);
      if (random.once_in(30)) add(random.once_in(2) ? vx(vci) : px(vpi));
      if (random.once_in(30)) open_path(vpi, 3);
    }
    quiet(2 * n + 5);
  }
  // Any VPI and VCI, idle and unassigned cells among them.
  void headers() {
    begin();
    open_some(8, 2);
    for (unsigned k = small(300); k > 0; --k) {
      const unsigned above = nni && random.percent(20) ? 256 * (1 + small(15)) : 0;
      const unsigned vpi = above + (random.percent(70) ? 0 : random.pick({1u, 2u, 4u, 8u, 15u, 16u, 32u, 64u, 128u, 240u, 255u}));
      const unsigned vci = random.pick({0u, 1u, v - 1, v, v + 1, 65535u, 4096u, 256u, random.pick(in_use),
                                        random.pick(in_use), random.pick(in_use) | 4096u, small(65536)});
      arrive(vpi, vci);
    }
  }
  // Pauses up to the longest, and buckets that take long to fall.
  void pauses() {
    begin();
    open_some(3, 60);
    const unsigned vci = some_vci();
    const uint32_t f = 60000 + small(80000);
    add(vo(vci, 0, f, f + small(n)));
    in_use.push_back(vci);
    const bool long_run = random.once_in(12);
    for (unsigned k = long_run ? 6 : 1 + small(6); k > 0; --k) {
      for (unsigned cells = small(6); cells > 0; --cells) cell();
      add(sl(long_run ? 65535 : random.pick({1u, 255u, 256u, 257u, 1u + small(2000)})));
    }
    if (random.once_in(6))
      add(sl(f > 65535 ? f - 65535 : 1)), add(sl(random.pick({65533u, 65534u, 65535u}))), cell(), cell();
  }
};

} // namespace

Trace generate(uint64_t seed, uint64_t index) { return Generator(seed, index).make(); }

} // namespace second
