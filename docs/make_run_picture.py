#!/usr/bin/env python3
"""The numbers of PLANNERS.md: the picture of the eight slots, the delays at usual line rates, m, F and C of some peaks, and the
worked example; of the burst behind the policer a picture, two tables and a worked example; of a second bucket a worked example
and a picture.

Computed from due times and queues alone, by the few lines below, not by the library.
  python3 docs/make_run_picture.py           print the blocks
  python3 docs/make_run_picture.py --check   exit 1 unless PLANNERS.md holds them word for word
"""
import math
import pathlib
import sys

# cells a second: SONET and SDH carry 53-octet cells in their payload; DS-3 by PLCP and E3 by G.832 carry them by frames
LINES = [("E3", 80_000), ("DS-3", 96_000)] + [
    (name, rate * 1_000 / 424)
    for name, rate in [("OC-3c, STM-1", 149_760), ("OC-12c, STM-4c", 599_040), ("OC-48c", 2_396_160), ("OC-192c", 9_584_640)]
]


def run(spaces, vcs, arrivals):
    """Cells as (VCI, arrival, verdict, due slot, slot in which it leaves), by the exact leak rule and the two queues."""
    last_due, calendar, output, cells = {}, {}, [], []
    slot = 0
    while slot < len(arrivals) or output or any(due >= slot for due in calendar):
        vci = arrivals[slot] if slot < len(arrivals) else 0
        if vci:
            m, f, c = vcs[vci]
            parts = 2**m
            behind = last_due[vci] + f - slot * parts if vci in last_due else 0
            if behind > c - f:
                cells.append([vci, slot, "X", None, None])
            else:
                last_due[vci] = slot * parts + max(behind, 0)
                cells.append([vci, slot, "A", last_due[vci] // parts, None])
                calendar.setdefault(cells[-1][3], []).insert(0, cells[-1])
        output += calendar.pop(slot, [])
        if output:
            output.pop(0)[4] = slot
        slot += 1
    late = [leaves - due for _, _, verdict, due, leaves in cells if verdict == "A"]
    assert all(0 <= k <= spaces - 1 for k in late), "a cell left before its due slot, or more than N-1 slots after it"
    return cells, slot


def drawn(cells, slots, wide=5, first=0, only=None):
    """One line a slot number, one a cell: a arrives, - waits for its due slot d, = waits for the line, * leaves."""
    lines = ["slot           " + "".join(f"{t:<{wide}}" for t in range(first, slots))]
    for vci, arrives, verdict, due, leaves in cells:
        if only not in (None, vci):
            continue
        row = [" "] * (wide * slots)
        if verdict == "X":
            row[wide * arrives] = "x"
            note = "excess"
        else:
            row[wide * arrives : wide * due] = ["-"] * (wide * (due - arrives))
            row[wide * due : wide * leaves] = ["="] * (wide * (leaves - due))
            row[wide * arrives], row[wide * due], row[wide * leaves] = "a", "d", "*"
            note = f"D {due - arrives}, late {leaves - due}"
        lines.append(f"{f'cell of VC {vci}':<15}" + "".join(row[wide * first :]) + note)
    sent = {leaves: vci for vci, _, _, _, leaves in cells if leaves is not None}
    lines.append("leaves         " + "".join(f"{sent.get(t, '.')!s:<{wide}}" for t in range(first, slots)))
    return "\n".join(line.rstrip() for line in lines)


def picture():
    cells, slots = run(5, {40: (2, 10, 26), 41: (2, 4, 4)}, [40, 40, 40, 40, 40, 41, 0, 0])
    return drawn(cells, slots)


def at_most(micros):
    """Four digits, rounded up: what is quoted as a bound must not lie below it."""
    step = 10.0 ** (math.floor(math.log10(micros)) - 3)
    return f"{math.ceil(micros / step - 1e-9) * step:.4g}"


def delays(spaces):
    """For N = 76: N-1 is 75 and 2 × (N-1) is 150."""
    rows = ["| line | one slot | 75 slots | 150 slots |", "|---|---|---|---|"]
    for name, cells in LINES:
        micros = 1e6 / cells
        bounds = [at_most(micros * k) for k in (1, spaces - 1, 2 * (spaces - 1))]
        rows.append(f"| {name} | " + " | ".join(f"{bound} µs" for bound in bounds) + " |")
    return "\n".join(rows)


def example():
    """A peak of 8 Mb/s on 149.76 Mb/s, tolerance 60 microseconds, with m 4."""
    parts, micros = 2**4, 424 / 149.76
    f = math.floor(parts * 149.76 / 8)
    c = f + math.ceil(parts * 60 / micros)
    most = (c - f) // parts
    return "\n".join(
        [
            f"L = 16, F = {f}, C = {c}",
            f"rate let through: one cell in {f / parts:.4f} slots, {149.76 * parts / f:.3f} Mb/s",
            f"largest D: floor(({c} - {f}) / 16) = {most} slots, so N = {most + 1} for this VC alone",
            f"due slot at most {most} slots, {at_most(most * micros)} µs, after arrival",
            f"on the line at most {2 * most} slots, {at_most(2 * most * micros)} µs, after arrival, where N = {most + 1}",
            f"on the line at most {most + 75} slots, {at_most((most + 75) * micros)} µs, after arrival, where N = 76",
        ]
    )


def chosen():
    """m, F and C by the rule, for some peaks in kb/s and tolerances in microseconds on OC-3c: the largest m whose F is allowed."""
    rows = ["| peak | tolerance | one cell in | m | F | C | largest D | N for it alone |", "|---|---|---|---|---|---|---|---|"]
    line = 149_760
    for peak, micros in ((149_760, 0), (50_000, 20), (8_000, 60), (2_048, 250), (384, 500), (64, 1_000)):
        m = max(m for m in range(16) if 2**m * line // peak <= 16_777_216)
        f = 2**m * line // peak
        c = f + (2**m * micros * line + 423_999) // 424_000
        most = (c - f) >> m
        name = f"{peak / 1000:g} Mb/s" if peak >= 1_000 else f"{peak} kb/s"
        rows.append(f"| {name} | {micros:,} µs | {line / peak:.6g} slots | {m} | {f:,} | {c:,} | {most} | {most + 1} |")
    return "\n".join(rows)


def burst(spaces, f, parts, w):
    """The most cells of one connection that leave in w slots."""
    return min(w, 1 + ((w + spaces - 1) * parts - 1) // f)


def burst_picture():
    """N 5: VCs 2 to 6 have a cell each due in slot 9; VC 1, with one cell in 2.5 slots, sends from slot 10 on."""
    spaces, f, parts = 5, 10, 4
    vcs = {1: (2, f, 13), 2: (0, 9, 13), 3: (0, 8, 11), 4: (0, 7, 9), 5: (0, 6, 7), 6: (0, 1, 1)}
    arrivals = [2, 3, 4, 5, 0, 2, 3, 4, 5, 6] + [0] * 13
    for j in range(6):
        arrivals[10 + j * f // parts] = 1
    cells, slots = run(spaces, vcs, arrivals)
    left = [cell[4] for cell in cells if cell[0] == 1]
    for w in (1, 2, 3, 4, 10):
        assert sum(14 <= slot < 14 + w for slot in left) == burst(spaces, f, parts, w), "the run does not meet the bound"
    return drawn(cells, slots, wide=4, first=9, only=1)


def burst_table():
    """By N and by F/L: 2.5, 18.6875 (the worked example), 100."""
    rates = [(10, 4), (299, 16), (100, 1)]
    columns = [(spaces, f, parts) for spaces in (22, 76) for f, parts in rates]
    rows = ["| w, slots | " + " | ".join(f"N {n}, one in {f / parts:g}" for n, f, parts in columns) + " |"]
    rows.append("|---" * (len(columns) + 1) + "|")
    for w in (1, 5, 10, 50, 100, 1_000, 10_000):
        rows.append(f"| {w:,} | " + " | ".join(f"{burst(*column, w):,}" for column in columns) + " |")
    return "\n".join(rows)


def buffer(spaces, connections, period):
    """The most cells that stand in a queue which one cell leaves in `period` slots: over all w, what came in w slots less
    what had left by then. Beyond 100,000 slots it only falls, since the connections' rates are below the queue's."""
    return max(min(w, sum(burst(spaces, f, parts, w) for f, parts in connections)) - w // period for w in range(1, 100_000))


def buffer_table():
    rows = ["| connections of one cell in 18.6875 slots | N 22 | N 76 |", "|---|---|---|"]
    for many in (1, 2, 4):
        rows.append(f"| {many} | " + " | ".join(f"{buffer(n, [(299, 16)] * many, 4)} cells" for n in (22, 76)) + " |")
    return "\n".join(rows)


def burst_example():
    """The VC of the worked example, at N 76."""
    spaces, f, parts = 76, 299, 16
    close = max(w for w in range(1, 1_000) if burst(spaces, f, parts, w) == w)
    second = math.ceil(149_760_000 / 424)
    return "\n".join(
        [
            f"L = {parts}, F = {f}, N = {spaces}: 1 + floor(((w + 75) × 16 - 1) / 299), and never more than w",
            f"back to back: {close} cells in {close} slots, and {burst(spaces, f, parts, close + 1)} in {close + 1}",
            f"in 100 slots: 1 + floor(2799 / 299) = {burst(spaces, f, parts, 100)}; its rate alone would be {math.ceil(100 * parts / f)}",
            f"in a second ({second:,} slots): {burst(spaces, f, parts, second):,}; its rate alone would be {math.ceil(second * parts / f):,}",
        ]
    )


def sustained_bucket():
    """Source document 003's example: a sustainable rate of 35 % of the line, bursts of 3 cells, a peak of the line's rate, no
    delay variation. The tolerance is (3 - 1) × (the sustainable interval less the peak's), as for each burst of 3. With m 7."""
    parts, interval = 2**7, 100 / 35
    f = math.floor(parts * interval)
    return f, f + math.ceil(parts * (3 - 1) * (interval - 1)), parts


def letters(slots):
    """A where a CLP 0 cell in one of these slots is within the sustainable rate, T where it is tagged."""
    f, c, parts = sustained_bucket()
    due, said = None, []
    for slot in slots:
        behind = 0 if due is None else max(due + f - slot * parts, 0)
        said.append("T" if behind > c - f else "A")
        if said[-1] == "A":
            due = slot * parts + behind
    return said


def untagged(w):
    """The most CLP 0 cells that pass untagged in w slots."""
    f, c, parts = sustained_bucket()
    return 1 + ((w - 1) * parts + c - f) // f


def sustained_example():
    f, c, parts = sustained_bucket()
    bursts = {gap: letters([k * (3 + gap) + j for k in range(1_000) for j in range(3)]) for gap in (6, 5)}
    assert "T" not in bursts[6]
    steady = letters(range(100_000))
    for w in (1, 3, 4, 10, 100, 1_000):
        most = max(steady[x : x + w].count("A") for x in range(5_000))
        assert most == min(w, untagged(w)), "the run at the line's rate does not meet the bound"
    second = math.ceil(149_760_000 / 424)
    return "\n".join(
        [
            f"L = {parts}, F = {f}, C = {c}",
            f"sustainable rate: one CLP 0 cell in {f / parts:.4f} slots, {100 * parts / f:.2f} % of the line",
            f"bursts of 3 cells at the line's rate, 6 slots between two: none of 3,000 cells tagged",
            f"the same with 5 slots between: {bursts[5].count('T'):,} of 3,000 cells tagged",
            f"untagged in 3 slots: 1 + floor((2 × 128 + 476) / 365) = {untagged(3)}; in 4 slots {untagged(4)}; in 100 slots {untagged(100)}",
            f"untagged in a second ({second:,} slots): {untagged(second):,}; the rate alone would be {math.ceil(second * parts / f):,}",
        ]
    )


def sustained_picture():
    slots = 16
    rows = ["slot                  " + "".join(f"{t:<4}" for t in range(slots))]
    for name, gap in (("at the line's rate", 0), ("3 cells, then 5 slots", 5), ("3 cells, then 6 slots", 6)):
        sends = [t for t in range(slots) if t % (3 + gap) < 3]
        said = dict(zip(sends, letters(sends)))
        rows.append(f"{name:<22}" + "".join(f"{said.get(t, '.'):<4}" for t in range(slots)))
    return "\n".join(row.rstrip() for row in rows)


def main():
    blocks = [f"```\n{picture()}\n```", delays(76), chosen(), f"```\n{example()}\n```"]
    blocks += [f"```\n{burst_picture()}\n```", burst_table(), f"```\n{burst_example()}\n```", buffer_table()]
    blocks += [f"```\n{sustained_example()}\n```", f"```\n{sustained_picture()}\n```"]
    if "--check" not in sys.argv[1:]:
        print("\n\n".join(blocks))
        return 0
    page = pathlib.Path(__file__).with_name("PLANNERS.md").read_text(encoding="utf-8")
    missing = [block for block in blocks if block not in page]
    for block in missing:
        print(f"PLANNERS.md does not hold:\n{block}\n")
    return 1 if missing else 0


if __name__ == "__main__":
    sys.exit(main())
