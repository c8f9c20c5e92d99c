#!/usr/bin/env python3
"""The delay summary of docs/SUMMARY.md: its table and its picture, docs/summary.svg.

The traffic is that of source 000's Figure 4 (check/figures/figure4.cpp): each slot brings a cell with probability 0.8, of one of
ten VCs drawn with equal chances. It is written as traces, each of which goes through the archive (check/figures/summary.c: slot by
slot and in bursts, with one tally over all of them) and through spacer. From spacer's listings the delays are counted again, the k-th
cell of the VC that was let in being the k-th of it to leave: each bin and each percentile must be the same.

  python3 docs/make_summary.py             makes the picture anew, and prints the blocks of the page
  python3 docs/make_summary.py --check     exit 1 unless page and picture are what comes out

It needs gcc, target/staticlib/libclurimoon.a and target/bin/spacer (check/build); CLURIMOON_ARCHIVE, CLURIMOON_LIBS and
CLURIMOON_SPACER name others.
"""
import os
import pathlib
import struct
import subprocess
import sys

sys.dont_write_bytecode = True
HERE = pathlib.Path(__file__).resolve().parent
sys.path[:0] = [str(HERE), str(HERE.parent / "bench")]
from draw_listing import cells_of
from measure import ARCHIVE, LIBS, LINK, LOAD, ROOT, RUN, STRICT, tool

N, V, VCS, NAMED = 76, 64, 10, 1
RUNS, SLOTS, SEED = 40, 1_400, 1992
PARTS = 2**15
FILL = round(PARTS * VCS / (0.8 * 1.25))  # 1.25 times its source's rate
DEEP = FILL + PARTS * N - 1  # the greatest that rule 6 allows
OUT = pathlib.Path(ROOT) / "target" / "summary"
INK, BAR, LAST, FAINT = "#222222", "#4477aa", "#ee6677", "#dddddd"


class Random:
    """SplitMix64, as check/random.hpp has it."""

    def __init__(self, seed):
        self.state = seed

    def below(self, bound):
        wide = 2**64 - 1
        self.state = self.state + 0x9E3779B97F4A7C15 & wide
        z = (self.state ^ self.state >> 30) * 0xBF58476D1CE4E5B9 & wide
        z = (z ^ z >> 27) * 0x94D049BB133111EB & wide
        return (z ^ z >> 31) % bound


def trace_of(seed):
    """A run: GM, ten VO, the slots of traffic, and empty ones until every cell has left."""
    random = Random(seed + VCS)
    records = [b"GM" + struct.pack(">HH", N, V)]
    records += [b"VO" + struct.pack(">HBII", vci, 15, FILL, DEEP) for vci in range(1, VCS + 1)]
    pause = 0
    for _ in range(SLOTS):
        drawn = random.below(5 * VCS)
        if drawn >= 4 * VCS:
            pause += 1
            continue
        vci = 1 + drawn % VCS
        if pause:
            records.append(b"SL" + struct.pack(">H", pause))
        records.append(b"CA" + bytes([0, vci >> 12, vci >> 4 & 255, (vci & 15) << 4]) + bytes(49))
        pause = 0
    records.append(b"SL" + struct.pack(">H", pause + 2 * N))
    trace = b"".join(records)
    assert len(trace) <= 65_536, "the program reads no more"
    return trace


def made():
    """What the archive says: the bins, and the bin of each share. And what the listings say: the delays, and cells that were excess."""
    OUT.mkdir(parents=True, exist_ok=True)
    archive = os.path.abspath(ARCHIVE) if "CLURIMOON_ARCHIVE" in os.environ else os.path.join(ROOT, ARCHIVE)
    spacer = os.path.abspath(os.environ.get("CLURIMOON_SPACER", os.path.join(ROOT, "target/bin/spacer")))
    os.chdir(ROOT)
    subprocess.run([tool("gcc"), *STRICT, "-O2", *LINK, "check/figures/summary.c", archive, *LIBS, "-o", str(OUT / "summary")], check=True)
    traces, delays, excess = [], [], 0
    for run in range(RUNS):
        traces.append(OUT / f"{run:02}.trace")
        traces[-1].write_bytes(trace_of(SEED + run))
        command = [spacer] if open(spacer, "rb").read(20)[18:20] != b"\x3e\x00" else [*RUN, *LOAD, spacer]
        listing = subprocess.run(command, stdin=open(traces[-1], "rb"), stdout=subprocess.PIPE, check=True, text=True).stdout
        for connection, arrives, verdict, _, leaves in cells_of(listing.splitlines())[0]:
            if connection != str(NAMED):
                continue
            excess += verdict == "X"
            if verdict in "AT":
                delays.append(leaves - arrives)
    said = subprocess.run([*RUN, str(OUT / "summary"), str(NAMED), *map(str, traces)], stdout=subprocess.PIPE, check=True, text=True).stdout
    first, *shares = [line.split() for line in said.splitlines()]
    return int(first[1]), [int(bin) for bin in first[2:]], {int(line[1]): int(line[2]) for line in shares}, delays, excess


def recounted(cells, bins, shares, delays):
    """The listings give the same bins, and the same percentiles by sorting."""
    counted = [0] * 64
    for delay in delays:
        counted[min(delay, 63)] += 1
    assert counted == bins and len(delays) == cells == sum(bins), "the listings give other bins than the archive"
    ordered = sorted(min(delay, 63) for delay in delays)
    for share, bin in shares.items():
        assert ordered[(share * cells + 999) // 1000 - 1] == bin, "the listings give another percentile than the archive"


def slots(bin):
    return "63 or more" if bin == 63 else str(bin)


def table(cells, bins, shares, delays, excess):
    rows = ["| share | delay, slots |", "|---|---|"]
    names = {1: "the shortest", 500: "the median", 999: "all but one in a thousand", 1000: "the longest"}
    for share, bin in shares.items():
        rows.append(f"| {share:,}{', ' + names[share] if share in names else ''} | {slots(bin)} |")
    return "\n".join(rows)


def figures(cells, bins, shares, delays, excess):
    return "\n".join([
        f"{RUNS} runs, {RUNS * SLOTS:,} slots of traffic: {cells:,} cells of VC {NAMED} sent, {excess} excess",
        f"bin 0: {bins[0]:,} cells left in the slot of their arrival; bin 63: {bins[63]:,} waited 63 slots or longer, the longest {max(delays)}",
        f"recounted from {RUNS} listings of spacer: {len(delays):,} delays, every bin and every percentile the same",
    ])


def picture(cells, bins, shares, delays, excess):
    """A bar a bin, a line for each 100 cells; bin 63 in another colour, since it has no end."""
    wide, high, left, bottom, step = 760, 340, 60, 280, 10
    top = -(-max(bins) // 100) * 100
    at, up = (lambda bin: left + 6 + step * bin), (lambda count: bottom - 220 * count / top)
    out = [f'<svg xmlns="http://www.w3.org/2000/svg" width="{wide}" height="{high}" viewBox="0 0 {wide} {high}" font-family="sans-serif" font-size="11">',
           f'<rect width="{wide}" height="{high}" fill="white"/>']
    text = lambda x, y, what, anchor="middle": out.append(f'<text x="{x}" y="{y:g}" fill="{INK}" text-anchor="{anchor}">{what}</text>')
    text(left, 20, f"VC {NAMED}: {cells:,} cells by the slots that they waited", "start")
    for count in range(0, top + 1, 100):
        out.append(f'<line x1="{left}" y1="{up(count):g}" x2="{at(64)}" y2="{up(count):g}" stroke="{FAINT}"/>')
        text(left - 6, up(count) + 4, count, "end")
    for bin, count in enumerate(bins):
        colour = LAST if bin == 63 else BAR
        out.append(f'<rect x="{at(bin)}" y="{up(count):.1f}" width="{step - 2}" height="{bottom - up(count):.1f}" fill="{colour}"/>')
        if bin % 5 == 0 and bin < 60 or bin == 63:
            text(at(bin) + step // 2 - 1, bottom + 14, "63+" if bin == 63 else bin)
    text((left + at(64)) // 2, bottom + 32, "slots from arrival to departure")
    for share, name in ((500, "half"), (900, "900 of 1,000"), (990, "990")):
        x = at(shares[share]) + step - 1
        out.append(f'<line x1="{x}" y1="38" x2="{x}" y2="{bottom}" stroke="{INK}" stroke-dasharray="3 3"/>')
        text(x - 4, 48, name, "end")
    return "\n".join(out + ["</svg>", ""])


def main():
    drawn = made()
    recounted(*drawn[:4])
    blocks = [f"```\n{figures(*drawn)}\n```", table(*drawn)]
    svg, page = HERE / "summary.svg", HERE / "SUMMARY.md"
    if "--check" not in sys.argv[1:]:
        svg.write_text(picture(*drawn), encoding="utf-8")
        print("\n\n".join(blocks))
        return 0
    missing = [block for block in blocks if block not in page.read_text(encoding="utf-8")]
    for block in missing:
        print(f"SUMMARY.md does not hold:\n{block}\n")
    if svg.read_text(encoding="utf-8") != picture(*drawn):
        missing.append(svg)
        print("summary.svg is another")
    return 1 if missing else 0


if __name__ == "__main__":
    sys.exit(main())
