#!/usr/bin/env python3
"""A picture of a listing: when each cell arrived, when it was due and when it left, as an SVG on standard output.

  target/bin/spacer < TRACE | python3 docs/draw_listing.py > run.svg
  python3 docs/draw_listing.py LISTING [FIRST [LAST]] > run.svg       slots FIRST to LAST only (0 to 79)

A row for each cell that arrived in those slots, or that left in them. The cells of one connection leave in the order of their
arrival, so that a departure is of the oldest one that has not left. It needs nothing but python3.
"""
import sys

ROW, LEFT, TOP = 16, 100, 58
WAITS, LATE, INK, FAINT = "#4477aa", "#ee6677", "#222222", "#dddddd"
WORDS = {"X": "excess", "U": "unknown", "H": "dropped"}


def cells_of(lines):
    """Cells as [connection, arrival, verdict, due, leaves], in order of arrival, and how many slots there are. Slots are counted
    by lines, since their number wraps."""
    cells, waiting, slot = [], {}, 0
    for line in lines:
        word = line.split()
        if len(word) != 5 or not word[0].isdigit() or word[1] not in ".AXUHT":
            continue
        _, verdict, connection, delay, out = word
        if verdict != ".":
            cells.append([connection, slot, verdict, None, None])
            if verdict in "AT":
                cells[-1][3] = slot + int(delay)
                waiting.setdefault(connection, []).append(cells[-1])
        if out != "-" and waiting.get(out):
            waiting[out].pop(0)[4] = slot
        slot += 1
    return cells, slot


def picture(cells, first, last):
    """last is the last slot shown."""
    rows = [c for c in cells if first <= c[1] <= last or (c[1] < first and (c[4] is None or c[4] >= first) and c[2] in "AT")]
    step = max(14, min(40, 720 // (last - first + 1)))
    wide, high = max(LEFT + step * (last - first + 1) + 130, 480), TOP + ROW * (len(rows) + 1) + 14
    at = lambda slot: LEFT + step * (min(max(slot, first), last + 1) - first) + step // 2
    out = [f'<svg xmlns="http://www.w3.org/2000/svg" width="{wide}" height="{high}" viewBox="0 0 {wide} {high}" font-family="sans-serif" font-size="11">',
           f'<rect width="{wide}" height="{high}" fill="white"/>']
    text = lambda x, y, what, more="": out.append(f'<text x="{x}" y="{y}" fill="{INK}"{more}>{what}</text>')
    # what is what
    out.append(f'<circle cx="14" cy="14" r="4" fill="white" stroke="{INK}"/>')
    text(24, 18, "arrives")
    out.append(f'<line x1="78" y1="14" x2="108" y2="14" stroke="{WAITS}" stroke-width="3"/>')
    text(114, 18, "waits for its due slot")
    out.append(f'<line x1="240" y1="14" x2="270" y2="14" stroke="{LATE}" stroke-width="3"/>')
    text(276, 18, "waits for the line")
    out.append(f'<rect x="378" y="10" width="8" height="8" fill="{INK}"/>')
    text(392, 18, "leaves")
    text(8, TOP - 10, "slot")
    for slot in range(first, last + 1):
        out.append(f'<line x1="{at(slot)}" y1="{TOP - 4}" x2="{at(slot)}" y2="{high - 10}" stroke="{FAINT}"/>')
        if last - first < 30 or slot % 5 == 0:
            text(at(slot), TOP - 10, slot, ' text-anchor="middle"')
    for k, (connection, arrival, verdict, due, leaves) in enumerate(rows):
        y = TOP + ROW * (k + 1) - 4
        text(8, y + 4, f"cell of {connection}" if connection != "-" else "cell")
        if verdict in WORDS:
            text(at(arrival), y + 4, "x", ' text-anchor="middle" font-weight="bold"')
            text(at(last) + step, y + 4, WORDS[verdict])
            continue
        end = leaves if leaves is not None else last + 1
        out.append(f'<line x1="{at(arrival)}" y1="{y}" x2="{at(min(due, end))}" y2="{y}" stroke="{WAITS}" stroke-width="3"/>')
        if end > due:
            out.append(f'<line x1="{at(due)}" y1="{y}" x2="{at(end)}" y2="{y}" stroke="{LATE}" stroke-width="3"/>')
        if due <= last and due >= first:
            out.append(f'<line x1="{at(due)}" y1="{y - 5}" x2="{at(due)}" y2="{y + 5}" stroke="{INK}"/>')
        if arrival >= first:
            out.append(f'<circle cx="{at(arrival)}" cy="{y}" r="4" fill="white" stroke="{INK}"/>')
        if leaves is not None and leaves <= last:
            out.append(f'<rect x="{at(leaves) - 4}" y="{y - 4}" width="8" height="8" fill="{INK}"/>')
            said = f"D {due - arrival}, late {leaves - due}"
        else:
            said = f"D {due - arrival}"
        text(at(last) + step, y + 4, said + (", tagged" if verdict == "T" else ""))
    return "\n".join(out + ["</svg>"]) + "\n"


def main(words):
    if len(words) > 3 or any(not w.isdigit() for w in words[1:]):
        sys.exit(__doc__)
    with (open(words[0], encoding="ascii") if words else sys.stdin) as lines:
        cells, slots = cells_of(lines)
    first = int(words[1]) if len(words) > 1 else 0
    last = min(int(words[2]) if len(words) > 2 else first + 79, slots - 1)
    if slots == 0 or last < first:
        sys.exit("draw_listing: no such slots in the listing")
    sys.stdout.write(picture(cells, first, last))


if __name__ == "__main__":
    main(sys.argv[1:])
