#!/usr/bin/env python3
"""Draws the crates by layer, from crates.txt.

    python3 docs/layers.py            from the project's root: writes docs/layers.svg
    python3 docs/layers.py --check    ends with status 1 if docs/layers.svg is not what crates.txt gives

A band is a group of crates.txt, with its comment. An arrow leads from a crate to one that it rests on; one that follows from others is left
out. Crates of the kit are not drawn.
"""
import html
import sys
import textwrap

SVG = "docs/layers.svg"
SERVICES = ["judge", "evaluator", "compiler", "runner", "tabulator", "engine"]
TINTS = ["#e8f0f8", "#eef4e4", "#fbf1df", "#f6e9ec", "#ece9f6", "#e4f2f1", "#f4f0e6", "#eceff1", "#f3ecf4"]
TITLES, LEFT, RIGHT, ROW, BOX, GAP, BAND = 26, 226, 26, 66, 32, 22, 12


def read(path):
    """The groups, each with its comment and crates, and what each crate rests on."""
    groups, rests = [], {}
    for line in open(path, encoding="utf-8"):
        line = line.strip()
        if line.startswith("#"):
            groups.append((line[1:].strip(), []))
        elif line:
            crate, names = line.split(":")
            crate = crate.split()[0]
            rests[crate] = names.split()
            groups[-1][1].append(crate)
    for crate in rests:
        rests[crate] = [name for name in rests[crate] if name in rests]
    return [group for group in groups if group[1]], rests


def reach(crate, rests):
    """All that a crate rests on, directly or through others."""
    return set(rests[crate]).union(*(reach(name, rests) for name in rests[crate]))


def reduced(rests):
    """What each crate rests on and does not already through another."""
    through = {crate: set().union(*(reach(name, rests) for name in rests[crate])) for crate in rests}
    return [(crate, name) for crate in rests for name in rests[crate] if name not in through[crate]]


def rows_of(groups, edges):
    """The row of each crate, and the rows of each band: a crate stands below those of its band that it rests on."""
    row, bands, first = {}, [], 0
    for _, crates in groups:
        for _ in crates:
            for crate in crates:
                above = [row[b] + 1 for a, b in edges if a == crate and b in crates and b in row]
                row[crate] = max([first] + above)
        last = max(row[crate] for crate in crates)
        bands.append((first, last))
        first = last + 1
    return row, bands


def width(node):
    return 8.2 * len(node) + 26 if isinstance(node, str) else 10


def chains(row, edges):
    """Each edge as a run of nodes from the upper row to the lower one, with a place in every row between."""
    runs = []
    for a, b in edges:
        up, down = (b, a) if row[b] < row[a] else (a, b)
        runs.append([up] + [(a, b, r) for r in range(row[up] + 1, row[down])] + [down])
    return runs


def crossings(rows, links):
    place = {node: i for row in rows for i, node in enumerate(row)}
    count = 0
    for pairs in links:
        ends = [(place[u], place[d]) for u, d in pairs]
        count += sum((a[0] - b[0]) * (a[1] - b[1]) < 0 for i, a in enumerate(ends) for b in ends[:i])
    return count


def arrange(row, runs, count):
    """The nodes of each row from left to right, with few crossings."""
    rows = [[node for node in row if row[node] == r] for r in range(count)]
    links = [[] for _ in range(count)]
    ups, downs = {}, {}
    for run in runs:
        for upper, lower in zip(run, run[1:]):
            r = row[upper] if isinstance(upper, str) else upper[2]
            links[r].append((upper, lower))
            ups.setdefault(lower, []).append(upper)
            downs.setdefault(upper, []).append(lower)
        for node in run[1:-1]:
            rows[node[2]].append(node)
    best, fewest = [list(r) for r in rows], crossings(rows, links)
    for turn in range(60):
        near = ups if turn % 2 == 0 else downs
        for r in range(count) if turn % 2 == 0 else reversed(range(count)):
            place = {node: (i + 0.5) / len(other) for other in rows for i, node in enumerate(other)}
            mean = {n: sum(place[m] for m in near[n]) / len(near[n]) if n in near else place[n] for n in rows[r]}
            rows[r].sort(key=lambda n: mean[n])
        now = crossings(rows, links)
        if now < fewest:
            best, fewest = [list(r) for r in rows], now
    return best, ups, downs


def weight(a, b):
    """How much an edge wants to be upright: a long one more than a short one."""
    return (1, 3, 12)[(not isinstance(a, str)) + (not isinstance(b, str))]


def spread(row, wanted, heavy):
    """Places as near as possible to those wanted, in order and with room for each node; heavy nodes move least."""
    offset, offsets = 0.0, []
    for i, node in enumerate(row):
        if i:
            offset += (width(row[i - 1]) + width(node)) / 2 + GAP
        offsets.append(offset)
    blocks = []
    for node, value, mass in zip(row, (w - o for w, o in zip(wanted, offsets)), heavy):
        blocks.append([value, mass, 1])
        while len(blocks) > 1 and blocks[-2][0] > blocks[-1][0]:
            (v, n, i), (w, m, j) = blocks[-2:]
            blocks[-2:] = [[(v * n + w * m) / (n + m), n + m, i + j]]
    flat = [v for v, _, n in blocks for _ in range(n)]
    return [f + o for f, o in zip(flat, offsets)]


def place(rows, ups, downs):
    """The middle of each node."""
    x = {}
    for row in rows:
        total = sum(width(node) + GAP for node in row)
        x.update(zip(row, spread(row, [i * total / len(row) - total / 2 for i in range(len(row))], [1] * len(row))))
    for turn in range(400):
        for row in rows if turn % 2 == 0 else reversed(rows):
            wanted, heavy = [], []
            for node in row:
                near = [(n, weight(node, n)) for n in ups.get(node, []) + downs.get(node, [])]
                mass = sum(w for _, w in near)
                wanted.append(sum(x[n] * w for n, w in near) / mass if near else x[node])
                heavy.append(max(mass, 1))
            x.update(zip(row, spread(row, wanted, heavy)))
    return x


def path(points):
    """A smooth line through points, upright at each."""
    text = f"M{points[0][0]:.1f} {points[0][1]:.1f}"
    for (x, y), (u, v) in zip(points, points[1:]):
        text += f" C{x:.1f} {(y + v) / 2:.1f} {u:.1f} {(y + v) / 2:.1f} {u:.1f} {v:.1f}"
    return text


def draw(groups, rests):
    edges = reduced(rests)
    row, bands = rows_of(groups, edges)
    rows, ups, downs = arrange(row, chains(row, edges), bands[-1][1] + 1)
    x = place(rows, ups, downs)
    shift = LEFT + RIGHT - min(x[n] - width(n) / 2 for n in x)
    x = {node: at + shift for node, at in x.items()}
    wide = max(x[n] + width(n) / 2 for n in x) + RIGHT
    titles = [textwrap.wrap(comment.rstrip("."), TITLES) for comment, _ in groups]
    tops, spans, y = [], [], BAND
    for (first, last), lines in zip(bands, titles):
        tall = max((last - first + 1) * ROW, 16 * len(lines) + 26)
        spare = (tall - (last - first + 1) * ROW) / 2
        tops += [y + spare + (ROW - BOX) / 2 + ROW * r for r in range(last - first + 1)]
        spans.append((y, tall))
        y += tall + BAND
    out = [
        f'<svg xmlns="http://www.w3.org/2000/svg" viewBox="0 0 {wide:.0f} {y:.0f}" font-family="DejaVu Sans, Verdana, sans-serif">',
        "<title>The crates by layer</title>",
        '<defs><marker id="head" viewBox="0 0 8 8" refX="7" refY="4" markerWidth="7" markerHeight="7" orient="auto-start-reverse">'
        '<path d="M0 0.8 L7 4 L0 7.2 Z" fill="#5b6770"/></marker></defs>',
        f'<rect width="{wide:.0f}" height="{y:.0f}" fill="#ffffff"/>',
    ]
    for (top, tall), lines, tint in zip(spans, titles, TINTS * len(groups)):
        out.append(f'<rect x="10" y="{top:.1f}" width="{wide - 20:.1f}" height="{tall}" rx="10" fill="{tint}"/>')
        start = top + tall / 2 - 8 * (len(lines) - 1) + 4.5
        for i, line in enumerate(lines):
            out.append(f'<text x="26" y="{start + 16 * i:.1f}" font-size="13" fill="#3d4852">{html.escape(line)}</text>')
    for run, (a, b) in zip(chains(row, edges), edges):
        points = [(x[run[0]], tops[row[run[0]]] + BOX + 1)]
        for node in run[1:-1]:
            points += [(x[node], tops[node[2]] - 2), (x[node], tops[node[2]] + BOX + 2)]
        points.append((x[run[-1]], tops[row[run[-1]]] - 1))
        end = "marker-start" if run[0] == b else "marker-end"
        out.append(f'<path d="{path(points)}" fill="none" stroke="#8a97a3" stroke-width="1.4" {end}="url(#head)"/>')
    for crate in row:
        left, top, size = x[crate] - width(crate) / 2, tops[row[crate]], width(crate)
        fill, ink, line = ("#2f5d8a", "#ffffff", "#234a70") if crate in SERVICES else ("#ffffff", "#1f2933", "#9aa7b2")
        out.append(f'<rect x="{left:.1f}" y="{top:.1f}" width="{size:.1f}" height="{BOX}" rx="6" fill="{fill}" stroke="{line}"/>')
        out.append(
            f'<text x="{x[crate]:.1f}" y="{top + 20.5:.1f}" font-size="13.5" text-anchor="middle" fill="{ink}">{html.escape(crate)}</text>'
        )
    out.append("</svg>")
    return "\n".join(out) + "\n"


def main():
    svg = draw(*read("crates.txt"))
    if "--check" in sys.argv:
        sys.exit(open(SVG, encoding="utf-8").read() != svg)
    open(SVG, "w", encoding="utf-8").write(svg)


main()
