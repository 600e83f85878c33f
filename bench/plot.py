"""The plot of bench/run, as SVG: the times of eight rows, of a map here and of the kit's maps."""
import math

import tables

ROWS = [("get", "get"), ("insert", "insert, random order"), ("iterate", "iterate"), ("from_iter", "from pairs, random order")]
SIZES = [1000, 100_000]
COLOURS = {"Vec": "#e6550d", "BTreeMap": "#08519c", "HashMap": "#4292c6", "IndexMap": "#9ecae1"}
WIDTH, HEIGHT, LEFT, RIGHT, TOP, ROW = 700, 260, 265, 675, 40, 24
# The scale is logarithmic, from a tenth of a nanosecond to a hundred microseconds.
LOWEST, HIGHEST = -1, 5
TEXT = 'font-family="sans-serif" font-size="12" fill="#222"'


def text(x, y, words, anchor="start"):
    return f'<text x="{x:.0f}" y="{y:.0f}" text-anchor="{anchor}" {TEXT}>{words}</text>'


def dot(x, y, colour):
    return f'<circle cx="{x:.1f}" cy="{y:.1f}" r="4.5" fill="{colour}" stroke="#fff" stroke-width="0.7"/>'


def across(nanos):
    """The horizontal position of a time."""
    return LEFT + (math.log10(nanos) - LOWEST) / (HIGHEST - LOWEST) * (RIGHT - LEFT)


def times(ours):
    """The plot, from the measures of our program."""
    rows = [(row, title, size) for row, title in ROWS for size in SIZES]
    bottom = TOP + ROW * len(rows)
    drawn = [f'<rect width="{WIDTH}" height="{HEIGHT}" fill="#fff"/>', text(12, 20, "Nanoseconds a pair, u64 keys")]
    for number, (store, colour) in enumerate(COLOURS.items()):
        x = LEFT + 105 * number
        drawn.append(dot(x, 16, colour) + text(x + 10, 20, "LiteMap" if store == "Vec" else store))
    for power in range(LOWEST, HIGHEST + 1):
        x = across(10**power)
        drawn.append(f'<line x1="{x:.0f}" y1="{TOP - 6}" x2="{x:.0f}" y2="{bottom}" stroke="#ddd"/>')
        drawn.append(text(x, bottom + 16, f"{10 ** power:,g}", "middle"))
    for number, (row, title, size) in enumerate(rows):
        top = TOP + ROW * number
        drawn.append(text(12, top + 16, f"{title}, {size:,} pairs"))
        for place, (store, colour) in enumerate(COLOURS.items()):
            nanos = ours[tables.Measure(row, "number", store, size)].lowest() / 1000
            # Each map is a little lower than the one before, so that no dot hides another.
            drawn.append(dot(across(nanos), top + 6 + 4 * place, colour))
    size = f'width="{WIDTH}" height="{HEIGHT}" viewBox="0 0 {WIDTH} {HEIGHT}"'
    return "\n".join([f'<svg xmlns="http://www.w3.org/2000/svg" {size}>', *drawn, "</svg>", ""])
