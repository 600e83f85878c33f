"""The tables of bench/run, as Markdown."""
import collections
import pathlib
import typing

MEASURED = pathlib.Path(__file__).resolve().parent.parent / "crates" / "test_replay" / "calls" / "measured.txt"
KEYS = {"number": "`u64` keys", "text": "`String` keys", "few": "Few `u64` keys, a call,"}
OTHERS = ["BTreeMap", "HashMap", "IndexMap"]
# The rows in the table of bytes at the peak, and its number of pairs.
HELD = ["from_iter_rising", "from_iter", "extend_rising", "extend", "merge_apart", "merge_interleaved", "merge_equal", "clone"]
HELD_SIZE = 100_000
# The first line of measured.txt says what its columns are.
Row = collections.namedtuple("Row", "name title over call")
ROWS = {row.name: row for row in (Row(*line.split(" | ")) for line in MEASURED.read_text(encoding="utf-8").splitlines()[1:])}
# A measure: its row, keys, store and size.
Measure = collections.namedtuple("Measure", "row keys store size")


class Found(typing.NamedTuple):
    """The outcome of a measure: picoseconds a pair, the lowest of each pass, and a number that stands for the results."""

    times: list
    answer: str

    def lowest(self):
        return max(min(self.times), 1)

    def spread(self):
        """By how many percent the lowest time of every second pass and that of the others differ."""
        halves = [max(min(times), 1) for times in (self.times[::2], self.times[1::2] or self.times)]
        return (max(halves) / min(halves) - 1) * 100


def lines(names=ROWS):
    """The input of the programs: for each of these rows and what it measures a line with its name, its call and its keys."""
    return "".join(f"{over} {name} {ROWS[name].call}\n" for name in names for over in ROWS[name].over.split(" "))


def shown(picos):
    """Nanoseconds, with about two significant digits."""
    nanos = picos / 1000
    layout = ".2f" if nanos < 1 else ".1f" if nanos < 10 else ",.0f"
    return f"{nanos:{layout}}"


def found_there(theirs, measure):
    """The outcome of the measure in the Rust crate, which has one store, and JSON if it was built with serde."""
    store = measure.store if measure.store == "json" else "Vec"
    return None if measure.store in OTHERS else theirs.get(measure._replace(store=store))


def cell(ours, theirs, measure):
    """The time of a measure, and if the Rust crate has it too, how many times as long it takes here."""
    if measure not in ours:
        return ""
    here, there = ours[measure].lowest(), found_there(theirs, measure)
    if there is None:
        return shown(here)
    times = here / there.lowest()
    return f"{shown(here)} ({times:{'.2f' if times >= 0.1 else '.2g'}})"


def title(keys, store):
    """How the title of a table names a type of keys, and a store or a format."""
    return f"{KEYS[keys]} as JSON" if store == "json" else f"{KEYS[keys]} over `{store}`"


def table_of(ours, theirs, keys, store):
    measures = [measure for measure in ours if (measure.keys, measure.store) == (keys, store)]
    sizes = dict.fromkeys(measure.size for measure in measures)
    yield [f"{title(keys, store)}, pairs", *(f"{size:,}" for size in sizes)]
    for row in dict.fromkeys(measure.row for measure in measures):
        yield [ROWS[row].title, *(cell(ours, theirs, Measure(row, keys, store, size)) for size in sizes)]


def table_of_others(ours):
    """The table of the kit's maps beside ours."""
    yield ["Nanoseconds a pair, `u64` keys", "`LiteMap`", *(f"`{store}`" for store in OTHERS)]
    for measure in [measure for measure in ours if measure.store == OTHERS[0]]:
        cells = [shown(ours[measure._replace(store=store)].lowest()) for store in ("Vec", *OTHERS)]
        yield [f"{ROWS[measure.row].title}, {measure.size:,} pairs", *cells]


def table_of_bytes(ours, theirs):
    """The table of bytes a pair at the peak, here and there: the clock advanced by a microsecond for each byte."""
    columns = [(keys, store) for keys in ("number", "text") for store in ("Vec", "ColumnStore")]
    there = " : there" if theirs else ""
    yield [f"Bytes a pair at the peak, here{there}, {HELD_SIZE:,} pairs", *(title(*column) for column in columns)]
    for row in HELD:
        measures = [Measure(row, *column, HELD_SIZE) for column in columns]
        found = [filter(None, [ours[measure], found_there(theirs, measure)]) for measure in measures]
        yield [ROWS[row].title, *(" : ".join(f"{it.lowest() / 1_000_000:.0f}" for it in both) for both in found)]


def markdown(ours, theirs, held):
    """All tables, from the times of both programs, of which theirs may be empty, and the bytes of each."""
    stores = dict.fromkeys((measure.keys, measure.store) for measure in ours if measure.store not in OTHERS)
    tables = [table_of(ours, theirs, *store) for store in stores]
    lines = []
    for head, *rows in [*tables, table_of_others(ours), table_of_bytes(*held)]:
        lines += ["", "| " + " | ".join(head) + " |", "|---|" + "---:|" * (len(head) - 1)]
        lines += ["| " + " | ".join(row) + " |" for row in rows]
    return "\n".join([*lines, "", noise([*ours.values(), *theirs.values()])])


def noise(founds):
    """A sentence on how well the measures repeat."""
    spreads, passes = sorted(found.spread() for found in founds), len(founds[0].times)
    half, most = spreads[len(spreads) // 2], spreads[len(spreads) * 9 // 10]
    if passes == 1:
        return "From one pass, so nothing is known of how well it repeats.\n"
    return (
        f"The lowest of {passes} passes. Even and odd passes differ by at most {half:.0f} % for half of the measures, "
        f"by {most:.0f} % for nine in ten.\n"
    )
