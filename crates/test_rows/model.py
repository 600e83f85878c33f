"""Makes the input of the program `test_rows`, and the output that it must write: its files stdin and stdout.

They begin with the rows that have a title, which are written by hand: those of JSON in both files, those of tables in stdin alone.
Each kind of the other rows is made, with the output, by a file of its own here; no output comes from the program itself. bin/data
stores a sample of them, and bin/requests runs all.
"""
import collections
import functools
import itertools
import pathlib
import runpy

FOLDER = pathlib.Path(__file__).resolve().parent
KINDS = {name: runpy.run_path(str(FOLDER / f"{name}_rows.py")) for name in ("json", "read", "serde", "table")}
SIZES = runpy.run_path(str(FOLDER / "size_rows.py"))
# A row of many lookups, and long maps that are read and written, of so many pairs: bin/requests bounds their time.
MANY = 200000
OBJECT = "{" + ",".join(f'"{10**6 + number}":{number}' for number in range(MANY)) + "}"
ARRAY = "[" + ",".join(f"[{10**6 + number},{number}]" for number in range(MANY)) + "]"
LONG = [("table often 100000 -", "100000 found"), ("table falls 100000 -", "100000 fall")]
LONG += [(f"table {row}", told) for row, told in KINDS["table"]["lined"]([("opened", KINDS["table"]["overlapping"](40000))])]
LONG += [(f"{kind} {text}", OBJECT) for kind in ("json u32", "serde i64") for text in (OBJECT, ARRAY)]


def written(rows):
    """The files of these rows, by their names. A title is a line of both."""
    return {"stdin": "".join(f"{row}\n" for row, _ in rows), "stdout": "".join(f"{answer}\n" for _, answer in rows)}


# The title of the rows that are not written by hand.
SAMPLE = "# a sample of the other rows"


@functools.cache
def titled():
    """The titles, and the rows below each with their output. That of tables comes from the reader in table_rows.py."""
    texts = ((FOLDER / name).read_text(encoding="utf-8").split("\n") for name in ("stdin", "stdout"))
    read, found = KINDS["table"]["told"], []
    for row, answer in itertools.takewhile(lambda pair: pair[0] != SAMPLE, zip(*texts)):
        kind, _, rest = row.partition(" ")
        found.append((row, {"#": row, "json": answer}.get(kind) or read(rest)))
    return found


def others():
    """The other rows, with the output of each."""
    for name, kind in KINDS.items():
        rows = [(row.removeprefix(f"{name} "), answer) for row, answer in titled() if row.startswith(f"{name} ")]
        yield from ((f"{name} {row}", answer) for row, answer in kind["rows"](rows))


TIMED = written(LONG)["stdin"] + SIZES["TIMED"]


def files():
    """All rows, without titles."""
    by_hand = (row for row in titled() if not row[0].startswith("# "))
    return written([*by_hand, *others(), *SIZES["rows"](), *LONG, *SIZES["timed"]()])


# A longer row is stored only as the first of its kind.
MOST_STORED = 2500


def sample(files):
    """What is stored: the rows that have a title, and a sample of the others."""
    return written([*titled(), (SAMPLE,) * 2, *sampled(others()), *SIZES["sample"]()])


def sampled(rows):
    """Of short rows that begin with the same two words the first one, the second, the fourth and so on."""
    counts = collections.Counter()
    for row, answer in rows:
        kind = " ".join(row.split(" ")[:2])
        if len(row) <= MOST_STORED or not counts[kind]:
            counts[kind] += 1
            if not counts[kind] & (counts[kind] - 1):
                yield row, answer
