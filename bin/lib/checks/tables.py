"""Tables of pages name what is there: all crates and scripts, clauses, measured times; and lines of crates.txt are shown as they are."""
import os
import re

from lib.checks.pages import BLOCKS, CODE, TEXTS
from lib.checks.sources import SOURCES, SPECS
from lib.shared import CRATES, TOP

CLAUSE = re.compile(r"^ *(?:ensures\*? (\w+)|pub (\w+) :)", re.MULTILINE)
# The clauses of the libraries' contracts, and the fields of their records.
CLAUSES = {name for text in (*SOURCES.values(), *SPECS.values()) for found in CLAUSE.findall(text) for name in found}


def tables(page):
    return [it for it in BLOCKS[page] if it.kind == "table"]


def named_in(page, head):
    """What the first column names in the table of a page that begins with the cell `head`."""
    rows = [row for it in tables(page) if it.rows()[0][0] == head for row in it.rows()[1:]]
    return {name for row in rows for name in CODE.findall(row[0])}


def ratios(table):
    """The cells of a table of times, by title, row and column: the number in parentheses, or the cell itself."""
    (title, *columns), *rows = table.rows()
    for name, *cells in rows:
        for column, cell in zip(columns, cells):
            yield (title, name, column), re.sub(r".*\((.*)\)", r"\1", cell)


def check(report, _):
    folders = {it.name for it in (TOP / "crates").iterdir() if (it / "src").is_dir()}
    scripts = {it.name for it in (TOP / "bin").iterdir() if it.is_file() and os.access(it, os.X_OK)}
    for where, named, there in [
        ("crates.txt", {*CRATES}, folders),
        ("the table of crates in docs/DESIGN.md", named_in("docs/DESIGN.md", "`crates/`"), folders),
        ("the table of scripts in CONTRIBUTING.md", named_in("CONTRIBUTING.md", "`bin/`"), scripts),
    ]:
        for name in sorted(named | there):
            report.see(name in there, f"{where} names {name}, which is not there")
            report.see(name in named, f"{where} does not name {name}")
    for page, text in TEXTS.items():
        # The lines of crates.txt that a page shows, in its prose or in a block: the crate of each, and what it uses.
        found = re.findall(r"`(\w+):((?: \w+)*)`|^ *(\w+):((?: \w+)*)$", text, re.MULTILINE)
        shown = {name or below: (uses or more).split() for name, uses, below, more in found if (name or below) in CRATES}
        for name, uses in shown.items():
            report.see(uses == CRATES[name], f"{page}: the line of {name} is not that of crates.txt")
            for used in [it for it in uses if it in CRATES]:
                report.see(used in shown, f"{page} has a line of {name}, and none of {used}, which it uses")
    for name in named_in("docs/PROVED.md", "Name"):
        report.see(name in CLAUSES, f"docs/PROVED.md: no contract has a clause {name}")
    measured = {place: ratio for table in tables("docs/TIMES.md") for place, ratio in ratios(table)}
    for table in (it for page in ("README.md", "docs/BENCH.md") for it in tables(page)):
        for place, ratio in ratios(table) if any(title == table.rows()[0][0] for title, _, _ in measured) else ():
            report.see(measured.get(place) == ratio, f"{table.where}: docs/TIMES.md has no {ratio} of {', '.join(place)}")
