"""The code in pages and comments is code of a proved crate, and no line of a definition or of a proof is wider than a screen."""
import re

from lib.checks.pages import BLOCKS
from lib.checks.sources import PROOFS, RUST, SPECS, examples_of
from lib.shared import TOP

MOST_COLUMNS = 160
# The lines that a block leaves out.
LEFT_OUT = re.compile(r"^ *// \.\.\.\n", re.MULTILINE)
# The sources whose items are shown in comments. Pages and comments show items of bin/lib/examples.rt.in, too.
SHOWN = re.compile(r"example_(?:uses|formats|store)/src/\w+\.rt")


def trimmed(text):
    """The lines of a text, without the space around them."""
    return "".join(line.strip() + "\n" for line in text.splitlines())


def stands_in(block, sources):
    """Whether each part of a block stands, line by line, in one of the sources."""
    parts = ["\n" + part.strip("\n") + "\n" for part in LEFT_OUT.split(block)]
    return all(any(part in "\n" + source for source in sources) for part in parts)


def check(report, _):
    examples = (TOP / "bin" / "lib" / "examples.rt.in").read_text(encoding="utf-8")
    for block in (it for page, blocks in BLOCKS.items() if not page.startswith("docs/api/") for it in blocks):
        if block.language == "rust":
            report.see(stands_in(block.inside, [*RUST.values(), examples]), f"{block.where}: the block stands in no crate")
    shown = [trimmed(text) for text in [*(RUST[path] for path in RUST if SHOWN.fullmatch(path)), examples]]
    for path, text in RUST.items():
        for comment, block, is_item in examples_of(text):
            line = text.count("\n", 0, comment.start()) + 1
            is_there = not is_item or stands_in(trimmed(block), shown)
            report.see(is_there, f"crates/{path}:{line}: the block in the comment stands in no crate")
    for path, text in (SPECS | PROOFS).items():
        for number, line in enumerate(text.splitlines(), start=1):
            report.see(len(line) <= MOST_COLUMNS, f"crates/{path}:{number}: a line of {len(line)} columns")
