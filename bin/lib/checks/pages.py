"""The pages in blocks: headings, prose, items of lists, tables, code."""
import re

from lib.shared import TOP

# Lines that continue a paragraph or an item.
MORE = r".*(?:\n(?! *(?:$|\||```|#+ |(?:-|\d+\.) )).+)*"
SHAPES = {
    "code": r"^(?P<set_in> *)```(?P<language>\w*)\n(?P<inside>[\s\S]*?)^(?P=set_in)```$",
    "example": r"(?<=\n\n)(?: {4}.*\n|\n(?= {4}))+",
    "comment": r"^<!--.*",
    "head": r"^#+ .*",
    "table": r"(?:^ *\|.*\n?)+",
    "item": r"^ *(?:-|\d+\.) " + MORE,
    "prose": r"^ *\S" + MORE,
}
BLOCK = re.compile("|".join(f"(?P<{kind}>{shape})" for kind, shape in SHAPES.items()), re.MULTILINE)
LINK = re.compile(r"!?\[([^\]]*)\]\(([^)\s]*)\)")
CODE = re.compile(r"`([^`\n]+)`")


class Block:
    """A block of a page, with its line and the heading above it."""

    def __init__(self, page, line, heading, found):
        self.page, self.line, self.heading, self.kind, self.text = page, line, heading, found.lastgroup, found[0]
        self.where = f"{page}:{line}"
        self.language, self.inside = found["language"], found["inside"]

    def rows(self):
        """The cells of a table, row by row, without the row of dashes."""
        rows = [[cell.strip() for cell in re.split(r"(?<!\\)\|", line.strip())[1:-1]] for line in self.text.splitlines()]
        return [row for row in rows if not re.fullmatch(r"[-: ]+", "".join(row))]


def blocks_of(page, text):
    heading = ""
    for found in BLOCK.finditer(text):
        heading = found[0] if found["head"] else heading
        yield Block(page, text.count("\n", 0, found.start()) + 1, heading, found)


def slug(heading):
    """The anchor of a heading."""
    return re.sub(r"[^\w\- ]", "", LINK.sub(r"\1", heading).lstrip("# ").lower()).replace(" ", "-")


def read(page):
    """Reads a page, or reads it again."""
    TEXTS[page] = (TOP / page).read_text(encoding="utf-8")
    BLOCKS[page] = [*blocks_of(page, TEXTS[page])]


TEXTS, BLOCKS = {}, {}
PAGES = sorted(it.relative_to(TOP).as_posix() for it in (TOP / "docs").rglob("*.md"))
for name in ["README.md", "CALLING.md", "PROVING.md", "CONTRIBUTING.md", "CHANGELOG.md", *PAGES]:
    read(name)
