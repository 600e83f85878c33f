"""What pages name exists: paths, links and their anchors, what a file is said to have, and calls."""
import collections
import functools
import os
import re

from lib.checks.pages import BLOCKS, CODE, LINK, TEXTS, slug
from lib.checks.sources import PROOFS, RUST, SPECS
from lib.shared import CRATES, TOP

# A path in backticks, a path from the top of the repository anywhere, and a module of specs or proofs.
PATH = re.compile(r"[\w.*-]*(?:/[\w.*-]+)+/?|\w+/|[\w-]+\.(?:rt|antt|md|txt|py|sh|c|svg|edit|calls)")
FROM_TOP = re.compile(r"(?<![\w./])(?:bin|crates|docs|wrong|diff|bench)/[\w.*/-]*[\w*]")
MODULE = re.compile(r"\bRattle\.(\w+)((?:\.(?!declared\b|Given\b|Goals\b)\w+)+)")
# A part of a path that stands for any name.
ANY = re.compile(r"\b(?:[A-Z]{4,}|game)\b(?!\.md)|\*")
# A word and the file that has it, in either order.
WORD_IN = re.compile(r"`([\w./]*\.\w+|\w+/\w+)`\s`(\w+)`|`(\w+)` in\s`([\w./]*\.\w+)`")
CODE_OF = {path: re.sub(r"^ *(?://|--).*", "", text, flags=re.MULTILINE) for path, text in (RUST | SPECS | PROOFS).items()}


# The files and folders from the top of the repository, each also without `src/`.
PATHS = {}
for folder, folders, files in os.walk(TOP):
    folders[:] = [it for it in folders if it not in (".git", "out")]
    paths = [os.path.relpath(os.path.join(folder, name), TOP) for name in folders + files]
    PATHS |= {path: path.replace("/src/", "/") for path in paths}


@functools.cache
def found_at(path):
    """The files and folders that a path may mean, which is the end of theirs, also without `src/` and without a suffix."""
    named = ANY.sub("[^/]+", re.sub(r"/out(/.*)?$|/$", "", path))
    end = re.compile(rf"(?:.*/)?{named}(?:\.\w+)?")
    return {it for it, short in PATHS.items() if end.fullmatch(it) or end.fullmatch(short)}


def paths_of(block):
    yield from FROM_TOP.findall(CODE.sub("", LINK.sub(r"\1", block.text)) if block.inside is None else block.text)
    for code in CODE.findall(block.text) if block.inside is None else ():
        yield from (it for it in re.split(r"[\s,;()|]+", code) if PATH.fullmatch(it))
    yield from (f"{crate}{rest.replace('.', '/')}" for crate, rest in MODULE.findall(block.text) if crate in CRATES)


def is_link(page, target):
    """Whether the target of a link exists."""
    path, _, anchor = target.partition("#")
    path = os.path.normpath(os.path.join(os.path.dirname(page), path)) if path else page
    if re.fullmatch(r"L\d+", anchor) and (TOP / path).is_file():
        return int(anchor[1:]) <= (TOP / path).read_text(encoding="utf-8").count("\n")
    return (TOP / path).exists() and (not anchor or anchor in [slug(it.text) for it in BLOCKS.get(path, ()) if it.kind == "head"])


def owners():
    """The code of each file, crate and type, by its name, except those of tests."""
    found, types = collections.defaultdict(str), set()
    for path, text in CODE_OF.items():
        types.update(() if path.startswith("test_") else re.findall(r"^pub (?:struct|enum|trait|type) (\w+)", text, re.MULTILINE))
    for path, text in CODE_OF.items():
        for name in {path.split("/")[0], os.path.basename(path).split(".")[0]}:
            found[name] += text
        for item in re.split(r"\n\n(?=\S)", text):
            for kind in types & {*re.findall(r"\w+", item.split("{")[0])}:
                found[kind] += item
    return found


def check(report, _):
    of, called = owners(), {*re.findall(r"\.(\w+)(?:::<[^(]*>)?\(", "".join(CODE_OF.values()))}
    for block in (it for blocks in BLOCKS.values() for it in blocks):
        for path in paths_of(block):
            report.see(found_at(path), f"{block.where}: there is no {path}")
        if block.kind in ("code", "example"):
            continue
        for _, target in LINK.findall(block.text):
            report.see(target.startswith("http") or is_link(block.page, target), f"{block.where}: the link to {target} leads nowhere")
        for path, word, other, place in WORD_IN.findall(block.text):
            files = [TOP / it for it in found_at(path or place) if (TOP / it).is_file()]
            shape = re.compile(rf"\b(?:fn|def|struct|enum|trait|type) {word or other}\b|^ *[\w ]*\b{word or other} :", re.MULTILINE)
            has = any(shape.search(it.read_text(encoding="utf-8")) for it in files)
            report.see(has, f"{block.where}: {path or place} has no {word or other}")
        # A table's column about other libraries is left out.
        rows = block.rows() if block.kind == "table" else []
        text = "\n".join(" ".join(row[1:]) for row in rows) if rows and {"Here", "Port"} & {*rows[0]} else block.text
        for code in CODE.findall(text):
            for owner, name, names in re.findall(r"\b(\w+)::(?:(\w+)|\{([\w, ]*)\})", code):
                for it in (name or names).split(", ") if owner in of else ():
                    report.see(re.search(rf"\b{it}\b", of[owner]), f"{block.where}: {owner} has no {it}")
            for name in re.findall(r"\.(\w+)(?:::<[^(]*>)?\(", code):
                report.see(name in called, f"{block.where}: no source calls .{name}(")
