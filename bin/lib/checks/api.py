"""The pages of all calls, and the tables in crates/test_replay/calls, agree with the sources."""
import re
import sys

from lib.checks.manual import END, ENTRIES, GROUPS, INDEX, START, index_text, page_of, page_text, sources_of
from lib.checks.pages import BLOCKS, CODE, TEXTS, read
from lib.checks.scopes import NAME, SCOPES, names_in
from lib.checks.sources import CALLS, IMPLS, NOT_LISTED, example_of
from lib.checks.words import WORDS
from lib.shared import TOP, write_files

sys.path.append(str(TOP / "diff"))
import table

# The libraries of which each call has an example, its own or one that it shares.
SHOWN = ["litemap"]
# Words that mean the same in Rust, and those that the page explains with the signs.
OF_RUST = "Some None Ok Err Option Result Bool true false String List ℕ ⊤ Data Type".split()


def see_pages(report, write):
    """Compares the pages with what the sources make of them; with `write` they are written first, and those of no group removed."""
    before, _, rest = TEXTS[INDEX].partition(START)
    texts = {INDEX: before + index_text() + rest.partition(END)[2], **{page_of(it): page_text(it) for it in GROUPS}}
    if write:
        for page in {it for it in TEXTS if it.startswith("docs/api/")} - {*texts}:
            (TOP / page).unlink()
            del TEXTS[page], BLOCKS[page]
        write_files(TOP, texts)
        for page in texts:
            read(page)
    for page in sorted({*texts, *(it for it in TEXTS if it.startswith("docs/api/"))}):
        told = f"{page} has other calls, contracts, words or lines than the sources: bin/check api --write writes it"
        report.see(texts.get(page) == TEXTS.get(page), told)


def see_words(report):
    """Sees that each word of a contract is defined here, or is another's that docs/API.md explains."""
    tables = [it.rows() for it in BLOCKS[INDEX] if it.kind == "table" and it.rows()[0][0] == "Word"]
    told = {NAME.findall(code)[0] for rows in tables for row in rows[1:] for code in CODE.findall(row[0])}
    for entry in (it for entries in ENTRIES.values() for it in entries):
        for path, names in [(entry.call.path, entry.names.items()), *((word.path, names_in(word)) for word in entry.words)]:
            for name, key in names:
                first = name.split(".")[0]
                module = SCOPES[path].modules.get(first, "")
                is_other = module and not key and ".declared." not in module and first not in OF_RUST
                report.see(not key or key in WORDS, f"{key}, a word of {entry.title}, is in no specs")
                report.see(not is_other or first in told, f"{INDEX} says nothing of {first}, a word of {entry.title}")


def check(report, write):
    see_pages(report, write)
    see_words(report)
    for call in (it.call for entries in ENTRIES.values() for it in entries if it.call.source.split("/")[0] in SHOWN):
        report.see(example_of(call), f"{call.label} of {call.source} has no example, and no other of its library calls it")
    grouped = {source for group in GROUPS for source in sources_of(group)}
    for source in sorted(grouped | {it for it in CALLS if not {it, it.split("/")[0]} & {*NOT_LISTED} and (CALLS[it] or IMPLS[it])}):
        report.see(source in CALLS, f"a group of docs/API.md names {source}, and there is no such source")
        report.see(source in grouped, f"{source} has calls or traits of others, and stands in no group of docs/API.md")
    for told in table.missing(TOP):
        report.see(False, told)
