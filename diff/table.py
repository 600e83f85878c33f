"""Compares the tables of calls in crates/test_replay/calls with docs/api, with the calls of lines, and with the Rust crate."""
import re

import lines


def rows():
    """Each call of ours, the calls of lines that make it, and what the table says about the Rust crate's."""
    for ours, made, theirs in (row.split(" | ") for row in lines.MODEL["table_of"]("beside.txt")):
        owner, colons, names = ours.rpartition("::")
        for name in names.split(" ") if colons else [ours]:
            yield f"{owner}{colons}{name}", made.replace("=", name).split(" "), theirs.replace("=", name)


def listed(top):
    """The calls of the pages in docs/api, each with its group, and the traits of others that a map implements."""
    group = call = ""
    for line in "\n".join(page.read_text() for page in sorted((top / "docs" / "api").glob("*.md"))).splitlines():
        if line.startswith("# "):
            group = line.removeprefix("# ")
        elif found := re.match(r"## ([\w:]+)$", line):
            call = found[1]
            yield call, group
        elif re.match(rf"(?:pub )?fn {call.split(':')[-1]}_counted\b", line):
            yield f"{call}_counted", group
        elif found := re.match(r"impl.*> (\w+)(?:<.*>)? for (?:&'a )?LiteMap", line):
            yield f"trait {found[1]}", group


def missing(top, crate=None):
    """What the table lacks of our calls and of the Rust crate's, and what it names that doesn't exist."""
    table, calls = list(rows()), dict(listed(top))
    named = {ours for ours, _, _ in table}
    lacks = [f"{it}, which docs/api lists" for it, group in calls.items() if not {it, f"group {group}"} & named]
    theirs = set(re.findall(r"\bpub (?:const )?fn (\w+)", (crate / "src" / "map.rs").read_text() if crate else ""))
    lacks += [f"the Rust crate's {it}" for it in sorted(theirs - set(re.findall(r"\w+", " ".join(row[2] for row in table))))]
    made = {call for _, calls_of_lines, _ in table for call in calls_of_lines} - {"-"}
    picked = {name for groups in lines.CALLS_OVER.values() for group in groups for name in group.names}
    lacks += [f"{it}, which lines call" for it in sorted(picked - made)]
    there = {*calls, *(f"group {group}" for group in calls.values()), "-"}
    spare = [f"{it}, which docs/api does not list" for it in sorted(named - there)]
    spare += [f"{it}, which no line calls" for it in sorted(made - picked)]
    where = "table in crates/test_replay/calls"
    return [f"no {where} has a row for {it}" for it in lacks] + [f"a {where} names {it}" for it in spare]
