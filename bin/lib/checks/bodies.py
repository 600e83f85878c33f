"""The text of each wrong body in wrong/, in must-fail/ and in planted fits the sources, and a body breaks each public clause."""
import collections
import fnmatch
import functools
import re

from lib.checks.sources import CALLS, NOT_LISTED
from lib.shared import CRATES, TOP, bodies, edited, texts_in

# A clause of a contract: its name, which a lone one may lack, and its words. Those of what a call returns or leaves have one of these.
CLAUSE = re.compile(r"^ *ensures\*?(?: (\w+))? \{(.*?)\}$", re.MULTILINE | re.DOTALL)
LEFT = re.compile(r"\b(?:result|new|exit)\b")
# Clauses that no body can break alone, as patterns, by the reason.
UNBREAKABLE = {
    "no body has a pair to put in": "with_capacity.empty StoreMut::lm_with_capacity.empty StoreConstEmpty::lm_empty.pairs retain.shorter"
    " LiteMap::new.pairs LiteMap::new_vec.pairs LiteMap::with_capacity.empty LiteMap::retain.fewer VecSet::new.keys",
    "no body has another store, map, iterator, error or reader": "LiteMap::as_store.* LiteMap::into_store.* LiteMap::new.room"
    " LiteMap::from_sorted_store_unchecked.* LiteMap::try_from_sorted.pairs LiteMap::try_from_sorted.room LiteMap::try_from_sorted.back"
    " *.same_map IntoKeys::new IntoValues::new Watch::new.watched Count::refuse.error LiteMap::entry_by.error read_results.error",
    "over a store that keeps its memory each pair that goes leaves its room": "drop_from.room LiteMap::retain.room LiteMap::truncate.room"
    " LiteMap::*_keys_of.room LiteMap::remove_by.room LiteMap::remove_indexed.room LiteMap::pop_*.room OccupiedEntry::remove*.room",
    "no body may lose a pair whose type isn't Drop": "insert_reserved.len remove_at.len LiteMap::reserve.pairs"
    " LiteMap::reserve.room_not_lowered LiteMap::update.keys LiteMap::try_update.keys VacantEntry::into_key.key LiteMap::try_insert.places"
    " LiteMap::insert_indexed.places LiteMap::remove_indexed.places LiteMap::pop_*.places",
    "each pair of a map is what its key finds, and each value one of its own": "LiteMap::first.found LiteMap::last.found"
    " LiteMap::iter_range.found LiteMap::range*.found LiteMap*.member",
    "each slice of a map ascends, and so do the keys of two sets": "LiteMap::as_slice.rising VecSet::*.ascending",
    "it speaks of the type alone": "JsonItem::to_value.reads_back JsonKey::key_text.reads_back",
}


@functools.cache
def texts_of(crate):
    """The texts that a wrong body of a crate may change: with no crate, those of all crates."""
    if crate:
        return texts_in(TOP / "crates" / crate)
    return {f"{name}/{path}": text for name in CRATES for path, text in texts_of(name).items()}


def see(file, crate, report):
    """Checks the wrong bodies of a file, and returns them."""
    found, name = bodies(file), file.relative_to(TOP)
    for body in found:
        try:
            edited(texts_of(crate), body)
        except ValueError as error:
            report.see(False, f"{name}: {body.title}: {error}")
    for title, times in collections.Counter(it.title for it in found).items():
        report.see(times == 1, f"{name}: {title}: this title stands {times} times")
    return found


def clauses():
    """The clauses of public calls on what these return or leave, as (call, name), each with its words. Laws do nothing."""
    for source, calls in CALLS.items():
        unnamed = {source, source.split("/")[0]} & {*NOT_LISTED}
        for call in (it for it in calls if not unnamed and not it.head.endswith("()")):
            yield from (((call.label, name), " ".join(words.split())) for name, words in CLAUSE.findall(call.contract))


def see_clauses(broken, report):
    """Sees that a body breaks each clause. A counted call and its plain one share those that have the same words."""
    found = [*clauses()]
    spelled = {clause: ".".join(filter(None, clause)) for clause, _ in found}
    for clause, file in broken.items():
        report.see(clause in spelled, f"{file}: no public call has the clause '{' '.join(clause).strip()}', which a body breaks")
    told = {(label.removesuffix("_counted"), name, words) for (label, name), words in found if (label, name) in broken}
    patterns = [it for names in UNBREAKABLE.values() for it in names.split()]
    for (label, name), words in found:
        is_told = (label.removesuffix("_counted"), name, words) in told or not LEFT.search(words)
        is_excepted = any(fnmatch.fnmatchcase(spelled[label, name], it) for it in patterns)
        report.see(is_told or is_excepted, f"no wrong body has a line 'breaks: {f'{label} {name}'.strip()}'")
    for pattern in patterns:
        names = fnmatch.filter(spelled.values(), pattern)
        report.see(names, f"UNBREAKABLE names {pattern}, which is no clause")
        report.see(not {*names} & {spelled.get(it) for it in broken}, f"a wrong body breaks {pattern}, which UNBREAKABLE names")


def check(report, _):
    files, broken = {file: file.name for file in TOP.glob("wrong/*")}, {}
    files |= {file: file.parts[-3] for file in TOP.glob("crates/*/must-fail/*.edit")}
    files |= dict.fromkeys(TOP.glob("crates/*/planted"))
    for file in sorted(files):
        try:
            found = see(file, files[file], report)
            for label, *names in (call.split() for body in found for call in body.breaks.split(";") if call):
                broken |= {(label, name): file.relative_to(TOP) for name in names or [""]}
        except ValueError as error:
            report.see(False, f"{file.relative_to(TOP)}: {error}")
    see_clauses(broken, report)
