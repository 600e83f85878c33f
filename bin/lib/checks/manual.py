"""docs/API.md and the pages in docs/api, which are written from the sources: each call, its contract, and the words in that."""
import re
import textwrap

from lib.checks.pages import slug
from lib.checks.scopes import SCOPES, TRAITS, bounds_of, closure, displayed, members_of, types_in
from lib.checks.sources import CALLS, IMPLS, SOURCES, example_of, exported, squeezed
from lib.checks.words import WORDS

INDEX = "docs/API.md"
START, END = "<!-- bin/check writes what follows. -->\n", "<!-- bin/check writes what is above. -->\n"
# What a caller wants to do, and the sources of the calls for it.
GROUPS = {
    "Make a map": "litemap: lib map map/traits",
    "Look up": "litemap: map/look map/ranges",
    "Change": "litemap: map/change map/take map/positions try_fault",
    "Write a value in place": "litemap: map/write",
    "Entries": "litemap: map/entry",
    "Many at once": "litemap: map/bulk",
    "Merge and compare keys": "litemap: map/merge",
    "Walk": "litemap: map/iter map/iter/range",
    "Compare and hash": "litemap: map/comparisons",
    "Convert and borrow": "litemap: map/conversions",
    "Tables in constants": "litemap: const_family",
    "Read from a source": "litemap_read: source vec_source read calls laws",
    "JSON": "litemap_json: parse text read write fault told laws item next pairs written",
    "Through serde": "litemap_serde: write read pairs holder",
    "Name tables": "name_table: read write name_bytes cursor error laws",
    "Lookups in name tables": "name_index: names index indexed index_write error laws",
    "Sets": "litemap_set: lib",
    "What a call can be asked by": "litemap_store: query",
    "Stores": "litemap_store: store into_iter vec_impl slice_impl slice_iter owned_iter iter_mut count growth no_room retain reserved slice_search merge "
    "split_store; litemap_short: short_store short_iter; litemap_columns: lib column_store column_iter",
    "Laws, for proofs": "litemap_store: laws",
    "The program": "names_core: program watch input; names: laws",
}
# A word that this many groups use is explained once, in docs/API.md. Of the others a call explains those that are so near: 0 are
# those that its contract names, 1 those of their definitions.
MANY, NEAR, NEAR_TYPES = 4, 2, 1
# The groups whose calls explain all words of their definitions, in the order in which these use them.
WHOLE = ["The program"]
# The words of many groups that a group explains, too, and those that each of its calls explains.
LAST = "Last In StandsLast NoneEqual Rising BelowAll"
PINNED = {
    "Look up": "RisesByAtMost digits",
    "Many at once": f"{LAST} RisesByAtMost Gives",
    "Merge and compare keys": "Merge RisesByAtMost digits Rising BelowAll In NoneEqual",
    "Read from a source": LAST,
    "Name tables": LAST,
}
EACH = ["Last", "StandsLast", "IsGathered", "IsExtendedCounted"]
# The groups that name the words of another one's page, and don't explain them again.
BELOW = {"Lookups in name tables": "Name tables"}
# The calls whose words a page shows only on demand, since most are for proofs by hand.
FOLDED = ["LiteMap::try_get_or_insert"]
TYPES, TWINS = ("struct", "enum", "type", "trait"), "\n\n"
# The bounds of an impl that most calls have.
USUAL = ["K: Ord", "S: Store<K, V>"]
CLAUSE = re.compile(r"\b(?:requires|ensures\*?)(?: \w+)? (?=\{)")


def sources_of(group):
    parts = [part.split(": ") for part in GROUPS[group].split("; ")]
    return [f"{library}/{name}" for library, names in parts for name in names.split()]


def page_of(group):
    return f"docs/api/{slug(group)}.md"


def block(text, language="text"):
    return f"```{language}\n{text}\n```\n\n"


class Entry:
    """A call in a page: its title there, its counted variant if it has one, and the names that their contracts use."""

    def __init__(self, call, twin, title):
        self.call, self.title = call, title
        self.contracts = [it.contract for it in (call, twin) if it]
        scope, names = SCOPES[call.path], {call.owner: call.owner} if call.owner in WORDS else {}
        for it in (call, twin) if twin else (call,):
            bounds = bounds_of(f"{it.outer}, {it.contract}") | ({"Self": [it.owner]} if it.outer.startswith("pub trait") else {})
            clauses = CLAUSE.sub("", it.contract[len(it.head) :])
            names |= dict(scope.used(clauses, bounds)) | {name: name for name in types_in(it.head + it.bounds)}
        self.names, self.words = names, closure(key for key in names.values() if key)
        # The first sentence of the call's comment.
        self.sentence = re.match(r".*?\.(?= |$)|.*", " ".join(call.comment.split("\n\n")[0].split()))[0]


def entries_of(group):
    """The entries of a group, each with a title of its own."""
    found, titles = [], set()
    for call in (it for source in sources_of(group) for it in CALLS.get(source, ())):
        labels = {it.label: it for it in CALLS[call.source]}
        if call.label.removesuffix("_counted") in labels and call.label.endswith("_counted"):
            continue
        titles.add(title := f"{call.source.split('/')[-1]}::{call.label}" if call.label in titles else call.label)
        found.append(Entry(call, labels.get(f"{call.label}_counted"), title))
    return found


ENTRIES = {group: entries_of(group) for group in GROUPS}
# The types that hold pairs, each with those of our traits that it has.
STORES = {}
for head in (squeezed(it) for text in SOURCES.values() for it in re.findall(r"^impl\b[^{]*", text, re.MULTILINE)):
    if found := re.search(r"(\w+)(?:<[^>]*>)? for (Vec|\w+Store)\b", head):
        STORES.setdefault(found[2], []).append(found[1])
USED = {group: {word for it in entries for word in it.words} for group, entries in ENTRIES.items()}
OF_MANY = [it for it in dict.fromkeys(WORDS.values()) if sum(it in used for used in USED.values()) >= MANY]
OF_MANY.sort(key=lambda word: word.head.lower())
HEAD = """A word that isn't explained below a contract is explained at the end, or among the [words of many
groups](../API.md#words-of-many-groups) or the [words of others](../API.md#words-of-others).

"""


def source_link(text, place, page):
    """A link to the line where a word or a call is."""
    return f"[{text}]({'../' * page.count('/')}crates/{place.path}#L{place.line})"


def said(word, link):
    """A list item that says what a word means."""
    means = [word.said, f"A contract sees it as `{word.seen}`." if word.seen and "contract sees" not in word.said else ""]
    return f"- {': '.join(filter(None, [link, ' '.join(filter(None, means))]))}\n"


def told(word, page):
    """What a page says about a word: how it is written, what its comment says, and what it is made of."""
    line = said(word, source_link(f"`{word.head}`", word, page))
    members = [f"{member.split('.')[1]} = {value}" for member, value in members_of(word).items()]
    members = "\n".join(dict.fromkeys(re.sub(r"^(\w+) = λ ([^.]*)\. ", r"\1 \2 = ", it) for it in members))
    shown = "\n\n".join(filter(None, [displayed(word), members]))
    return line + (f"\n{textwrap.indent(block(shown), '  ').rstrip()}\n" if shown else "")


def comment(text):
    """A comment as a page has it: its paragraphs, each in a line, and its examples, as code."""
    paragraphs, examples = "", ""
    for part in re.split(r"(^```rust\n.*?^```$)", text, flags=re.MULTILINE | re.DOTALL):
        if part.startswith("```"):
            examples += f"{part}\n\n"
        else:
            lines = [re.sub(r"\n(?!- )", " ", it) for it in re.split(r"\n{2,}", part.strip("\n"))]
            paragraphs += "".join(re.sub(r"^# (.*)", r"**\1**", it) + "\n\n" for it in lines if it)
    return paragraphs, examples


def is_told(group, word, far, above):
    """Whether a call of a group explains a word that is so far. `above` has the words that a call above it explains."""
    pinned = PINNED.get(group, "").split()
    if word in above:
        return word.name in EACH and group in PINNED and far <= 2
    near = group in WHOLE or far <= (NEAR_TYPES if word.kind in TYPES else NEAR)
    return word.name in pinned or near and word not in OF_MANY


def bounds_text(call):
    """The bounds of a call's impl, if they are more than the usual ones, and the stores that meet them."""
    told, head = [], call.outer if call.outer.startswith("impl<") else ""
    for bound in re.findall(r"(?<!')\b\w+: (?:[^<>,]|<(?:[^<>]|<[^<>]*>)*>)+", head):
        traits = {*re.findall(r"\w+", re.sub(r"<[^>]*>", "", bound))} & {*TRAITS} if bound.startswith("S: ") else ()
        stores = [f"`{store}`" for store, its in STORES.items() if traits and traits <= {*its}]
        told += [f"`{bound}`" + (f" (over {', '.join(stores)})" if stores else "")] if bound not in USUAL else []
    return f"Bounds: {', '.join(told)}.\n\n" if told else ""


def words_text(it, group, above):
    """What a page says about the words of a call. `above` has a link to what explains a word already."""
    text, types, elsewhere = "", [], []
    for word, far in it.words.items():
        link = f"[`{word.name if word.kind in TYPES else word.head}`]({above.get(word)})"
        if is_told(group, word, far, above):
            text += told(word, page_of(group))
            above[word] = f"#{slug(it.title)}"
        elif word in above and (far or it.call.owner in (word.name, word.head.split(".")[0])):
            pass
        elif word in above:
            types += [link] if word.kind in TYPES else []
            text += "" if word.kind in TYPES else said(word, link)
        elif far == 0:
            elsewhere.append(source_link(f"`{word.name}`", word, page_of(group)))
    text += f"- {', '.join(types)}\n" if types else ""
    text += f"- Explained [once](../API.md#words-of-many-groups), or at the end: {', '.join(elsewhere)}\n" if elsewhere else ""
    text = f"Its words:\n\n{text}\n" if text else ""
    return f"<details><summary>Its words, most of them for proofs by hand</summary>\n\n{text}</details>\n\n" if it.title in FOLDED else text


def entry(it, group, above):
    """The text of a call in the page of a group."""
    paragraphs, examples = comment(it.call.comment)
    shared = example_of(it.call).rstrip("\n")
    # An example of several calls stands at the first of them.
    if not examples and shared and shared not in above:
        above[shared], examples = f"#{slug(it.title)}", block(shared, "rust")
    link = source_link(f"`{it.call.path.replace('/src/', '/')}`", it.call, page_of(group))
    contracts = block(TWINS.join(it.contracts))
    return f"## {it.title}\n\n{paragraphs}{bounds_text(it.call)}{link}:\n\n{contracts}{examples}{words_text(it, group, above)}"


def listed(title, words, page):
    """A list of words under a title, or nothing if there are none."""
    text = "".join(told(word, page) for word in sorted(words, key=lambda word: word.head.lower()))
    return f"## {title}\n\n{text}\n" if text else ""


def explained(group):
    """A link to what the page of a group explains, by word."""
    above, page = {}, f"{slug(group)}.md"
    for it in ENTRIES[group]:
        entry(it, group, above)
    return {word: page + above.get(word, "#words-of-these-definitions") for word in USED[group] if word not in OF_MANY}


def page_text(group):
    page, above = page_of(group), explained(BELOW[group]) if group in BELOW else {}
    text = f"# {group}\n\n{START}\n{HEAD}" if ENTRIES[group] else f"# {group}\n\n{START}\n"
    text += f"The words of [{BELOW[group]}]({slug(BELOW[group])}.md) are explained there.\n\n" if group in BELOW else ""
    text += "".join(entry(it, group, above) for it in ENTRIES[group])
    # The other types and traits that the sources of the group export.
    paths = {f"{source.replace('/', '/src/', 1)}.rt": source for source in sources_of(group)}
    types = [it for it in dict.fromkeys(WORDS.values()) if it.kind in TYPES and it.path in paths and it not in (*OF_MANY, *above)]
    types = [it for it in types if exported(it.path.split("/")[0])(paths[it.path], it.name)]
    text += listed("Other types", types, page)
    impls = []
    # The heads of the impls of others' traits, each after its comment, with what iterators return.
    for head, _, said, gives in (it for source in sources_of(group) for it in IMPLS.get(source, ())):
        impls += textwrap.wrap(said, 120, initial_indent="/// ", subsequent_indent="/// ")
        impls += [head, *(f"    {it}" for it in gives)]
    lines = "\n".join(impls)
    text += f"## Traits of others\n\n{block(lines)}" if impls else ""
    text += listed("Words of these definitions", USED[group] - {*OF_MANY, *above, *types}, page)
    return re.sub(r"\n{3,}", "\n\n", text).rstrip("\n") + "\n"


def index_text():
    """The generated part of docs/API.md: an index by groups, and the words that many groups use."""
    text = START + "\n" + "".join(f"- [{group}](#{slug(group)})\n" for group in GROUPS)
    for group, entries in ENTRIES.items():
        target = page_of(group).removeprefix("docs/")
        text += f"\n### [{group}]({target})\n\n"
        rows = [(f"[{it.title}]({target}#{slug(it.title)})", it.sentence.replace("|", "\\|")) for it in entries]
        text += "| Call | What it does |\n|---|---|\n" * bool(rows) + "".join(f"| {call} | {said} |\n" for call, said in rows)
        traits = dict.fromkeys(f"`{it}`" for source in sources_of(group) for _, traits, *_ in IMPLS.get(source, ()) for it in traits)
        text += f"\nTraits of others: {', '.join(traits)}.\n" if traits else ""
    text = re.sub(r"\n{3,}", "\n\n", text)
    return f"{text}\n## Words of many groups\n\n" + "".join(told(it, INDEX) for it in OF_MANY) + END
