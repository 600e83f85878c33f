"""The sources: the calls of the libraries with their contracts, and the traits of others that their types implement."""
import itertools
import re
import textwrap

from lib.shared import CRATES, TOP

LIBRARIES = [name for name in CRATES if not name.startswith(("test_", "example_"))]
# The libraries and the sources that have no call for the pages, and why.
NOT_LISTED = {
    "names_main": "its `main` hands on `run`",
    "names/fail_at": "a reader and a writer for tests",
    "names/flags": "an example of a caller of litemap_json",
}
# The head of an item, up to its contract or its body.
ITEM = re.compile(
    r"^(?P<set_in> *)(?P<head>(?:pub (?:fn|trait|struct|enum)|fn|final fn|impl)\b[^{;]*?)(?=\s*(?:\brequires\b|\bensures\b|\{|;))",
    re.MULTILINE,
)


def texts(pattern):
    """The texts of files, by their paths in crates/."""
    files = sorted((TOP / "crates").glob(pattern))
    return {it.relative_to(TOP / "crates").as_posix(): it.read_text(encoding="utf-8") for it in files}


def examples_of(text):
    """The blocks of Rust in the `///` of a source: the comment of each, its code, and whether that begins with an item."""
    for comment in re.finditer(r"(?:^ *///.*\n)+", text, re.MULTILINE):
        inside = re.sub(r"^ */// ?", "", comment[0], flags=re.MULTILINE)
        for block in re.findall(r"^```rust\n(.*?)^```$", inside, re.MULTILINE | re.DOTALL):
            yield comment, block, re.match("///|fn |impl |pub ", block) and "\n// ...\n" not in block


def squeezed(text):
    """A head as one line, without its comments."""
    text = re.sub(r"\s+", " ", re.sub(r"//[^\n]*", "", text)).strip()
    return re.sub(r",? ([)>])", r"\1", re.sub(r"([(<]) ", r"\1", text)).rstrip(",")


def comment_above(lines):
    """The comment in the last of the lines above an item."""
    said = [*itertools.takewhile(lambda line: re.match(r" *(///|--(?! ----)|#\[)", line), reversed(lines))][::-1]
    return "\n".join(re.sub(r"^ *(?:///|--) ?", "", line) for line in said if not re.match(r" *#\[", line))


def said_above(lines):
    """The comment above an item as one line, without its examples."""
    return " ".join(re.sub(r"```.*?```", "", comment_above(lines), flags=re.DOTALL).split())


class Function:
    """A function: its source and line, the item around it, its name, its head with its clauses, and the comment above it."""

    def __init__(self, source, outer, text, found):
        rest = text[found.end() :]
        is_bare = re.match(r"\s*[{;]\n", rest)
        end = 0 if is_bare else re.search(rf"\s*(?:^{found['set_in']}\{{\}}?|;)$", rest, re.MULTILINE).start()
        self.contract = textwrap.dedent(found["set_in"] + found["head"] + rest[:end])
        self.head = re.split(r"\n\s*(?:where|requires|ensures)\b", self.contract)[0]
        self.bounds = " ".join(re.findall(r"^\s*\w+: .*,$", self.contract.partition("\nwhere\n")[2], re.MULTILINE))
        self.source, self.outer, self.name = source, outer, re.search(r"fn (\w+)", self.head)[1]
        owner = re.match(r"pub trait (\w+)|impl(?:<.*?>)? (\w+)(?:<.*>)?\s*(?:where.*)?$", outer)
        # The type or trait that it is a call of, "" for a function of a module, None for one of a trait that a type implements.
        self.owner = "" if not outer else owner[1] or owner[2] if owner and " for " not in outer else None
        self.label = f"{self.owner}::{self.name}" if self.owner else self.name
        self.is_public = "pub fn" in self.head or outer.startswith("pub trait")
        self.path, self.line = source.replace("/", "/src/", 1) + ".rt", text.count("\n", 0, found.start()) + 1
        self.comment = comment_above(text[: found.start()].splitlines())
        self.examples = re.findall(r"^```rust\n(.*?)^```$", self.comment, re.MULTILINE | re.DOTALL)


def functions_of(source, text):
    """The functions of a source, except those within functions."""
    outer = ""
    for found in ITEM.finditer(text):
        if not found["set_in"]:
            outer = "" if " fn " in f" {found['head']} " else squeezed(found["head"])
        if re.search(r"\bfn \w", found["head"]) and len(found["set_in"]) == (4 if outer else 0):
            yield Function(source, outer, text, found)


def exported(library):
    """A function that says whether a user of a library can name an item, by the item's source and name."""
    files = "\n".join(text for path, text in RUST.items() if path.startswith(f"{library}/"))
    names = {*re.findall(r"\w+", " ".join(re.findall(r"^pub use ([^;]*);", files, re.MULTILINE)))}
    modules = {"lib", *re.findall(r"^pub mod (\w+);", RUST.get(f"{library}/src/lib.rt", ""), re.MULTILINE)}
    return lambda source, name: source.partition("/")[2] in modules or name in names


def library_calls(library):
    """The calls of a library that a user can name, by source, each listed once."""
    is_exported = exported(library)
    for source in [it for it in FUNCTIONS if it.startswith(f"{library}/")]:
        found = [it for it in FUNCTIONS[source] if it.is_public and it.owner is not None]
        found = [it for it in found if is_exported(source, it.owner or it.name)]
        yield source, list({it.label: it for it in found[::-1]}.values())[::-1]


def impls_of(text):
    """The heads of the impls of others' traits in a source for types that are public, each with the trait's name in a list, its
    comment, and what it says that the calls of an iterator return."""
    for found in re.finditer(r"^(impl\b[^{]*?)\s*\{(\}|\n.*?^\})", text, re.MULTILINE | re.DOTALL):
        head = squeezed(found[1])
        trait = re.match(r"impl(?:<.*?>)? (?:\w+::)?(\w+)(?:<.*>)? for ", re.sub(r"^impl<(?:[^<>]|<[^<>]*>)*>", "impl", head))
        subject = re.search(r" for (\w+)", head)
        hidden = subject and re.search(rf"^pub\(crate\) (?:enum|struct) {subject[1]}\b", text, re.MULTILINE)
        if trait and trait[1] not in OWN_TRAITS and not hidden:
            gives = re.findall(r"ghost next\w*_gives = .*;", found[2])
            yield head, [trait[1]], said_above(text[: found.start()].splitlines()), gives


def derived_of(text):
    """The traits that the public types of a source derive, in the same form."""
    for found in re.finditer(r"((?:^#\[derive.*\n)+)(pub (?:enum|struct) \w+)", text, re.MULTILINE):
        # After a `;` stand the types that these traits are required of.
        traits = [it for it in re.findall(r"\b[A-Z]\w+", re.sub(r";.*", "", found[1])) if it != "Drop"]
        if traits:
            yield f"#[derive({', '.join(traits)})] {found[2]}", traits, "", []


RUST, SPECS, PROOFS = texts("*/src/**/*.rt"), texts("*/specs/**/*.antt"), texts("*/proofs/**/*.antt")
OWN_TRAITS = {"Model", *re.findall(r"^(?:pub(?:\([a-z]+\))? )?trait (\w+)", "\n".join(RUST.values()), re.MULTILINE)}
# The sources of the libraries, as litemap/map/look: their functions, calls, and impls of others' traits.
SOURCES = {it.replace("/src/", "/").removesuffix(".rt"): text for it, text in RUST.items() if it.split("/")[0] in LIBRARIES}
FUNCTIONS = {source: [*functions_of(source, text)] for source, text in SOURCES.items()}
CALLS = {source: calls for library in LIBRARIES for source, calls in library_calls(library)}
LISTED = [(source, call) for source, calls in CALLS.items() for call in calls]
IMPLS = {source: [*impls_of(text), *derived_of(text)] for source, text in SOURCES.items()}
# The examples of the libraries, each after its source and the type whose calls it shows: first those above a type, a trait or an
# impl of its own calls, then those of calls.
EXAMPLES = []
for source, text in SOURCES.items():
    for comment, block, _ in examples_of(text):
        item = re.match(r"(?:#\[.*\n)*(?:pub (?:struct|enum|trait) (\w+)|impl(?:<.*?>)? (\w+)[<{ ])", text[comment.end() :])
        EXAMPLES += [(source, item[1] or item[2], block)] if item else []
EXAMPLES += [(source, call.owner, block) for source, call in LISTED for block in call.examples]


def example_of(call):
    """The example of a call: its own, else the first of its type that makes it, or, if no other type has a call of its name, the
    first of its library, but one of its source if there is one; "" if there is none."""
    library = call.source.split("/")[0]
    named = {it.owner for source, it in LISTED if source.startswith(f"{library}/") and it.name == call.name}
    near = sorted((it for it in EXAMPLES if it[0].startswith(f"{library}/")), key=lambda it: it[0] != call.source)
    above = r"(?:\.|\b[A-Z]\w*(?<!Store)(?<!Vec)(?:::<[^(]*>)?::)" if call.owner else r"(?<![.:\w])"
    makes = re.compile(rf"{above}{call.name}(?:::<[^(]*>)?\(")
    found = [block for _, owner, block in near if makes.search(block) and (owner == call.owner or len(named) == 1)]
    return [*call.examples, *found, ""][0]
