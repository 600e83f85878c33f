"""What the names in contracts and definitions mean: which of our words, or another's."""
import re

from lib.checks.sources import RUST, SPECS
from lib.checks.words import IMPORT, WORDS
from lib.shared import CRATES

# A name with its parts, as a contract writes it, and the names that a contract binds.
NAME = re.compile(r"(?<![\w.'-])(?:⟦<[^⟧]*⟧|[^\W\d][\w'-]*)(?:\.[^\W\d][\w'-]*)*")
BOUND = re.compile(r"λ ([^.]*)\.|\(([\w' ]+) : ")
# The modules of the logic's own language: a definition that uses them tells a reader of a page nothing.
INNER = re.compile(
    r"(?:denote\.Param|mir|mathlib|std\.proofs|std\.specs\.(?:Borrow|BTreeMap)|json\.specs\.(?!Print)|serde\.specs|\w+\.specs\.contracts)\b"
)
TRAITS = {name: text for text in RUST.values() for name, text in re.findall(r"^pub trait (\w+)([^{]*)", text, re.MULTILINE)}


def supers(trait):
    """A trait of ours, and its supertraits."""
    return [trait, *(it for name in re.findall(r"\w+", TRAITS[trait]) if name in TRAITS for it in supers(name))]


def own_key(module, name):
    """The key of what a module has under a name, or None if it isn't ours."""
    if module.split(".")[0] not in CRATES:
        return None
    if module.endswith(".specs"):
        return next((key for key in WORDS if key.startswith(f"{module}.") and key.endswith(f".{name}")), name)
    declared = re.search(r"\.declared\..*?\b([A-Z]\w*)(?:\.TheVariants)?$", module)
    return declared[1] if declared else f"{module}.{name}"


class Scope:
    """What names mean in a file: those that it imports, and those that it defines."""

    def __init__(self, path, text):
        self.modules = {}
        for module, names, alias in IMPORT.findall(text):
            self.modules |= dict.fromkeys(filter(None, [*re.split(r",\s*", names.strip()), alias]), module)
        crate, _, rest = path.removesuffix(".antt").split("/", 2)
        self.own = f"{crate}.specs.{rest.replace('/', '.')}" if path.endswith(".antt") else ""

    def key(self, name, bounds):
        """The key of the word that a name means, if its first part may have these traits as bounds."""
        first, *rest = re.sub(r"⟦<.* as (\w+)>⟧", r"\1", name).split(".")
        if first in self.modules:
            return own_key(self.modules[first], first)
        traits = [it for bound in bounds.get(first if rest else "Self", ()) for it in supers(bound)]
        traits += [first, *(TRAITS if len(rest) > 1 and first[0].isupper() else ())]
        keys = [f"{self.own}.{first}", *(f"{trait}.{(rest or [first])[-1]}" for trait in traits)]
        return next((key for key in keys if key in WORDS), None)

    def used(self, text, bounds):
        """The names that a text uses and doesn't bind, each with the key of its word, or with None if the word isn't ours."""
        text = re.sub(r"(?:--|//).*", "", text)
        bound = {name for names in BOUND.findall(text) for name in " ".join(names).split()}
        for name in dict.fromkeys(NAME.findall(text)):
            if name.split(".")[0] not in {*bound, "λ"}:
                yield name, self.key(name, bounds)


SCOPES = {path: Scope(path, text) for path, text in (SPECS | RUST).items()}


def types_in(text):
    """The keys of our types that a signature names."""
    return [name for name in dict.fromkeys(re.findall(r"\b[A-Z]\w*", text)) if name in WORDS]


def bounds_of(text):
    """Our traits that a head names as bounds, by the parameters."""
    parts = re.split(r"\b([A-Z]\w*): ", text)
    return {name: [it for it in re.findall(r"\w+", bound) if it in TRAITS] for name, bound in zip(parts[1::2], parts[2::2])}


def is_hidden(word):
    """Whether only the comment of a definition is shown: if it is in the logic's own language, or uses a private definition."""
    scope, text = SCOPES[word.path], (SPECS | RUST)[word.path]
    private = re.findall(r"^ *(?:abbrev |unfoldable )*(?!pub |module )(\w+) :", text, re.MULTILINE)
    names = [name.split(".")[0] for name in NAME.findall(word.shown)]
    private = [name for name in private if f"{scope.own}.{name}" not in WORDS]
    return not word.kind and any(name in private or INNER.match(scope.modules.get(name, "")) for name in names)


def members_of(word):
    """The ghost members of our traits that a type has, with their values, except laws, which have no comment."""
    return {it: value for it, value in word.ghosts.items() if it in WORDS and WORDS[it].said and not it.endswith(f".{value}")}


def names_in(word):
    """The names in what a definition shows, with the keys that they mean."""
    if word.path.endswith(".rt"):
        of_types = [(name, name) for name in types_in(word.shown) if name != word.name]
        seen = "\n".join([word.seen, *members_of(word).values()])
        return of_types + [*SCOPES[word.path].used(seen, {})] if word.kind != "member" else []
    shown = re.sub(r"^\w+ :", "", word.shown, flags=re.MULTILINE) if word.kind else word.shown
    return [(name, key) for name, key in SCOPES[word.path].used(shown, {}) if name not in word.head.split()]


def closure(keys):
    """The words of these keys, and those that their definitions use, with their distance: 0 for those of the keys."""
    found, new = {}, [(key, 0) for key in keys]
    while new:
        key, far = new.pop(0)
        word = WORDS.get(key)
        if word and word not in found:
            found[word] = far
            new += [(it, far + 1) for _, it in names_in(word) if it]
    return found


def displayed(word):
    """What a page shows of a definition: its lines, with only the names of variants."""
    aliases = [name for name, module in SCOPES[word.path].modules.items() if module.endswith(".TheVariants") and name.islower()]
    return re.sub(rf"\b(?:{'|'.join(aliases)})\.(?=[A-Z])", "", word.shown) if aliases else word.shown


# A hidden definition shows the lemmas that are its equations, as digits-zero, in the file that has it.
for it in filter(is_hidden, WORDS.values()):
    lemma = rf"^ *pub {re.escape(it.name)}-\w+ : (.*\b{re.escape(it.name)} .* ≡ .*)$"
    it.shown = "\n".join(re.findall(lemma, (SPECS | RUST)[it.path], re.MULTILINE))
