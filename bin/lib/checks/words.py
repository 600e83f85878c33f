"""The words that contracts use: our definitions, each with its comment, its line, how it is written and what it is made of."""
import re
import textwrap

from lib.checks.sources import LIBRARIES, NOT_LISTED, RUST, SPECS, said_above

# A definition of a specs file, the head of a module with its parameters, and what a file imports.
ITEM = re.compile(r"( *)(?:abbrev |unfoldable )*pub (record |data )?([^\s:]+)")
MODULE = re.compile(r" *module _ (.*?)where$", re.DOTALL)
IMPORT = re.compile(r"^ *(?:ghost )?use (?:Rattle\.)?([\w.]+?)(?:\.\{([^}]*)\}| as (\w+));?$", re.MULTILINE)
# An argument in a case of a definition, and a variable.
PATTERN = re.compile(r"\((?:[^()]|\([^()]*\))*\)|\{[^}]*\}|\S+")
VARIABLE = re.compile(r"(?<![\w.'])(?:[a-z][\w']*|[A-Z]['₀-₉]?)(?![\w.])")
# An item of a source that a signature can name, and a ghost member of a trait.
TYPE = re.compile(
    r"^pub (?P<kind>struct|enum|type|trait|const) (?P<name>\w+)(?P<rest>[^;{]*)(?P<inside>;|\{\}|\{\n.*?^\})$", re.MULTILINE | re.DOTALL
)
MEMBER = re.compile(
    r"^    (?:type (?P<type>\w+)[^;{]*|ghost (?P<name>\w+): \{ (?P<of>.*?) \}(?: = \{.*?\})?);", re.MULTILINE | re.DOTALL
)
# A ghost member in an impl, with its value.
GHOST = re.compile(r"^    ghost (\w+) = \{ (.*?) \};", re.MULTILINE | re.DOTALL)


class Word:
    """A definition: its file and line, its kind and name, how it is written with its arguments, its comment, and its lines.

    If it is a type, `seen` is what a contract sees of it, and `ghosts` are the ghost members of its impls, as PairSource.gives.
    """

    def __init__(self, path, line, kind, name, head, said, shown, seen=""):
        self.kind, self.seen = kind, seen
        self.path, self.line, self.name, self.head, self.said, self.shown = path, line, name, head, said, shown
        self.ghosts = {}

    def names(self):
        """The name of the word, and those of its cases."""
        return [self.name, *re.findall(r"^(\w+) : ", self.shown if self.kind == "data" else "", re.MULTILINE)]


def indent(line):
    return len(line) - len(line.lstrip())


def explicit(text):
    """The names of the parameters in a header that each use has to pass: those in parentheses."""
    return " ".join(re.findall(r"\(([\w' ]+) : ", re.sub(r"\{[^{}]*\}", "", text))).split()


def argument(patterns, known):
    """A name for an argument of a definition that has these patterns in its cases. The known names are no variables."""
    plain = [it for it in patterns if VARIABLE.fullmatch(it) and it not in known]
    inside = [name for it in patterns for name in VARIABLE.findall(it) if name not in known]
    is_result = any(re.match(r"\((?:Ok|Err)\b", it) for it in patterns)
    return patterns[0] if len(patterns) == 1 else plain[0] if plain else "r" if is_result else inside[-1] if inside else "_"


def arguments(cases, known):
    """Names for the arguments of a definition, by its cases."""
    found = []
    for patterns in zip(*([it for it in PATTERN.findall(case.split(" =")[0])[1:] if it[0] != "{"] for case in cases)):
        name = argument(patterns, known)
        found.append(f"{name}'" if name in found else name)
    return found


def end_of(lines, at, name):
    """The line after the definition that begins at a line."""
    depth, end = indent(lines[at]), at + 1
    while end < len(lines) and (indent(lines[end]) > depth or re.match(rf"\s*(?:$|{re.escape(name)} )", lines[end])):
        end += 1
    while not lines[end - 1].strip():
        end -= 1
    return end


def spec_word(path, lines, at, end, outer):
    """The word of a definition in a specs file, within modules that have these parameters."""
    kind, name = ITEM.match(lines[at]).groups()[1:]
    text = textwrap.dedent("\n".join(lines[at:end]))
    if kind:
        head, _, inside = text.partition("where\n")
        parameters = explicit(re.split(r" : Type 0\s*$", head.split(name, 1)[1])[0])
        shown = re.sub(r"^( *)pub ", r"\1", textwrap.dedent(inside), flags=re.MULTILINE).rstrip()
    else:
        typed, *cases = re.split(rf"^(?={re.escape(name)} )", text, flags=re.MULTILINE)
        known = {it for _, names, _ in IMPORT.findall("\n".join(lines)) for it in re.split(r",\s*", names)}
        parameters = arguments(cases, known) or explicit(typed.partition(" :")[2])
        shown = "".join(cases).rstrip()
    return Word(path, at + 1, (kind or "").strip(), name, " ".join([name, *outer, *parameters]), said_above(lines[:at]), shown)


def spec_words(path, text):
    lines, modules, at = text.splitlines(), [], 0
    while at < len(lines):
        line, end = lines[at], at + 1
        if line.strip() and not line.lstrip().startswith("--"):
            modules = [it for it in modules if it[0] < indent(line)]
        if line.lstrip().startswith("module _"):
            while not lines[end - 1].endswith("where"):
                end += 1
            modules.append((indent(line), explicit(MODULE.match("\n".join(lines[at:end]))[1])))
        elif found := ITEM.match(line):
            end = end_of(lines, at, found[3])
            yield spec_word(path, lines, at, end, [name for _, names in modules for name in names])
        at = end


def type_word(path, text, found):
    """The word of a type or a trait of a source. It shows what a user can name, and of a model what a contract sees."""
    line = text.count("\n", 0, found.start())
    shown = re.sub(r"^ *#\[.*\n", "", found[0], flags=re.MULTILINE)
    is_shown = found["kind"] in ("enum", "type", "const") or found["kind"] == "struct" and "pub " in found["rest"] + found["inside"]
    said = said_above(text.splitlines()[:line])
    model = re.search(rf"Model for {found['name']}\b(?:(?!^\}}).)*?ghost Value = \{{ (.*?) \}};", text, re.DOTALL | re.MULTILINE)
    seen = model[1] if model else ""
    word = Word(path, line + 1, found["kind"], found["name"], found["name"], said, shown if is_shown else "", seen)
    for impl in re.finditer(rf"^impl\b[^{{]*?\b(\w+)(?:<[^{{]*>)? for {found['name']}\b[^{{]*\{{(\n.*?^\}})", text, re.DOTALL | re.MULTILINE):
        word.ghosts |= {f"{impl[1]}.{name}": value for name, value in GHOST.findall(impl[2])}
    return word


def rust_words(path, text):
    """The words of a source, by their keys: its types and traits by their names, and the ghost members of these traits."""
    lines = text.splitlines()
    for found in TYPE.finditer(text):
        yield found["name"], type_word(path, text, found)
        for member in MEMBER.finditer(found["inside"]) if found["kind"] == "trait" else ():
            line = text.count("\n", 0, found.start("inside") + member.start())
            name = member["name"] or member["type"]
            head, shown = f"{found['name']}.{name}", f"{name} : {' '.join(member['of'].split())}" if member["of"] else ""
            yield head, Word(path, line + 1, "member", name, head, said_above(lines[:line]), shown)


# All words of the libraries: those of specs by their modules, as litemap.specs.Changes.Inserts, and those of sources.
WORDS = {}
for path, text in (SPECS | RUST).items():
    crate, folder, rest = path.split("/", 2)
    if crate in LIBRARIES and folder == "specs":
        module = f"{crate}.specs.{rest.removesuffix('.antt').replace('/', '.')}"
        WORDS |= {f"{module}.{name}": it for it in spec_words(path, text) for name in it.names()}
    elif crate in LIBRARIES and f"{crate}/{rest.removesuffix('.rt')}" not in NOT_LISTED:
        # Of two items of one name it is the one below, in the order of crates.
        WORDS = dict(rust_words(path, text)) | WORDS
