"""Texts that `read_json` reads: the rows `TYPES TEXT`, those of a part that is repeated, and those of many texts, with the output of each.

The model has a tokenizer of its own, reads the tokens as they come, as `read_json` does, and also makes their tree, which it reads as
`from_json` does. No output comes from the program itself.
"""
import itertools
import json
import pathlib
import re
import runpy

JSON = runpy.run_path(str(pathlib.Path(__file__).resolve().parent / "json_rows.py"))
LEVELS, NO_VALUE = {"low": 0, "middle": 1, "high": 2}, "no JSON value stands there"
RANGES = JSON["WHOLE"] | {"even": JSON["WHOLE"]["u32"]}
# The types of keys and of items, by the names of rows.
TYPES = {name: (name, name) for name in [*JSON["WHOLE"], "bool", "text"]} | {
    "falling": ("falling", "text"), "flags": ("bool", "u32"), "words": ("u32", "text"), "evens": ("even", "text"),
    "tongues": (("u32", "text"), "text"), "levels": ("level", "u32"), "senders": ("text", "level"),
    "nested": ((("u8", "bool"), "text"), ("u32", ("bool", "i8"))),
}

# What errors of `read_json` say, of an index and why, each with what it says as an error of std's.
NOT_A_MAP = "a map is an object or an array of [key, item] arrays, and the text begins with neither; a JSON text is no map"
AFTER_MAP = "something follows the map; something follows a map in JSON"
no_name = "neither a name nor the closing brace stands at place {} (from 0); a name is missing in JSON".format
not_a_pair = f"{JSON['not_a_pair']('{}')}; an element in JSON is not a key and an item".format
key_text = "the name of the member at place {} (from 0, in the text's order) is not a key's text; a name in JSON is not a key's text".format
key = "the key at place {} (from 0): {}; a key in JSON is not of its type".format
item = "the item at place {} (from 0, in the text's order): {}; an item in JSON is not of its type".format


class Fault(Exception):
    pass


def part(told, place, made, *words):
    """What a call returns. If it is an error, it is the reason of one at an index."""
    try:
        return made(*words)
    except Fault as why:
        raise Fault(told(place, why))


SPACE, UNIT = re.compile(r"[ \t\n\r]*"), "[0-9a-fA-F]{2}"
WORD = re.compile(r"(true|false|null|-?(?:0|[1-9][0-9]*)(?:\.[0-9]+)?(?:[eE][+-]?[0-9]+)?)(?=[]{}[:, \t\n\r]|\Z)")
ESCAPE = re.compile(rf'\\(?:["\\/bfnrt]|u[dD][89abAB]{UNIT}\\u[dD][c-fC-F]{UNIT}|u(?![dD][89a-fA-F]){UNIT}{UNIT})')
STRING = re.compile(rf'"((?:[^"\\\x00-\x1f]|{ESCAPE.pattern})*)"')
SHORT, WORDS = dict(zip("bfnrt", "\b\f\n\r\t")), {"true": True, "false": False, "null": None}


def unescaped(found):
    escape = found[0]
    return bytes.fromhex(escape.replace("\\u", "")).decode("utf-16-be") if escape[1] == "u" else SHORT.get(escape[1], escape[1])


def value_of(word):
    """What a number or another word spells. A number is a float as in `serde_json`."""
    is_held = re.fullmatch("-?[0-9]{1,20}", word) and word != "-0" and -(2**63) <= int(word) < 2**64
    return WORDS[word] if word in WORDS else int(word) if is_held else float(word)


def tokens(text):
    """The tokens of a text, each with its value, up to the first error, which is one too. Where a value may stand, so may a name."""
    at, may_begin, may_close = SPACE.match(text).end(), True, True
    while at < len(text):
        string, word, first = STRING.match(text, at), WORD.match(text, at), text[at]
        after = SPACE.match(text, string.end() if string else word.end() if word else at + 1).end()
        is_name = string and text[after : after + 1] == ":"
        if not (may_close if first in "]}" else may_begin and (string or word or first in "[{")):
            break
        if is_name or first in "[{":
            yield ("name", ESCAPE.sub(unescaped, string[1])) if string else (first, None)
            at, may_begin, may_close = SPACE.match(text, after + 1).end() if string else after, True, True
            continue
        yield ("value", ESCAPE.sub(unescaped, string[1]) if string else value_of(word[1])) if string or word else (first, None)
        may_begin = text[after : after + 1] == ","
        at, may_close = SPACE.match(text, after + may_begin).end(), not may_begin
    if at < len(text) or not may_close:
        yield "bad", None


class Reader:
    def __init__(self, text):
        self.tokens = tokens(text)
        self.coming = next(self.tokens, ("end", None))

    def next(self, *kinds):
        """The next token, which is of one of these kinds."""
        found, self.coming = self.coming, next(self.tokens, ("end", None))
        if found[0] not in kinds:
            raise Fault(NO_VALUE)
        return found

    def closes(self):
        return self.coming[0] == "]" and bool(self.next("]"))

    def tree(self, depth):
        """The tree of the next value, which nests no deeper than this."""
        kind, value = self.next("value", "[", "{")
        if value in (float("inf"), -float("inf")) or kind != "value" and not depth:
            raise Fault(NO_VALUE)
        if kind == "[":
            value = []
            while not self.closes():
                value.append(self.tree(depth - 1))
        elif kind == "{":
            value = {}
            while (name := self.next("name", "}")[1]) is not None:
                value[name] = self.tree(depth - 1)
        return value


def tree_of(text):
    """The tree of a whole text."""
    reader = Reader(text)
    tree = reader.tree(127)
    reader.next("end")
    return tree


def read(of, tree):
    """What a tree is read as at a type."""
    if of in RANGES:
        if isinstance(tree, bool) or not isinstance(tree, (int, float)):
            raise Fault(JSON["SHAPE"])
        least, most = RANGES[of]
        if isinstance(tree, float) or not least <= tree <= most:
            raise Fault(JSON["FLOAT" if isinstance(tree, float) else "RANGE"])
    elif isinstance(of, tuple):
        if not isinstance(tree, list) or len(tree) != 2:
            raise Fault(JSON["SHAPE"])
        return tuple(map(read, of, tree))
    elif not isinstance(tree, bool if of == "bool" else str) or of == "level" and tree not in LEVELS:
        raise Fault(JSON["SHAPE"])
    return tree


def taken(of, reader, depth):
    """What the next tokens are read as at a type. Some types are read by way of a tree."""
    if of in ("even", "level", "falling"):
        return read(of, reader.tree(depth))
    kind, value = reader.next("value", "[", "{")
    return two(of, reader, depth - 1) if isinstance(of, tuple) and kind == "[" else read(of, value)


def two(types, reader, depth, not_two=lambda *_: JSON["SHAPE"], told=[lambda _, why: why] * 2, place=0):
    """The two values of an array, of which the first bracket was taken, each read at its type."""
    found = []
    for of, fault in zip(types, told):
        if reader.closes():
            raise Fault(not_two(place))
        found.append(part(fault, place, taken, of, reader, depth))
    part(not_two, place, reader.next, "]")
    return tuple(found)


def named(of, name):
    """The key with this name, or none."""
    if of in RANGES:
        least, most = RANGES[of]
        number = int(name) if re.fullmatch("0|-?[1-9][0-9]{0,19}", name) else most + 1
        return number if least <= number <= most and not (of == "even" and number % 2) else None
    if of == "bool":
        return WORDS.get(name)
    return None if isinstance(of, tuple) or of == "level" and name not in LEVELS else name


def name_of(of, key):
    """The name of a key, or none."""
    return None if isinstance(of, tuple) or of == "even" and key % 2 else str(key).lower() if of == "bool" else str(key)


def order(of, key):
    """What the keys of a type are sorted by."""
    if isinstance(of, tuple):
        return tuple(map(order, of, key))
    if of == "falling":
        return (*(-byte for byte in key.encode()), 1)
    return LEVELS[key] if of == "level" else key.encode() if of == "text" else key


def row(types, reader, place):
    """The next pair of an array, or none at its end."""
    if reader.closes():
        return None
    part(not_a_pair, place, reader.next, "[")
    return two(types, reader, 125, not_a_pair, (key, item), place)


def member(types, reader, place):
    """The next pair of an object, or none at its end."""
    name = part(no_name, place, reader.next, "name", "}")[1]
    if name is None:
        return None
    if named(types[0], name) is None:
        raise Fault(key_text(place))
    return named(types[0], name), part(item, place, taken, types[1], reader, 126)


def pairs_in(types, text):
    """The pairs that `read_json` reads."""
    reader, pairs = Reader(text), []
    kind, _ = part(lambda *_: NOT_A_MAP, 0, reader.next, "[", "{")
    while pair := (member if kind == "{" else row)(types, reader, len(pairs)):
        pairs.append(pair)
    part(lambda *_: AFTER_MAP, 0, reader.next, "end")
    return pairs


def pairs_of(types, text):
    """The pairs that `from_json` reads of the tree of a text."""
    tree = part(lambda *_: "no JSON", 0, tree_of, text)
    if not isinstance(tree, (list, dict)):
        raise Fault(JSON["NOT_A_MAP"])
    pairs, is_array = [], isinstance(tree, list)
    for place, element in enumerate(tree if is_array else sorted(tree.items(), key=lambda it: it[0].encode())):
        if is_array and (not isinstance(element, list) or len(element) != 2):
            raise Fault(JSON["not_a_pair"](place))
        first = part(JSON["key"], place, read, types[0], element[0]) if is_array else named(types[0], element[0])
        if first is None:
            raise Fault(JSON["key_text"](place))
        pairs.append((first, part(JSON["item"], place, read, types[1], element[1])))
    return pairs


def compact(tree):
    return json.dumps(tree, ensure_ascii=False, separators=(",", ":"))


def written(types, pairs):
    """What the map of these pairs is written as."""
    last = {order(types[0], key): (key, item) for key, item in pairs}
    pairs = [last[it] for it in sorted(last)]
    names = [name_of(types[0], key) for key, _ in pairs]
    if None in names and names[0] is not None:
        return JSON["no_text"](names.index(None))
    if None not in names and names:
        pairs = dict(sorted(zip(names, (item for _, item in pairs)), key=lambda it: it[0].encode()))
    return compact(pairs)


def both(types, text):
    """What `read_json` makes of a text, and `from_json` of its tree."""
    found = []
    for pairs in (pairs_in, pairs_of):
        try:
            found.append(written(TYPES[types], pairs(TYPES[types], text)))
        except Fault as why:
            found.append(str(why))
    return found


def told(types, text):
    """A row with one text, and its output."""
    read, of_value = both(types, text)
    return f"{types} {text}", read if read == of_value else f"{read}; by its tree: {of_value}"


def swept(way, types, words, texts):
    """A row with many texts in bytes, and its output. Those that are no UTF-8 are left out."""
    checksum, maps, alike, count = 0xCBF29CE484222325, 0, 0, 0
    for text in texts:
        try:
            read, of_value = both(types, text.decode())
        except UnicodeDecodeError:
            continue
        count, maps, alike = count + 1, maps + (read[0] in "{["), alike + (read == of_value)
        for byte in (read + of_value).encode():
            checksum = (checksum ^ byte) * 0x100000001B3 % (1 << 64)
    return " ".join((way, types, *words)), f"{count} texts: {maps} maps, {alike} alike, checksum {checksum:016x}"


def cuts(types, text):
    return swept("cuts", types, [text], (text.encode()[:size] for size in range(len(text.encode()))))


def changes(types, text):
    data = text.encode()
    every = (data[:at] + bytes([new]) + data[at + 1 :] for at, old in enumerate(data) for new in range(256) if new != old)
    return swept("changes", types, [text], every)


def strings(types, most, head, tail, parts):
    every = (head + "".join(it[::-1]) + tail for size in range(most + 1) for it in itertools.product(parts, repeat=size))
    return swept("strings", types, (str(most), head, tail, *parts), map(str.encode, every))


def repeated(types, thousands, head, part, tail):
    row = " ".join(("repeated", types, str(thousands), head, part, tail))
    try:
        return row, f"{len(dict(pairs_in(TYPES[types], head + part * 1000 * thousands + tail)))} pairs"
    except Fault as why:
        return row, str(why)


def nested(before, after):
    return [before * depth + "1" * (before != "[") + after * depth for depth in (1, 124, 125, 126, 127, 128)]


# What stands where a key, a name or an item is wanted: values of each kind, strings with each escape, surrogates alone and in pairs,
# numbers at the limits of types and past them, spellings of JSON's neighbors, and arrays and objects that nest as deep as may be.
VALUES = ["null", "true", "false", "[]", "{}", "[1,true]", '[[1,true],"x"]', "[7,[false,-8]]"]
VALUES += [f'"{text}"' for text in (
    "low", "middle", "high", "", "1", "true", r"\u0031", r"\u006cow", r"\"\\\/\b\f\n\r\t", r"\u0000", r"\u00E9", "é", "😀", r"\ud83d\ude00",
    r"\uD83D\uDE00x", r"\ud83d", r"\ude00", r"\ud83dx", r"\ud83d\u0041", r"\ud83d\ud83d\ude00", r"\ude00\ud83d", r"\x", r"\u12",
    r"\u12g4", "\x01", "\x1f", "\x7f", "\ufeff", "\\", r"\u", "a\tb")]
VALUES += ['"', '"a', "'1'", "1.0", "1e2", "-0", "-0.0", "0.5", "1e400", "-1e400", "1e-400", "1e308", "01", "-01", "+1", ".5", "1.", "-"]
VALUES += ["1e", "1e+", "0x1", "1_0", "NaN", "Infinity", "truex", "nul", "TRUE", '1"a"', "1é", "/**/1", "\ufeff1", "\u00a01", "\x0b1"]
VALUES += ["1,", ",1", "1:", ":1", "1]", "1}", '"a":1', "9" * 40, "-" + "9" * 40, "1" + "0" * 400]
VALUES += [str(it) for least, most in JSON["WHOLE"].values() for it in (least - 1, least, most, most + 1)]
VALUES += [*nested("[", "]"), *nested('{"":', "}"), "[" * 200, '{"":' * 200]
NAMES = [f'"{it}"' for it in VALUES if '"' not in it] + [it for it in VALUES if it[0] == '"']
# A text of one pair or two at each type, of one shape or the other.
TEXTS = {
    "u8": "[[7,8],[0,255]]", "u16": '{"7":8,"0":65535}', "u32": "[[1,2],[1,3]]", "u64": '{"1":18446744073709551615}',
    "i8": '{"-1":8,"3":-128}', "i16": "[[-1,-10],[1,2]]", "i32": '{"-7":-8,"10":1}', "i64": "[[-9223372036854775808,0]]",
    "bool": '{"true":false}', "text": r'{"a\u00e9":"\\","é":"b"}', "falling": r'[["a","\ud83d\ude00"],["b",""]]',
    "flags": "[[true,1],[false,2]]", "words": ' { "2" : "two" , "10" : "ten" } ', "evens": '{"2":"a","4":"b"}',
    "tongues": '[[[1,"en"],"one"]]', "levels": '{"low":1,"high":3}', "senders": '[["a","low"]]', "nested": '[[[[1,true],"x"],[7,[false,-8]]]]',
}
# Members of which some have equal names, spelled alike or not, some no key's name, and some no item.
MEMBERS = ['"1":1', '"1":300', r'"\u0031":2', '"1":"x"', '"x":0', '"2":1e400', r'"\ud83d":1', ",", "0"]
ESCAPES = ["\\", "u", "d83d", r"\ude00", r"\"", '"', "é", "0041"]


def of_type(types, text):
    """Rows at one type."""
    first, second = map(compact, pairs_in(TYPES[types], text)[0])
    name = first if first[0] == '"' else compact(first)
    yield from (cuts(types, text), changes(types, text))
    for head, tail in (("[[", f",{second}]]"), (f"[[{first},", "]]"), (f"{{{name}:", "}")):
        yield strings(types, 1, head, tail, VALUES)
    yield strings(types, 1, "{", f":{second}}}", NAMES)
    # What is beside the pairs: nothing, spaces, a mark of the byte order, another text.
    beside = (f"\ufeff{text}", f"{text}\ufeff", f" \t{text}\t ", f"{text},", f"{text}]", f"{text}{text}", f"[{text}]")
    yield from (told(types, it) for it in ("", " ", "{}", "[]", text[::-1], *beside))


def rows(_):
    """All rows, with the output of each."""
    found = [row for types, text in TEXTS.items() for row in of_type(types, text)]
    for types in ("u8", "words", "senders", "evens"):
        found.append(strings(types, 3, "{", "}", MEMBERS))
        found.append(strings(types, 4, "[", "]", ["[", "]", ",", "{", "}", ":", "1", '"1"']))
    found.append(strings("u8", 5, "[", "]", ["[", "]", "{", ",", "[1,1]", "1", '"a":']))
    found += [strings("text", 4, '{"', '":""}', ESCAPES), strings("words", 4, '[[1,"', '"]]', ESCAPES)]
    found += [told(types, text) for types, text, _ in (*JSON["long_maps"](), *JSON["late_faults"](), *JSON["parts"]())]
    # Ten million brackets, and many pairs.
    for types in ("u32", "levels", "senders", "nested"):
        found += [repeated(types, 10**4, *it) for it in (("[", "[", "["), ('{"":', '{"":', "1"), ("[[", "[", "1"))]
    return [*found, repeated("u32", 65, "[", "[1000,1],", "[1000,1]]")]
