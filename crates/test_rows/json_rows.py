"""Maps as JSON: the rows `TYPES TEXT` that have no title, and the output of each.

They are, for each type of whole numbers, its least and its greatest value, one past each, and other spellings, as keys in arrays,
as names in objects and as items; and long strings and maps of up to 1,000 pairs, with errors at early and late indices. No output
comes from the program itself: that of whole numbers comes from Python's integers, and that of long maps from Python's order. The
program reads each row over a vector and over two columns, except those of `limits` (the rows of `levels` again), of `inserted`, of
`names` and of `overlay`.
"""
import itertools

WHOLE = {f"{kind}{bits}": (0 if kind == "u" else -(2 ** (bits - 1)), 2 ** (bits if kind == "u" else bits - 1) - 1)
         for kind in "ui" for bits in (8, 16, 32, 64)}

NOT_A_MAP = "a map is an object or an array of [key, item] arrays, and this value is neither"
SHAPE = "it is a JSON value of another kind than the type's"
RANGE = "it is a whole number outside of the type's range"
FLOAT = "it is a number with a fraction or an exponent, `-0`, or a number of more than 64 bits"


# What errors say: of an index, of an index and why, of why alone.
not_a_pair = "the element at place {} (from 0) is not an array of exactly a key and an item".format
key_text = "the name of the member at place {} (from 0, by the byte order of the names) is not a key's text".format
key, item = "the key at place {} (from 0): {}".format, "the item at place {} (from 0): {}".format
no_text = ("the key at place {} (from 0) has no text, and the first key has one: give all keys a text, or none; "
           "a key has no text in JSON, and the first key has one").format
no_flags = "the JSON value is not a map from flags to numbers: {}".format
# What `rewrite_flags` says of bytes that are no JSON.
NO_JSON = "the bytes are not a JSON text"


def whole_numbers():
    """Each type's least and greatest value, one past each, and other spellings."""
    for types, (least, most) in WHOLE.items():
        for number in sorted({least - 1, least, least + 1, -1, 0, 1, most - 1, most, most + 1, 2**63, 2**64 - 1, 2**64}):
            held = -(2**63) <= number < 2**64
            fits = least <= number <= most
            fault = RANGE if held else FLOAT
            yield types, f"[[{number},0]]", f'{{"{number}":0}}' if fits else key(0, fault)
            yield types, f"[[0,{number}]]", f'{{"0":{number}}}' if fits else item(0, fault)
            yield types, f'{{"{number}":{number}}}', None if fits else key_text(0)
        wrong = dict.fromkeys(("1.0", "-0", "1e2", "0.5", "-1.5", "1E2", "-0.0"), FLOAT)
        for text, fault in (wrong | dict.fromkeys(("null", "true", '"1"', "[1]", '{"1":1}'), SHAPE)).items():
            yield types, f"[[{text},0]]", key(0, fault)
            yield types, f'{{"0":{text}}}', item(0, fault)
        for name in ("", "+1", "01", "00", "-0", "-01", "+0", " 1", "1 ", "1.0", "1e2", "0x1", "-", "+", "--1", "1_0", "١"):
            yield types, f'{{"{name}":0}}', key_text(0)
        for text in ("01", "+1", ".5", "1.", "0x1"):
            yield types, f"[[{text},0]]", "no JSON"


def told(wanted, found, at=""):
    """An error as it is shown to people."""
    return f"{at}{wanted} is wanted, and {found} stands there"


told_name = "the name {1} is no key's text: {0} is wanted".format
told_at = "the {} at place {} (from 0): ".format
# A value of each kind, and its name in errors.
KINDS = [("null", "null"), ("true", "a truth value"), ("false", "a truth value"), ("1.5", "1.5"), ("-0.5", "-0.5"), ("1e300", "1e+300"),
         ("[0]", "an array"), ("[]", "an array"), ("{}", "an object"), ('{"a":0}', "an object"), ('"x"', "a text"), ('""', "a text")]
# A key that can be written, and what errors say that keys and items should be.
WANTED = {
    **{types: ("0", *(f"a whole number of {types[1:]} bits{' with a sign' if types[0] == 'i' else ''}",) * 2) for types in WHOLE},
    "flags": ("true", "a truth value", "a truth value"),
    "words": ("0", "a whole number of 32 bits", "a text"),
    "levels": ("low", "low, middle or high", "low, middle or high"),
    "evens": ("2", "a value of the type", "a value of the type"),
}
# Names that are no key's text, short and long.
TOLD_NAMES = ["x y", "x", "", "é", *(letter * length for letter in "xé" for length in (20, 21, 33, 65, 129))]
ROW = "an array of exactly a key and an item"
MAP = "an object or an array of [key, item] arrays"


def told_faults():
    """Errors as they are shown to people: by name in an object, by index in an array."""
    for types, (name, first, second) in WANTED.items():
        written = f'"{name}"' if types == "levels" else name
        for text, found in KINDS:
            if found != second:
                yield f"told {types}", f'{{"{name}":{text}}}', told(second, found, f'"{name}": ')
                yield f"told {types}", f"[[{written},{text}]]", told(second, found, told_at("item", 0))
            if found != first:
                yield f"told {types}", f"[[{text},0]]", told(first, found, told_at("key", 0))
            if text != "[0]":
                yield f"told {types}", f"[{text}]", told(ROW, found, told_at("element", 0))
        for name in TOLD_NAMES:
            yield f"told {types}", '{"%s":0}' % name, told_name(first, f'"{name}"')
        for text, found in [("7", "7"), *(it for it in KINDS if it[0][0] not in "[{")]:
            yield f"told {types}", text, told(MAP, found)
        yield f"told {types}", "[]", "a map"
        yield f"told {types}", "[", "no JSON"
    for types in ("u8", "i8", "u16", "i16", "u32", "i32"):
        least, most = WHOLE[types]
        for number in (least - 1, most + 1):
            yield f"told {types}", f'{{"1":{number}}}', told(WANTED[types][2], number, '"1": ')
    ports = '{"host":8080,"port":%s}'
    wanted = "a whole number of 16 bits"
    for text, found in (('"x"', "a text"), (65536, 65536), (-1, -1)):
        yield "told ports", ports % text, told(wanted, found, '"port": ')
    yield "told ports", ports % 65535, "a map"
    for name in (*TOLD_NAMES, r'a\"b'):
        yield "told ports", '{"%s":null}' % name, told(wanted, "null", f'"{name}": ')
    two = "an array of exactly two, each of its type,"
    yield "told tongues", '[[7,"one"]]', told(two, "7", told_at("key", 0))
    yield "told tongues", '[[[1,"en"],"one"],[[1,7],"one"]]', told(two, "an array", told_at("key", 1))
    yield "told tongues", '{"1":"one"}', told_name(two, '"1"')
    yield "told ports", '[["a",1],["b",2],["c",3],["d",4],["e",5],["f","6"],["g",7]]', told(wanted, "a text", told_at("item", 5))
    yield "told ports", '[["a",1],["b"],["c",3]]', told(ROW, "an array", told_at("element", 1))
    ranks = '[[["a",1],"a"],[["b",2],"b"],[["c",%s],"c"],[["d",4],"d"]]'
    yield "told ranks", ranks % '"3"', told(two, "an array", told_at("key", 2))
    yield "told ranks", ranks % 3, "a map"
    yield "told elsewhere", '{"1":null}', f"{item(0, SHAPE)}; an item in JSON is not of its type"
    yield "told elsewhere", '[[1,1],[2,300,3]]', f"{not_a_pair(1)}; an element in JSON is not a key and an item"
    yield "told elsewhere", '{"x":0}', f"{key_text(0)}; a name in JSON is not a key's text"
    yield "told elsewhere", '[[null,0]]', f"{key(0, SHAPE)}; a key in JSON is not of its type"
    yield "told elsewhere", "7", f"{told(MAP, 'null')}; a JSON value is no map"
    for place in (1, 12, 19, 20, 33, 51, 65, 101, 129, 999):
        good = [(str(number), f'"{number}"') for number in range(1000, 1002 + place)]
        members = [(text, value if text < str(1000 + place) else "0") for text, value in good]
        yield "told words", object_of(members), told("a text", "0", f'"{1000 + place}": ')
        members = [(text if text < str(1000 + place) else text + "x", value) for text, value in good]
        yield "told words", object_of(members), told_name(WANTED["words"][1], f'"{1000 + place}x"')
        elements = [f"[{text},{value}]" for text, value in good[:place]]
        for element, wanted, part in (("[0]", ROW, "element"), ("[[0],0]", WANTED["words"][1], "key"), ("[0,[0]]", "a text", "item")):
            yield "told words", array([*elements, *[element] * 2]), told(wanted, "an array", told_at(part, place))


def array(elements):
    return "[" + ",".join(elements) + "]"


def object_of(members):
    return "{" + ",".join(f'"{name}":{value}' for name, value in members) + "}"


def long_maps():
    """Maps of many pairs, in arrays and objects, in order and not."""
    for count in (12, 24, 33, 65, 129, 1000):
        numbers = [(number * 379) % count for number in range(count)]
        answer = object_of(sorted((str(number), f'"{number}"') for number in numbers))
        yield "words", array(f'[{number},"{number}"]' for number in numbers), answer
        yield "words", object_of((str(number), f'"{number}"') for number in numbers), answer
        rising = array(f'[{number + 1000},"{number}"]' for number in numbers)
        yield "words", rising, object_of((str(number + 1000), f'"{number}"') for number in range(count))
        pairs = [f'[[{number},"k"],"{number}"]' for number in range(count)]
        yield "tongues", array(reversed(pairs)), array(pairs)


def late_faults():
    """An error at an early index and at late ones, and at the index after it."""
    for place in (9, 33, 51, 65, 101, 129, 999):
        good = [(str(number), f'"{number}"') for number in range(1000, 1002 + place)]
        elements = [f"[{name},{value}]" for name, value in good]
        for element, fault in (("[0]", not_a_pair(place)), ('["0","0"]', key(place, SHAPE)), ("[-1,0]", key(place, RANGE)),
                               ("[0,0]", item(place, SHAPE))):
            yield "words", array(elements[:place] + [element] * 2), fault
        members = [(name, value if name < str(1000 + place) else "0") for name, value in good]
        yield "words", object_of(members), item(place, SHAPE)
        members = [(name if name < str(1000 + place) else name + "x", value) for name, value in good]
        yield "words", object_of(members), key_text(place)
        evens = [f'[{2 * number},"a"]' for number in range(place)]
        yield "evens", array([*evens, f'[{2 * place + 1},"b"]', f'[{2 * place + 3},"c"]']), no_text(place)


def long_texts():
    """Names and strings of a few bytes and of many."""
    for length in (1, 12, 20, 21, 24, 33, 65, 100, 101, 129, 513, 5000):
        for letter in ("a", "é", '\\"'):
            text = letter * length
            yield "text", object_of([(text, f'"{text}"'), (text + "b", '""')]), None
        yield "words", object_of([("0" * length + "1", '"a"')]), key_text(0)
        yield "words", f'[[1,"{"a" * length}"]]', object_of([("1", f'"{"a" * length}"')])
        yield "levels", object_of([("low" + "w" * length, 1)]), key_text(0)


def all_numbers():
    """Each number of four digits at most as a key and as an item, in three orders, and a few neighbours at each power of ten."""
    numbers = range(-1000, 1001)
    for types, numbers in (("i16", numbers), ("i64", numbers), ("u16", numbers[1000:])):
        answer = object_of(sorted((str(number), number) for number in numbers))
        mixed = [numbers[(place * 379) % len(numbers)] for place in range(len(numbers))]
        for order in (numbers, numbers[::-1], mixed):
            yield types, array(f"[{number},{number}]" for number in order), answer
            yield types, object_of((str(number), number) for number in order), answer
    for types, (least, most) in WHOLE.items():
        ends = [0, *(sign * 10**power for power in range(20) for sign in (1, -1)), least, most]
        for end in sorted(end for end in set(ends) if least <= end <= most):
            near = [number for number in (end - 1, end, end + 1, 10 * end - 1, 10 * end, 10 * end + 1) if least <= number <= most]
            yield types, array(f"[{number},0]" for number in near), object_of(sorted((str(number), 0) for number in set(near)))
        every = sorted({end for end in ends if least <= end <= most})
        yield types, array(f"[{number},0]" for number in every), object_of(sorted((str(number), 0) for number in every))


def ascii_texts():
    """Strings that begin and end in each ASCII character, alone and all together."""
    short = {8: r"\b", 9: r"\t", 10: r"\n", 12: r"\f", 13: r"\r", 34: r"\"", 92: r"\\"}
    letters = [short.get(code, f"\\u{code:04x}" if code < 32 else chr(code)) for code in range(128)]
    for letter in letters:
        yield "text", object_of([(letter, f'"{letter}"'), (f"{letter}a{letter}", f'"{letter}"')]), None
    names = [f"{letter}x{letter}" for letter in letters]
    yield "text", object_of((name, f'"{name}"') for name in reversed(names)), object_of((name, f'"{name}"') for name in names)


def mixed_texts():
    """Strings with ASCII and other characters at each place, as names, keys and items: short ones alone, long ones together."""
    short = ["".join(it) for length in (2, 3) for it in itertools.product("aé😀", repeat=length)]
    pairs = itertools.permutations("aé😀", 2)
    long = [one * place + other + one * (33 - place) for one, other in pairs for place in range(34)]
    for texts in (*([text] for text in short), sorted(long, key=str.encode)):
        answer = object_of((text, f'"{text}"') for text in texts)
        yield "text", answer, None
        yield "text", array(f'["{text}","{text}"]' for text in texts), answer


def last_names():
    """Many pairs of which the last name alone is below the others, below all but the first, or below the one before it."""
    for count in (1, 2, 12, 20, 33, 50, 51, 65, 101, 129, 700):
        for last in (1000, 2005, 10 * (198 + count) + 5):
            pairs = [(str(number), f'"{number}"') for number in [*range(200, 200 + count), last]]
            answer = object_of(sorted(pairs))
            yield "words", array(f"[{name},{text}]" for name, text in pairs), answer
            yield "words", object_of(pairs), answer
            yield "text", object_of(pairs), answer


def long_flags():
    """Flags that are brought over from long texts: after so many spaces so many pairs, and one element more."""
    for spaces, pairs in ((246, 0), (0, 9), (0, 10), (0, 101), (5000, 28), (0, 1000)):
        for last, answer in (("[true,7]", '{"true":7}'), ("[1,1]", no_flags(key(pairs, SHAPE))), ("[true]", no_flags(not_a_pair(pairs))),
                             ("[true,-1]", no_flags(item(pairs, RANGE))), ("[true,", NO_JSON)):
            yield "rewrite", " " * spaces + array(["[true,1]"] * pairs + [last]), answer


def early_faults():
    """An error at each index to 12 and at a later one, of keys that ascend, that descend and that are equal, and at the next index too."""
    of_keys = {"null": SHAPE, '"0"': SHAPE, "65536": RANGE, "-1": RANGE, "1.0": FLOAT}
    of_items = {"{}": SHAPE, "null": SHAPE, "65536": RANGE, "-1": RANGE, "1.0": FLOAT}
    bad = [("[0]", not_a_pair), ("null", not_a_pair), *((f"[{text},0]", key, why) for text, why in of_keys.items())]
    bad += [(f"[0,{text}]", item, why) for text, why in of_items.items()]
    for place in (*range(13), 33):
        count = place + 3
        for keys in (range(count), range(count, 0, -1), [7] * count):
            good = [f"[{number},0]" for number in keys]
            for text, fault, *why in bad:
                yield "u16", array([*good[:place], text, good[place], text]), fault(place, *why)
        names = [str(10000 + number) for number in range(count)]
        for order in (names, names[::-1]):
            for text, why in of_items.items():
                yield "u16", object_of((name, text if name >= names[place] else 0) for name in order), item(place, why)
            yield "u16", object_of((name if name < names[place] else name + "x", 0) for name in order), key_text(place)
        odd = [*range(0, 2 * place, 2), 2 * place + 1, *range(2 * place + 2, 2 * count, 2)]
        answer = no_text(place) if place else array(f'[{number},"a"]' for number in odd)
        for order in (odd, odd[::-1], odd * 2):
            yield "evens", array(f'[{number},"a"]' for number in order), answer


def parts():
    """A pair of pairs in which one part is of another kind, at two indices."""
    whole = {"null": SHAPE, "true": SHAPE, '"1"': SHAPE, "[1]": SHAPE, "{}": SHAPE, "1.5": FLOAT, "9999999999": RANGE, "-9999999999": RANGE}
    other = dict.fromkeys(["null", "7", "1.5", "[]", "{}"], SHAPE)
    for place in (0, 3):
        # The text around a part, what the part may not be, and whose error that is.
        for before, after, bad, fault in (
            ("[[[", ',true],"x"],[7,[false,-8]]]', whole, key), ("[[[1,", '],"x"],[7,[false,-8]]]', other, key),
            ("[[[1,true],", "],[7,[false,-8]]]", other, key), ("[[", ',"x"],[7,[false,-8]]]', other, key),
            ('[[[1,true],"x"],[', ",[false,-8]]]", whole, item), ('[[[1,true],"x"],[7,[', ",-8]]]", other, item),
            ('[[[1,true],"x"],[7,[false,', "]]]", whole, item), ('[[[1,true],"x"],[7,', "]]", other, item),
        ):
            good = [f'[[[{number},true],"x"],[7,[false,-8]]]' for number in range(place)]
            for text, why in bad.items():
                yield "nested", array([*good, f"{before}{text}{after}"]), fault(place, why)


def values():
    """JSON values of each kind that `write_value` writes, of which maps have only some."""
    parts = ["null", "true", "false", "0", "-1", "1.5", "-0.5", "18446744073709551615", "-9223372036854775808", '""', '"a"', "[]", "{}"]
    parts += ["1e+300", "-1e-7", "5e-324", "0.1", r'"\"\\/\u0000\n\u001f"', '"é😀 "', array(["0"] * 1000), f'"{"a" * 1000}"']
    parts += [array(parts), array([array(parts), array([array([])])]), object_of((f"k{place:02}", part) for place, part in enumerate(parts))]
    for part in parts:
        yield "value", part, None
        yield "value", array([part, part]), None
        yield "value", object_of([("a", part), ("b", object_of([("", part)]))]), None
    yield "value", "[", "no JSON"


def rows(titled):
    """The rows without a title, each with its output."""
    rows = [*whole_numbers(), *long_maps(), *late_faults(), *long_texts(), *told_faults()]
    rows += [*all_numbers(), *ascii_texts(), *early_faults(), *parts(), *values(), *long_flags(), *mixed_texts(), *last_names()]
    rows = [(f"{types} {text}", text if answer is None else answer) for types, text, answer in rows]
    # Keys that descend where their names ascend are written as strings are.
    return rows + [(f"falling {row.removeprefix('text ')}", answer) for row, answer in titled + rows if row.startswith("text ")]
