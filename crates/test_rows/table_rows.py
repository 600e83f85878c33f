"""Name tables and indexes of names: the rows, and the output of each.

The output comes from the reader below, which was written from the grammar of name tables alone (docs/NAME_TABLES.md) and shares
nothing with the crates. By the first word of a row `ANSWERS` has the function that makes its output.
"""
from itertools import product

# The program's own names, in crates/test_rows/src/table_rows.rt.
OWN = {"de": "German", "en": "own English", "zu": "Zulu"}


class Fault(Exception):
    """A part that can't be read."""


def number(data, at):
    part = data[at : at + 5]
    ends = [place for place, byte in enumerate(part) if byte < 128]
    if not ends and len(part) < 5:
        raise Fault(f"the bytes end within the number or string at byte {at}")
    value = sum((byte & 127) << 7 * place for place, byte in enumerate(part[: ends[0] + 1] if ends else []))
    if not ends or value >= 1 << 32:
        raise Fault(f"the number at byte {at} is too large")
    return value, at + ends[0] + 1


def text(data, at, size_at=number):
    size, start = size_at(data, at)
    if start + size > len(data):
        raise Fault(f"the bytes end within the number or string at byte {start}")
    try:
        return data[start : start + size].decode("utf-8"), start + size
    except UnicodeDecodeError:
        raise Fault(f"the string at byte {start} is not UTF-8") from None


def entries(data):
    """The entries, each with its offset and how many come from it on; then both of these at the end, and the error or None."""
    due, at = number(data, 0)
    found = []
    while due:
        try:
            key, middle = text(data, at)
            value, end = text(data, middle)
        except Fault as fault:
            return found, at, due, fault
        found.append((at, due, key, value))
        at, due = end, due - 1
    return found, at, due, None


def table(data):
    found, at, _, fault = entries(data)
    if fault:
        raise fault
    pairs = {key: value for _, _, key, value in found}
    return sorted(pairs.items(), key=lambda pair: pair[0].encode()), at


def rising(data):
    """The entries of a table, which is an error unless its keys ascend."""
    found, _, _, fault = entries(data)
    for index, (at, _, key, _) in enumerate(found):
        if index and key.encode() <= found[index - 1][2].encode():
            raise Fault(f"the key of the entry at byte {at} is not above the one before it")
    if fault:
        raise fault
    return [(key, value) for _, _, key, value in found]


def spelled(value):
    return bytes([value]) if value < 128 else bytes([value % 128 + 128]) + spelled(value // 128)


def written(pairs):
    texts = (word.encode() for pair in pairs for word in pair)
    return spelled(len(pairs)) + b"".join(spelled(len(word)) + word for word in texts)


def index_number(data, at):
    if at + 4 > len(data):
        raise Fault(f"the bytes end within the number or string at byte {at}")
    return int.from_bytes(data[at : at + 4], "little")


def index_text(data, at):
    return text(data, at, lambda data, at: (index_number(data, at), at + 4))


def index_pairs(data):
    number, pairs = index_number(data, 0), []
    size = 4 + 4 * number
    for index in range(number):
        start = 4 + 4 * number + index_number(data, 4 + 4 * index)
        key, middle = index_text(data, start)
        value, end = index_text(data, middle)
        pairs.append((key, value))
        size += end - start
        if index and key.encode() <= pairs[-2][0].encode():
            raise Fault(f"the key of the entry {index} is not above the one before it")
        if size > len(data):
            raise Fault(f"the entries up to the entry {index} take more bytes than there are")
    return pairs


def numbers(*values):
    """Numbers as an index has them."""
    return b"".join(value.to_bytes(4, "little") for value in values)


def indexed(pairs):
    """The index of pairs whose keys ascend."""
    parts = [b"".join(numbers(len(word.encode())) + word.encode() for word in pair) for pair in pairs]
    return numbers(len(parts), *(sum(map(len, parts[:index])) for index in range(len(parts)))) + b"".join(parts)


def overlapping(count):
    """Bytes that state so many entries, each within the key of the one before it. The keys ascend: they are a number of three
    bytes, the later entries, and zeros."""
    # At least the bytes of all entries before the zeros, in a number whose own bytes are ASCII.
    size = sum((7 * count >> 7 * place & 127) << 8 * place for place in range(4))
    entries = (numbers(size) + bytes([entry >> 14, entry >> 7 & 127, entry & 127]) for entry in range(count))
    return numbers(count, *range(0, 7 * count, 7)) + b"".join(entries) + bytes(size + 4)


def listed(words, pairs):
    return f"{words}:" + "".join(f" {key}={value}" for key, value in pairs)


def counted(word, pairs):
    return listed(f"{word} {len(pairs)}", pairs)


def read(data):
    pairs, size = table(data)
    return listed(f"read {size}", pairs)


def find(key, data):
    return next((f"found {place}: {value}" for place, (other, value) in enumerate(table(data)[0]) if other == key), "none")


def look(key, pairs):
    """What lookups in pairs whose keys ascend return."""
    index = sum(other.encode() < key.encode() for other, _ in pairs)
    return next((f"found {index}: {value}" for other, value in pairs if other == key), f"none, it would be {index}")


def begin(start, data):
    pairs = rising(data)
    first = sum(other.encode() < start.encode() for other, _ in pairs)
    found = [pair for pair in pairs if pair[0].encode().startswith(start.encode())]
    return listed(f"{first} to {first + len(found)}", found)


def walk(data):
    found, at, due, fault = entries(data)
    steps = "".join(f" @{place}/{left} {key}={value}" for place, left, key, value in found)
    # An error ends the walk of the entries with the state before it.
    steps += f" @{at}/{due}" if fault else ""
    end = f" {fault or 'end'}"
    return f"{steps} @{at}/{due}{end}{end} @{at}/{due}"


def sweep(cases, word="read", other="table"):
    """The output of a row with many cases: how the rows of these words end, and a checksum."""
    answers = [answer(word, case) for case in cases]
    checksum = 0xCBF29CE484222325
    for byte in "".join(told + (other and answer(other, case)) for told, case in zip(answers, cases)).encode():
        checksum = (checksum ^ byte) * 0x100000001B3 % (1 << 64)
    kinds = [(" read", ":"), (" truncated", "the bytes end"), (" not UTF-8", "not UTF-8"), (" too large", "too large")]
    counts = ",".join(f" {sum(words in it for it in answers)}{kind}" for kind, words in kinds)
    return f"{len(cases)} cases:{counts}, 0 different, checksum {checksum:016x}"


def prefixes(data):
    return [data[:size] for size in range(len(data))]


def changes(data):
    return [data[:at] + bytes([value]) + data[at + 1 :] for at, byte in enumerate(data) for value in range(256) if value != byte]


# The errors that no other line shows.
FAULTS = "there is not enough memory; a number of the name table is too large; there is not enough memory; an entry of the name table begins at too high an offset; "
FAULTS += "there is not enough memory; the bytes are not a JSON text; the JSON value is not a map from flags to numbers: "
FAULTS += "a map is an object or an array of [key, item] arrays, and this value is neither"
ANSWERS = {
    "read": read,
    "find": find,
    "name": lambda code, data: dict(table(data)[0]).get(code) or OWN.get(code) or "none",
    "walk": walk,
    "again": lambda data: written(table(data)[0]).hex(),
    "table": lambda data: counted("table", rising(data)),
    "ask": lambda key, data: look(key, rising(data)),
    "begin": begin,
    "word": lambda key, data: dict(rising(data)).get(key, key),
    "index": lambda data: indexed(table(data)[0]).hex(),
    "opened": lambda data: counted("index", index_pairs(data)),
    "look": lambda key, data: look(key, index_pairs(data)),
    "many": lambda count, _: f"{count} names: 16 there, 16 between",
    "often": lambda count, _: f"{count} found",
    "faults": lambda _: FAULTS,
    "prefixes": lambda data: sweep(prefixes(data)),
    "changes": lambda data: sweep(changes(data)),
    "strings": lambda data: sweep([bytes(letters[::-1]) for size in range(5) for letters in product(data, repeat=size)]),
    "cuts": lambda data: sweep(prefixes(data), "opened", ""),
    "damages": lambda data: sweep(changes(data), "opened", ""),
}


def answer(words, data):
    """The output of a row: of its first word, what else stands before the bytes, and these."""
    word, *more = words.split(" ", 1)
    try:
        return ANSWERS[word](*more, data)
    except Fault as fault:
        return {"again": "no map", "index": "no index"}.get(word, str(fault))


# Eleven languages, and the bytes of their name table.
PAIRS = [
    ("ar", "Arabic"), ("bn", "Bangla"), ("ccp", "Chakma"), ("en", "English"), ("es", "Spanish"), ("fr", "French"),
    ("ja", "Japanese"), ("ru", "Russian"), ("sr", "Serbian"), ("th", "Thai"), ("tr", "Turkish"),
]
TABLE = written(PAIRS)
# Keys that descend, that are equal, that are empty, and a prefix after a longer string.
NOT_RISING = [*map(bytes.fromhex, (
    "02 016200 016100", "02 016100 016100", "02 0000 0000", "02 02616100 016100", "03 016100 016200 016200",
    "03 016100 016200 016103ff", "03 0000 016100 0000"))]
# Names that begin with one another, and with characters of more than one byte.
ALIKE = written([(key, str(place)) for place, key in enumerate(["", "a", "ab", "abc", "abd", "ac", "b", "bé", "bê"])])
RISING = [*map(bytes.fromhex, ("01 00", "01 0000", "02 0000 016100", "02 016100 02616100"))]
# A count of 2^32 - 1 before five bytes.
MANY_DUE = b"\xff\xff\xff\xff" + bytes(5)
# Indexes of no pair, of one, of eleven, and of strings with more bytes than characters; bytes after an index; keys that descend,
# are equal or lie between; offsets that overlap; and indexes that are cut short, or have too large a number or no valid string.
INDEXES = [
    b"", b"\x00\x00\x00", indexed([]), indexed([]) + b"\x01", indexed([("a", "1")]), indexed([("", "")]), indexed(PAIRS),
    indexed(PAIRS) + b"\x00", indexed([("a", "1"), ("b", "2")]), indexed([("b", "2"), ("a", "1")]),
    indexed([("a", "1"), ("a", "2")]), indexed([("é", "ö"), ("漢", "")]), indexed([("a", "1")])[:-1], indexed([("a", "1")])[:8],
    MANY_DUE, b"\x00\x00\x00\x01" + bytes(5), b"\x01" + bytes(11), b"\x01" + bytes(15), b"\x02" + bytes(19),
    b"\x01\x00\x00\x00\xff\xff\xff\xff" + bytes(8), b"\x01" + bytes(7) + b"\xff\xff\xff\xff" + bytes(4),
    b"\x01" + bytes(7) + b"\x01\x00\x00\x00\xff" + bytes(4), b"\x01" + bytes(11) + b"\x01\x00\x00\x00\xff",
    b"\x01\x00\x00\x00\x04\x00\x00\x00" + bytes(12), overlapping(2), overlapping(300),
]


def large_lines():
    """Tables of 300 and 1,500 names, of which some have descending keys and one is cut short, and a string of 20,000 bytes."""
    names = [(f"name{number:06}", f"value{number}") for number in range(300)]
    rising_names, falling_names = written(names), written(names[::-1])
    keys = written([(f"{number:05}", "") for number in range(1500)])
    for data in (rising_names, falling_names, rising_names[:-3]):
        yield from product(["read", "table"], [data])
    yield from product(["again"], [falling_names, long_text(20000)])
    yield from product(["find name000250", "ask name000250", "find name000300", "ask name000300"], [rising_names])
    yield from product(of_keys("begin", ("name", "name00", "name0002", "name00029", "name000299", "name0003")), [rising_names])
    yield "find name000250", falling_names
    yield from product(["find 01499", "ask 01499"], [keys])


def long_text(size):
    """A table of an empty name whose value has so many bytes."""
    return b"\x01\x00" + spelled(size) + b"x" * size


def sized_lines():
    """Tables and indexes of various numbers of names, also with the last name alone below the others, and strings of various
    numbers of bytes."""
    for count in (12, 24, 33, 65, 129):
        names = [(f"n{number:03}", "v") for number in range(count)]
        yield from product(["read", "table", "again", "index", f"ask n{count - 1:03}"], [written(names)])
        yield "opened", indexed(names)
        yield from product(["read", "again"], [written([*names[1:], names[0]]), written([*names[:-2], names[-1], names[-2]])])
        yield "again", long_text(count)


def faulty_lines():
    """Tables and indexes with one error each: at each index, in the number of bytes and in the bytes of a key and of a value."""
    large, own = b"\xff\xff\xff\xff\x1f", lambda text: bytes([len(text)]) + text.encode()
    for keys, place in product(THIRTEEN, range(13)):
        before, after = (b"".join(own(key) + own("v") for key in part) for part in (keys[:place], keys[place + 1 :]))
        key = own(keys[place])
        wrong = (large, key + large, b"\x01\xff\x01v", key + b"\x01\xff")
        for entry in [*(it + after for it in wrong), b"", key[:1], key]:
            yield from product(["read", "table", "walk", f"find {keys[place]}"], [spelled(13) + before + entry])
    for keys, place in product(THIRTEEN, range(13)):
        data = indexed([(key, "v") for key in keys])
        offset, start = 4 + 4 * place, 4 + 4 * 13 + 10 * place
        wrong = ((offset, "ff ff ff 7f"), (start, "ff ff"), (start + 4, "ff"), (start + 5, "ff ff"), (start + 9, "ff"))
        for at, new in ((at, bytes.fromhex(text)) for at, text in wrong):
            yield "opened", data[:at] + new + data[at + len(new) :]
        yield "opened", data[: start + 7]
    # A key that is equal to the one before, or below it.
    for place, falls in product(range(1, 13), (False, True)):
        pairs = [(chr(97 + number), "v") for number in range(13)]
        pairs[place] = ("A" if falls else pairs[place - 1][0], "v")
        yield from (("opened", indexed(pairs)), ("table", written(pairs)))


# Thirteen keys that ascend, that descend, and that are equal.
THIRTEEN = ([chr(97 + place) for place in range(13)], [chr(122 - place) for place in range(13)], ["k"] * 13)


def ascii_lines():
    """Names and values that begin and end in each ASCII character, alone and all together, in tables and in indexes."""
    names = [[(letter, letter), (f"{letter}x{letter}", f"{letter}y{letter}")] for letter in map(chr, range(128))]
    for pairs in (*names, [pair for both in names for pair in both]):
        yield from product(["again", "index"], [written(pairs)])


def of_keys(word, keys):
    return [f"{word} {key}" for key in keys]


# A language at the end, at the start, unknown ones, one that another begins with, and one that begins with another.
CODES = ("tr", "ar", "zz", "", "t", "trx", "ccp")
REWRITTEN = [(b'{"\xff":1}', "the bytes are not a JSON text"), (b"", "the bytes are not a JSON text")]
REWRITTEN += [(b" [ [ false , 0 ] ] \n", '{"false":0}')]


def lined(rows):
    """The lines of rows, each with its output."""
    return [(f"{words} {data.hex() or '-'}", answer(words, data)) for words, data in rows]


def told(row):
    """The output of a row that is stored."""
    words, _, data = row.rpartition(" ")
    return answer(words, bytes.fromhex(data.strip("-")))


def rows(titled):
    """The rows without a title, each with its output. `read` has the tables of those with one."""
    read = [bytes.fromhex(row.split(" ")[1].strip("-")) for row, _ in titled if row.startswith("read ")]
    # The words of rows, and the bytes that stand after each of them.
    before = [
        (["walk"], read),
        (["again"], [it for it in read if it != TABLE]),
        (["find a"], [b"", b"\x00", TABLE[:116], read[19], b"\x01\x01\xff\x00"]),
        (of_keys("name", ("tr", "zu", "en", "xx", "")), [TABLE]),
        (["name de"], [b"", TABLE[:116], TABLE[:1]]),
        (["table"], read + NOT_RISING + RISING + [b"\xff\xff\xff\xff\x0f\x01a\x00\x01b"]),
        (of_keys("ask", CODES), [TABLE]),
        (["ask a"], [b"", b"\x00", TABLE[:116], NOT_RISING[0]]),
        (["table", *of_keys("begin", ("", "a", "ab", "abc", "abcd", "abz", "ac", "b", "bé", "bêt", "c", "0", "abcé"))], [ALIKE]),
        (of_keys("begin", ("", "t", "tr", "zz")), [TABLE]),
        (["begin a"], [b"\x00", b"\x01\x01", *(written([(key, "1")]) for key in ("a", "ab", "b"))]),
        (of_keys("word", ("tr", "ar", "zz", "", "t", "ccp")), [TABLE]),
        (["word a"], [b"\x00", TABLE[:116], NOT_RISING[0]]),
    ]
    after = [
        (["index"], [b"\x00", read[19], read[20], read[25], TABLE, NOT_RISING[1], read[28]]),
        (["opened"], INDEXES),
        (of_keys("look", CODES), [indexed(PAIRS)]),
        (["look a"], [b"", indexed([]), MANY_DUE]),
        (["many 100000", "often 2000", "faults"], [b""]),
    ]
    found = [it for words, tables in before for it in product(words, tables)]
    found += [*large_lines(), *sized_lines(), *faulty_lines(), *ascii_lines()]
    found += [it for words, tables in after for it in product(words, tables)]
    sweeps = [("changes", TABLE), *product(["cuts", "damages"], [indexed(PAIRS)]), ("strings", bytes.fromhex("0001026180ff"))]
    return [*lined(found), *((f"rewrite {data.hex() or '-'}", told) for data, told in REWRITTEN), *lined(sweeps)]
