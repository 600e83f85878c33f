"""Makes what the program `names` must write: its files stdout and status, by bin/data; and the inputs of bin/program.

The replies come from a plain model, a dictionary that is sorted when all pairs are wanted, and never from the program itself.
"""
import json
import pathlib
import re

MOST = 1048576
# Runs of which each request for memory is refused.
SESSIONS = [
    "put b 2\nput a 1\nput b 3\nfind c\nall\n", "del a\njson\nput b 2\nput a 1\njson\ndel b\nget b\n",
    "".join(f"put {key} {key}\n" for key in "caebdfg") + "put a z\nall\ndel d\nget a\njson\n"]
# The lines that are not bad: the first word of each, and how many words are after it.
SHAPES = {name: re.compile(name.encode() + rb" ([!-~]+)" * count) for name, count in
          {"put": 2, "get": 1, "del": 1, "find": 1, "all": 0, "json": 0}.items()}


def answer(names, kind, words):
    """The reply to a line that is not bad, which is carried out on the names."""
    if kind == "all":
        return b"".join(key + b" " + names[key] + b"\n" for key in sorted(names))
    if kind == "json":
        pairs = {key.decode(): names[key].decode() for key in sorted(names)}
        return json.dumps(pairs or [], separators=(",", ":")).encode() + b"\n"
    old = names.get(words[0])
    if kind == "find":
        return b"%s %d\n" % (b"err" if old is None else b"ok", sum(name < words[0] for name in names))
    if kind == "put":
        names[words[0]] = words[1]
        return b"new\n" if old is None else b"old " + old + b"\n"
    if kind == "del":
        names.pop(words[0], None)
    return b"none\n" if old is None else b"= " + old + b"\n"


def told(given):
    """The output of a run on this input, and its status."""
    if len(given) > MOST:
        return b"input too long\n", 2
    names, out = {}, []
    for number, line in enumerate(given.split(b"\n"), 1):
        found = [(kind, it.groups()) for kind, shape in SHAPES.items() if (it := shape.fullmatch(line))] if line else ()
        if line and not found:
            return b"".join(out) + b"bad line %d\n" % number, 2
        out += [answer(names, *it) for it in found]
    return b"".join(out), 0


def puts(count, value=b"v", start=0):
    """Lines that put so many names of five digits."""
    return [b"put %05d " % key + value for key in range(start, start + count)]


def long_values():
    """Values and old values of a few bytes and of many, in the replies of each kind of line that has one."""
    for length in [1, 2, 3, 100, 101, 5000, 100000]:
        first, second = b"a" * length, b"b" * length
        yield from [b"put k " + first, b"get k", b"put k " + second, b"get k", b"del k", b"get k"]


def long_keys():
    """Keys of a few bytes and of many, each beside a longer key that begins with it."""
    for length in [1, 2, 21, 101, 5000, 50000]:
        key = b"k" * length
        yield from [b"put " + key + b" v", b"put " + key + b"k w", b"find " + key, b"get " + key + b"k", b"json", b"all"]
        yield from [b"del " + key, b"find " + key + b"k", b"get " + key]


def changes(count):
    """All pairs and the map as JSON, twice with no change in between, and after changes of each kind at both ends and within."""
    some = [b"00000", b"%05d" % (count // 2), b"%05d" % (count - 1)]
    yield from puts(count, b'"')
    yield from [b"all", b"all", b"json", b"json", b"all", b"json"]
    for key in some:
        for line in [b'put ' + key + b' "', b"put " + key + b" w", b"get " + key, b"find " + key, b"del " + key, b"del " + key]:
            yield from [line, b"all", b"json", b"all"]
    for key in [b"!", b"00000x", some[1] + b"\\", b"~"]:
        yield from [b"put " + key + b" \\", b"json", b"all", b"json"]


def removals():
    """Names that are removed at the front, at the end and in the middle."""
    yield from puts(2001)
    for key in [*range(0, 150), *range(2000, 1850, -1), *range(150, 1851, 3)]:
        yield from [b"del %05d" % key, b"get %05d" % key]
    yield from [b"all", b"find 01000", b"json"]


def small():
    """Each command over no name and over a few, by names below, between and above them, and then by each of them."""
    for names in [b"", b"m", b"am", b"amz"]:
        keys = [b"%c" % it for it in names]
        yield from [b"put " + key + b" " + key for key in keys]
        for key in [b"!", b"n", b"~", *keys]:
            yield from [b"all", b"json", b"get " + key, b"find " + key, b"del " + key, b"del " + key]
        yield from [b"put " + key + b" v" for key in [b"all", b"json", b"put", b"get", b"del", b"find"]]
        yield from [b"del " + key for key in [b"all", b"json", b"put", b"get", b"del", b"find"]]


def characters():
    """Names and values of each character of words, and some that begin or end in it; they are listed, looked up and deleted."""
    for code in range(33, 127):
        yield from [b"put %c %c" % (code, code), b"put %cx %cy" % (code, code), b"put x%c y%c" % (code, code)]
    yield from [b"all", b"json"]
    for code in range(33, 127):
        yield from [b"get x%c" % code, b"find %cx" % code, b"put x%c %cz" % (code, code)]
    for code in range(33, 127):
        yield from [b"del %c" % code, b"del %cx" % code, b"del x%c" % code]


# bad lines before others
BAD = [
    b" ", b"put", b"put ", b"put a", b"put a ", b"put  a 1", b"put a  1", b"put a 1 ", b"put a 1 2", b" put a 1", b"put a\t1",
    b"put a \xc3\xa9", b"put a \x7f", b"PUT a 1", b"putt a 1", b"find", b"find ", b"find a ", b"find  a", b"find a b", b"get", b"get a ", b" get a",
    b"get a b", b"del a ", b"del\ta", b" all", b"all ", b"all x", b"all\r", b" json", b"json ", b"json x", b"JSON", b"get a\0"]
# short runs: a bad line after an empty one, a name that is removed, quotation marks in JSON
SHORT = [
    b"put a 1,,put a,all", b"put a 1,get a,del a,get a,", b"put b 2,put c 3,put a 1,del b,del b,find c,get c,all", b"all", b",,,all",
    b"put a 1,find a,find 0,find b", b"get a", b"del a,del a", b"find a,find ~", b"json,json", b",all", b",json", b"get a,put a 1,get a",
    b"del a,put a 1,del a,json", b"put a a", b"put a a,get a,find a,put a a,all,json,del a,del a,find a,all", b"json,put json all,get json,json",
    b"put all json,put put put,get put,all,del all,json", b"put ! ~,put B b,put a A,all", b"put a 1,put a 2,put a 2,all", b'put a ",put b \\,json']
LONGEST = b"put " + b"k" * (MOST - 6) + b" v"
LINES = {
    # the stored run: names are put, one of them twice, and listed
    "each line": [b"put b 2", b"put a 1", b"put b 3", b"find c", b"all", b""],
    "lines of each kind": b"put b 2,put a 1,get b,get c,del b,del b,,json,find a".split(b","),
    "no input": [],
    **{f"the lines {lines}": lines.split(b",") for lines in SHORT},
    **{f"the bad line {line}": [line, b"all"] for line in BAD},
    "the greatest input": [b""] * (MOST + 1),
    "one byte more": [b""] * (MOST + 2),
    "the longest line": [LONGEST],
    "the longest line and a line feed": [LONGEST, b""],
    "long values": long_values(),
    "long keys": long_keys(),
    "each character": characters(),
    "places": puts(70000) + [b"find %05d" % key for key in [0, 9, 10, 11, 999, 1000, 1001, 65535, 65536, 69999, 70000]],
    "65537 puts": puts(65537) + [b"put 65536 w", b"get 65536", b"find 65537"],
    "removals": removals(),
    "few names twice": changes(3),
    "2001 names twice": changes(2001),
    "20001 names twice": changes(20001),
    "a bad line of 101 bytes": [b"put a 1", b"get " + b"a" * 96 + b" ", b"all"],
    "a bad line of 100000 bytes": [b"put a 1", b"find " + b"a" * 99994 + b"\x7f", b"all"],
    "a bad line with a nul": [b"put a 1", b"", b"put a\0b 1", b"all"],
    "a bad line at 65537": [b""] * 65536 + [b"put"],
    "a bad line at 100000": [b"get a"] * 99999 + [b"all "],
    "keys that fall": [b"put %06d v" % key for key in range(30000, 0, -1)],
    "one key": [b"put a 1"] * 131072,
    "put and del": [b"put a 1", b"del a"] * 70000,
    **{f"{word} each time": [it for key in range(2000, 0, -1) for it in (b"put %04d v" % key, word.encode())] for word in ("all", "json")},
}


def rows():
    """The inputs, by their names."""
    return {name: b"\n".join(lines) for name, lines in LINES.items()}


def searches(given):
    """How often the lines of an input search the names: each that calls the map by a name does once."""
    return len(re.findall("^(?:put|get|del|find) ", given, re.MULTILINE))


def files():
    """The files of the crate, by their names."""
    out, status = told(pathlib.Path(__file__).with_name("stdin").read_bytes())
    return {"stdout": out.decode(), "status": f"{status}\n"}
