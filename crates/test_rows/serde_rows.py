"""Maps through serde: the rows `WHAT TEXT`, and the output of each.

The output comes from Python's readers of JSON, TOML and CSV and from its order of numbers and bytes, or is written by hand with
the rows; none of it comes from the program itself.
"""
import csv
import io
import json
import tomllib

WHOLE = {"u8": (0, 2**8 - 1), "i64": (-(2**63), 2**63 - 1), "u128": (0, 2**128 - 1)}
COUNTS = '{"b":{"x":2,"y":10},"a":{}}'


def printed(value):
    return json.dumps(value, ensure_ascii=False, separators=(",", ":"))


def map_again(what, text):
    """The output for a map that is read from an object or from pairs: the last pair of each key, in the order of the keys."""
    found, key_of = json.loads(text), json.loads if what in (*WHOLE, *SMALL, "words", "bool") else str
    pairs = [(key_of(name), item) for name, item in found.items()] if isinstance(found, dict) else found
    # A name if the keys are words, `true` if they are booleans.
    named = sorted(dict(map(tuple, pairs)).items(), key=lambda pair: pair[0].encode() if isinstance(pair[0], str) else pair[0])
    return printed({name if isinstance(name, str) else printed(name): item for name, item in named})


# The type that each row is read as, its text, and its output. None stands for `map_again`, and SAME for the text itself.
SAME = "same"
MAPS = [
    # a map or a sequence of pairs; the last of equal keys stays
    *[(what, text, None) for what in ("u8", "i64", "u128") for text in (
        "{}", "[]", '{"2":1,"1":3}', "[[2,1],[1,3]]", '{"2":1,"1":3,"2":4}', "[[2,1],[1,3],[2,4]]", "[[7,1],[7,2],[7,3]]",
        ' { "10" : 1 , "9" : 2 } ', " [ [ 10 , 1 ] , [ 9 , 2 ] ] ")],
    ("bool", '{"true":false,"false":true}', None), ("bool", "[[true,true],[false,true],[true,false]]", None),
    ("char", '{"é":"a","b":"\U0001f600"}', None), ("char", '[["z","y"],["a","b"]]', None),
    ("text", r'{"b\n":"\u00e9","":"\"","b":"\\"}', None), ("text", '[["é","1"],["z","2"],["é","3"]]', None),
    ("text", '{"\uffff":"1","\U00010000":"2","b":"3","B":"4"}', None),
    ("lent", '{"b":"x","a":"y","b":"z"}', None), ("lent", '[["b","x"],["a","y"]]', None), ("words", '{"10":"x","9":"y"}', None),
    ("words", printed({str(number): "x" * number for number in range(30, 0, -1)}), None),
    ("words", printed([[number % 22, str(number)] for number in range(30, 0, -1)]), None),
    # the kinds of items
    ("levels", '{"high":1,"low":2,"middle":3}', '{"low":2,"middle":3,"high":1}'), ("levels", '[["low",1],["low",2]]', '{"low":2}'),
    ("f64", '{"a":1.5,"b":-0.25,"c":3,"d":0.1}', '{"a":1.5,"b":-0.25,"c":3.0,"d":0.1}'),
    ("option", '{"b":null,"a":7}', None), ("list", '{"b":[2,1],"a":[]}', None),
    ("tree", '{"a":{"y":1,"x":2,"y":3}}', '{"a":{"x":2,"y":3}}'),
    ("value", '{"b":[1,"x",null,{"z":true}],"a":{}}', None),
    # maps in maps, in vectors, in an option
    ("nested", '{"b":{"1":{"x":2}},"a":{}}', '{"a":{},"b":{"1":{"x":2}}}'), ("nested", '{"a":{"2":{},"1":{"y":1,"x":2,"y":3}}}', '{"a":{"1":{"x":2,"y":3},"2":{}}}'),
    ("nested", '[["a",[[2,[]],[1,[["x",1]]]]]]', '{"a":{"1":{"x":1},"2":{}}}'), ("nested", '{"a":{"x":{}}}', "syntax"), ("nested", '{"a":{"-1":{}}}', "data"),
    ("vector", '[{"b":1,"a":2},{},[["c",3]]]', '[{"a":2,"b":1},{},{"c":3}]'), ("vector", "[]", SAME), ("vector", '[{"a":1},7]', "data"),
    ("perhaps", "null", SAME), ("perhaps", '{"b":1,"a":2}', '{"a":2,"b":1}'), ("perhaps", "7", "data"),
    # keys that have no text: they are written as pairs, and not as a map
    ("places", '{"at":[[[2,1],"p"],[[-1,5],"q"],[[2,1],"r"]]}', '{"at":[[[-1,5],"q"],[[2,1],"r"]]}'),
    *[("places", printed({"at": [[[number, 0], str(number)] for number in range(count, 0, -1)]}),
       printed({"at": [[[number, 0], str(number)] for number in range(1, count + 1)]})) for count in (30, 100, 101, 1000)],
    ("places", '{"at":[]}', SAME), ("places", '{"at":{}}', '{"at":[]}'), ("places", '{"at":[[[2],"p"]]}', "data"), ("places", "{}", "data"),
    ("points", "[[[2,1],7]]", "not written"), ("points", "[]", "{}"),
    # the forms of enums, and members among others
    ("inner", '{"files":{"b":1,"a":2},"kind":"Copy"}', '{"kind":"Copy","files":{"a":2,"b":1}}'), ("inner", '{"kind":"Stop"}', SAME),
    ("inner", '{"kind":"Copy"}', "data"), ("inner", '{"files":{}}', "data"),
    ("either", '{"b":1,"a":2}', '{"a":2,"b":1}'), ("either", '[["b",1],["a",2]]', '{"a":2,"b":1}'), ("either", "[2,1]", SAME),
    ("either", "[]", "{}"), ("either", '{"a":"x"}', "data"), ("either", '[["b",1],2]', "data"),
    ("flat", '{"ports":{"b":1,"a":2},"id":7,"flags":{"true":false}}', '{"id":7,"ports":{"a":2,"b":1},"flags":{"true":false}}'),
    ("flat", '{"id":7}', '{"id":7,"flags":{}}'), ("flat", '{"id":7,"ports":{},"flags":[]}', '{"id":7,"flags":{}}'), ("flat", '{"id":7,"ports":7}', "data"),
    ("config", '{"names":{"b":"2","a":"1"},"limits":[["x",1],["x",2]],"title":"t"}', '{"title":"t","names":{"a":"1","b":"2"},"limits":{"x":2}}'),
    ("config", '{"title":"t","names":{},"limits":{}}', '{"title":"t","names":{}}'), ("config", '{"title":"t","names":{}}', SAME),
    ("config", '{"title":"t"}', "data"), ("config", '{"title":"t","names":{},"names":{}}', "data"), ("config", '{"title":"t","names":null}', "data"),
    # a string with an escape can't be borrowed
    ("lent", r'{"a":"\n"}', "data"), ("lent", r'{"\u0061":"x"}', "data"),
    # as deep as the format lets values nest, and one deeper
    ("value", '{"a":' + "[" * 126 + "]" * 126 + "}", SAME), ("value", '{"a":' + "[" * 127 + "]" * 127 + "}", "syntax"),
    ("value", '[["a",' + "[" * 125 + "]" * 125 + "]]", '{"a":' + "[" * 125 + "]" * 125 + "}"),
    ("value", '[["a",' + "[" * 126 + "]" * 126 + "]]", "syntax"),
    # texts that aren't JSON, and texts that end early
    *[("text", text, "syntax") for text in (
        '{"a":"b",}', '{"a" "b"}', "{a:1}", '{"a":"b"}}', '{"a":"b"} 7', '{"a":"b"]', '[["a","b"],]', '[["a","b"]}', "[[,]]", "}", "]", "?")],
    *[("text", text, "eof") for text in ("", " ", "{", "[", "[[", '[["a"', '{"a', '{"a":', '{"a":"b"', '{"a":"b",', '[["a","b"],', '"a')],
    # each proper prefix of a map of maps ends too early
    *[("counts", text[:size], "eof") for text in (COUNTS, '[["a",[["b",12]]]]', "{}", ' {"a":{"b":1}}') for size in range(len(text))],
    ("counts", COUNTS, '{"a":{},"b":{"x":2,"y":10}}'), ("counts", '[["a",[["b",12]]]]', '{"a":{"b":12}}'),
]


def whole_numbers():
    """Each type's least and greatest value and one past each, as names, as keys in pairs, and as items."""
    for what, (least, most) in WHOLE.items():
        for number in (least, least + 1, most - 1, most):
            yield from ((what, text % (number, number), None) for text in ('{"%d":%d}', "[[%d,%d]]"))
        for number in (least - 1, most + 1):
            yield from ((what, text % number, "data") for text in ('{"%d":1}', '{"1":%d}', "[[%d,1]]"))


def wrong_types():
    """A value of another type at each index, as a key and as an item, and in place of a pair and of the map."""
    good = ['[1,"a"]', '[2,"b"]', '[3,"c"]']
    for place in range(3):
        for bad in ("[1,7]", "[1,null]", "[1,true]", "[1,[]]", "[1,{}]", '["x","a"]', '[null,"a"]', '[[],"a"]', '[{},"a"]', '[1.5,"a"]',
                    '[-1,"a"]', "[]", "[1]", '[1,"a",2]', "7", "null", '"x"', "{}", '{"1":"a"}'):
            yield "words", "[" + ",".join([*good[:place], bad, *good[place + 1:]]) + "]", "data"
        members = ['"1":"a"', '"2":"b"', '"3":"c"']
        for bad in ('"1":7', '"1":null', '"1":[]', '"1":{}', '"-1":"a"', '"1.5":"a"', '"x":"a"', '"":"a"'):
            # A name that isn't a number is a syntax error, as in the Rust crate.
            fault = "syntax" if bad in ('"x":"a"', '"":"a"') else "data"
            yield "words", "{" + ",".join([*members[:place], bad, *members[place + 1:]]) + "}", fault
    yield from ((what, bad, "data") for what in "words text bool nested".split() for bad in ("7", "1.5", "true", "null", '"x"'))
    for what, bad in (("bool", '{"True":true}'), ("bool", '{"true":1}'), ("char", '{"ab":"c"}'), ("char", '{"a":"bc"}'), ("levels", '{"Low":1}'),
                      ("f64", '{"a":"1"}'), ("option", '{"a":"x"}')):
        yield what, bad, "data"


def many():
    """Long maps from objects, in three orders, in which each key stands twice."""
    for count in (1000, 10000):
        answer = printed({str(number): 2 * number for number in range(count)})
        for step in (1, 379, count - 1):
            pairs = [(number, 3 * number) for number in range(count)] + [(place * step % count, place * step % count * 2) for place in range(count)]
            yield "i64", "{" + ",".join(f'"{key}":{item}' for key, item in pairs) + "}", answer


# Longer maps are read in one order, as sequences: `many` has objects.
MOST_IN_EACH_ORDER = 1000


def orders(count):
    """Keys in each order: ascending, descending, in none; with equal ones in a row, apart, at both ends, and all equal."""
    rising = [*range(count)]
    if count < 2:
        return [rising]
    orders = [rising, rising[::-1], [place * 7919 % count for place in rising], [place // 2 for place in rising], [place // 3 for place in rising[::-1]]]
    orders += [[place % (count // 2) for place in rising], [*rising[:-1], 0], [count, *rising[2:], count], [0, *rising[1:-1], count - 2], [7] * count]
    return orders[5:6] if count > MOST_IN_EACH_ORDER else orders


def of_every_length():
    """Maps of none to many pairs from objects and sequences, lent and owned, and from tables and arrays of TOML and rows of CSV."""
    for keys in (keys for count in (0, 1, 2, 30, 31, 100, 1000, 10000) for keys in orders(count)):
        pairs = [(key, place) for place, key in enumerate(keys)]
        last = dict(sorted(dict(pairs).items()))
        for what, show in (("i64", int), ("lent", str)):
            if len(pairs) <= MOST_IN_EACH_ORDER:
                yield what, "{" + ",".join(f'"{key}":{printed(show(item))}' for key, item in pairs) + "}", None
            yield what, printed([[show(key), show(item)] for key, item in pairs]), None
        if len(last) == len(pairs):
            yield "toml-u32", printed("".join(f"{key} = {item}\n" for key, item in pairs)), printed("".join(f"{it} = {last[it]}\n" for it in last))
        named = {str(key): item for key, item in pairs}
        counts = "[a]\n" + "".join(f"{name} = {named[name]}\n" for name in sorted(named))
        array = ", ".join(f"['{key}', {item}]" for key, item in pairs)
        yield "toml-counts", printed(f"a = [{array}]\n"), printed(counts)
        header, fields = (",".join(map(str, column)) for column in (keys, range(len(keys))))
        yield "csv-rows", printed(f"{header}\n{fields}\n"), printed([{name: str(named[name]) for name in sorted(named)}] if keys else [])
        rows = "".join(f"{key},{item}\n" for key, item in pairs)
        yield "codes", printed(f"code,name\n{rows}"), printed({str(key): str(item) for key, item in last.items()})


# Items of one byte and of none.
SMALL = {"bytes": lambda place: place % 256, "bits": lambda place: place % 3 == 0, "units": lambda _: None}


def small():
    """Maps of 100 and of 1,000 pairs with small items, and with keys of one byte, from objects and sequences."""
    for count in (100, 1000):
        for keys in orders(count):
            for what, item in SMALL.items():
                yield what, printed({str(key): item(place) for place, key in enumerate(keys)}), None
                yield what, printed([[key, item(place)] for place, key in enumerate(keys)]), None
            yield "u8", "{" + ",".join(f'"{key % 256}":{place % 256}' for place, key in enumerate(keys)) + "}", None
            yield "u8", printed([[key % 256, place % 256] for place, key in enumerate(keys)]), None


def faults():
    """An error at each index to 12 and at later ones, after keys that ascend, that descend and that are equal, with right pairs after it."""
    bad_pairs = ('[1,"x"]', "[1,null]", '["x",1]', "[null,1]", "[1.5,1]", "[1]", "[1,1,1]", "[]", "7", "null")
    bad_members = (('"1":"x"', "data"), ('"1":1.5', "data"), ('"1.5":1', "data"), ('"x":1', "syntax"))
    for place in (*range(13), 33, 999):
        for keys in ([*range(place + 3)], [*range(place + 3, 0, -1)], [7] * (place + 3)):
            among = lambda good, bad: [*map(good, keys[:place]), bad, *map(good, keys[place + 1 :])]
            for bad in bad_pairs:
                yield "i64", "[" + ",".join(among("[{0},{0}]".format, bad)) + "]", "data"
            for bad, fault in bad_members:
                yield "i64", "{" + ",".join(among('"{0}":{0}'.format, bad)) + "}", fault
            for good, bad in (("[{0},{0}],", "[[1,"), ('"{0}":{0},', '{"1":')):
                yield "i64", bad[:1] + "".join(map(good.format, keys[:place])) + bad[1:], "eof"
            for bad in ("[1, 1]", "['k', -1]", "['k']", "7"):
                yield "toml-counts", printed("a = [" + ", ".join(among("['{0}', {0}]".format, bad)) + "]\n"), "refused"
            yield "codes", printed("code,name\n" + "".join(among("{0},{0}\n".format, "x,1\n"))), "refused"
            if len({*keys}) == len(keys):
                for bad in ("x = 1\n", f"{place + 9} = -1\n", f"{place + 9} = 'x'\n"):
                    yield "toml-u32", printed("".join(among("{0} = {0}\n".format, bad))), "refused"


# Configurations in TOML.
TOML = [
    'title = "t"\n[names]\nb = "2"\na = "1"\n[limits]\nz = 3\ny = 4\n', 'title = ""\nnames = { "b c" = "x", a = "y" }\n', 'title = "t"\n[names]\n',
    'title = "t"\n[limits]\na = 1\n[names]\nde = "Deutsch"\n', 'title = "t"\n[names]\n[limits]\n',
    'title = 7\n[names]\n', 'title = "t"\n', 'title = "t"\n[names]\na = 1\n', 'title = "t"\n[names]\n[limits]\na = -1\n',
    'title = "t"\n[names]\n[limits]\na = 4294967296\n', 'title = "t"\nnames = 7\n', 'title = "t"\n[names]\na = "1"\na = "2"\n', "title",
    'title = "t"\nnames = [["b", "2"], ["a", "1"], ["b", "3"]]\n', 'title = "t"\nnames = [["b"]]\n', 'title = "t"\nlimits = []\nnames = []\n',
]
DEFAULTS = {"title": "defaults", "names": {"de": "German"}, "limits": {"depth": 8, "lines": 100}}


def table_of(value, of):
    """The map that is read from a table or an array of pairs, with items of a type."""
    pairs = value.items() if isinstance(value, dict) else [tuple(pair) for pair in value]
    if any(len(pair) != 2 or type(pair[1]) is not of or of is int and not 0 <= pair[1] < 2**32 for pair in pairs):
        raise ValueError
    return dict(sorted(pairs))


def config_of(text):
    """The configuration that is read from a TOML text, or None."""
    try:
        found = tomllib.loads(text)
        config = {"title": found["title"], "names": table_of(found["names"], str), "limits": table_of(found.get("limits", {}), int)}
        return config if isinstance(config["title"], str) else None
    except (ValueError, KeyError, AttributeError, TypeError):
        return None


def toml_of(config):
    """The TOML text of a configuration: a table for each map, without the limits if there are none."""
    lines = [f'title = {printed(config["title"])}', "", "[names]"]
    lines += [f"{name_of(name)} = {printed(item)}" for name, item in sorted(config["names"].items())]
    if config["limits"]:
        lines += ["", "[limits]", *(f"{name_of(name)} = {item}" for name, item in sorted(config["limits"].items()))]
    text = "\n".join(lines) + "\n"
    assert config_of(text) == config
    return printed(text)


def name_of(name):
    return name if name and all(letter.isalnum() or letter in "-_" for letter in name) else printed(name)


def toml_rows():
    """Configurations from TOML, and the same over the defaults."""
    for text in TOML:
        config = config_of(text)
        yield "toml-config", printed(text), toml_of(config) if config else "refused"
        over = config and {**DEFAULTS, "limits": {**DEFAULTS["limits"], **config["limits"]}}
        yield "overlay", printed(text), toml_of(over) if over else "refused"
    yield "overlay", printed('title = ""\n[names]\n[limits]\nlines = 5\ndepth = 0\nwidth = 80\n'), toml_of(
        {**DEFAULTS, "limits": {"depth": 0, "lines": 5, "width": 80}})
    for what, text, answer in (
        ("toml-text", 'b = "x"\na = "y"\n', 'a = "y"\nb = "x"\n'), ("toml-text", "", ""), ("toml-text", "a = 1\n", None),
        ("toml-u32", "10 = 1\n9 = 2\n", "9 = 2\n10 = 1\n"), ("toml-u32", "x = 1\n", None),
        ("toml-u32", "".join(f"{number} = {number}\n" for number in range(30, 0, -1)), "".join(f"{it} = {it}\n" for it in range(1, 31))),
        ("toml-counts", "[b]\nx = 1\n[a]\n", "[a]\n\n[b]\nx = 1\n"), ("toml-counts", "a = [['y', 1], ['x', 2]]\n", "[a]\nx = 2\ny = 1\n"),
        ("toml-counts", "a = 1\n", None),
    ):
        yield what, printed(text), "refused" if answer is None else printed(answer)


CSV = [
    "code,name\n2,two\n1,one\n", "code,name\n", "", "code,name\n1,a\n2,b\n1,c\n", 'code,name\n7,"a, b"\n5,"say ""hi"""\n', "code,name\r\n1,é\r\n",
    "code,name\n10,x\n9,y\n", "code,name\nx,y\n", "code,name\n-1,y\n", "code,name\n1\n", "code,name\n4294967296,y\n", "code,name\n4294967295,\n",
]


def csv_rows():
    """Tables of codes and names."""
    for text in CSV:
        rows = list(csv.reader(io.StringIO(text)))[1:]
        fit = all(len(row) == 2 and row[0].isdigit() and int(row[0]) < 2**32 for row in rows)
        answer = printed({str(code): name for code, name in sorted({int(code): name for code, name in rows}.items())}) if fit else "refused"
        yield "codes", printed(text), answer
        fit = all(len(row) == 2 for row in rows)
        yield "csv-rows", printed(text), printed([{"code": code, "name": name} for code, name in rows]) if fit else "refused"
    yield "csv-rows", printed("b,a,b\n1,2,3\n"), '[{"a":"2","b":"3"}]'


def rows(_):
    """The rows, each with its output. None of them has a title."""
    rows = [*MAPS, *whole_numbers(), *wrong_types(), *many(), *of_every_length(), *small(), *faults(), *toml_rows(), *csv_rows()]
    rows = [(what, text, map_again(what, text) if answer is None else answer) for what, text, answer in rows]
    return [(f"{what} {text}", text if answer is SAME else answer) for what, text, answer in rows]
