"""The rows of maps over pairs of other sizes, which the program makes in `sizes`, each with its output from plain lists of numbers."""
import bisect
import functools
import itertools
import operator

# The key before those of a map, and the first of these.
BEFORE, FIRST = 10000, 10002
KINDS = [f"{kind} {store}" for kind in ("small", "set", "wide") for store in ("vec", "columns")]
COPIES = "try_clone to_boxed_keys_values to_boxed_keys to_boxed_values to_borrowed_keys_values".split()
BULK = "extend extend_from_vec extend_from_litemap extend_with from_iter from_vec".split()
EACH = "insert try_append entry remove entry_remove".split()
LOOKS = "find_index contains_key get get_mut entry_get index_range range_back".split()


class Map:
    """A map: its keys in ascending order, and the value of each. All are 0 in a set."""

    def __init__(self, has_values, pairs):
        self.has_values = has_values
        self.values = {key: value * has_values for key, value in pairs}
        self.keys = sorted(self.values)

    def sum(self):
        """The sum of the pairs: of each the key three times and the value, times its index plus one."""
        return sum(map(operator.mul, itertools.count(1), (3 * key + self.values[key] for key in self.keys)))

    def place(self, key):
        return bisect.bisect_left(self.keys, key)

    def put(self, pairs):
        self.__init__(self.has_values, [*self.values.items(), *pairs])

    def take(self, keys):
        self.__init__(self.has_values, [(key, value) for key, value in self.values.items() if key not in keys])

    def make(self, call, first, given):
        keys, pairs = given, [(key, key + 1) for key in given]
        if call in COPIES:
            return self.sum()
        if call in EACH:
            return sum(self.put_or_take(call, key) for key in keys)
        if call == "split_off":
            later = Map(self.has_values, [(key, self.values[key]) for key in self.keys[self.place(keys[0]) :]])
            self.take(later.values)
            return later.sum()
        if call == "rename":
            is_there = keys[0] in self.values
            if is_there:
                self.values[keys[1]] = self.values.pop(keys[0])
                self.keys = sorted(self.values)
            return int(is_there)
        if call == "retain":
            self.take(range(first, 10**9))
            return 0
        if call.startswith("from_"):
            self.__init__(self.has_values, pairs)
            return 0
        left = Map(self.has_values, [(key, self.values[key]) for key in {*keys} & {*self.keys}])
        if call != "reserve":
            self.put(pairs)
        return left.sum() if call in ("extend_from_litemap", "extend_with") else 0

    def put_or_take(self, call, key):
        """A call of one key: whether it is placed or removed."""
        place, is_there = self.place(key), key in self.values
        if call in ("remove", "entry_remove"):
            if is_there:
                del self.keys[place], self.values[key]
            return is_there
        if call == "insert" or not is_there and (call == "entry" or place == len(self.keys)):
            self.values[key] = (key + 1) * self.has_values
            self.keys[place : place + is_there] = [key]
            return not is_there
        return False

    def look(self, call, key):
        """What a lookup tells of a key."""
        place, is_there = self.place(key), key in self.values
        if call == "index_range":
            starts, ends = (place, place + is_there, 0), (place + is_there, place, len(self.keys))
            return sum(start + max(start, end) for start in starts for end in ends)
        if call == "range_back":
            return self.keys[place - 1] if place else 0
        return {"find_index": place, "contains_key": is_there}.get(call, self.values.get(key, 0))


def pairs(length):
    return [(key, key) for key in range(FIRST, FIRST + 2 * length, 2)]


@functools.cache
def looked_up(has_values, length):
    """A map that stays, and its sum."""
    made = Map(has_values, pairs(length))
    return made, made.sum()


@functools.cache
def answer(has_values, call, length, first, count, step):
    given = [first + place * step for place in range(count)]
    if call in LOOKS:
        made, total = looked_up(has_values, length)
        return f"{sum(made.look(call, key) for key in given)} {total}"
    made = Map(has_values, pairs(length))
    told = made.make(call, first, given)
    return f"{told} {made.sum()}"


def line(kind, call, length, first=0, count=0, step=0):
    """A row, and its output."""
    return f"{kind} {call} {length} {first} {count} {step % 2**32}", answer(not kind.startswith("set"), call, length, first, count, step)


def some(length):
    """Calls at a length: of one key at both ends and in the middle, of many, and of the whole map."""
    end, middle = FIRST + 2 * length, FIRST + length // 2 * 2
    for call in EACH:
        yield from ((call, length, key, 1, 1) for key in sorted({FIRST - 1, FIRST, middle, middle + 1, end - 2, end}))
    yield from (("split_off", length, key, 1, 1) for key in sorted({FIRST, middle, end - 2, end - 1}))
    yield from (("rename", length, key, 2, new_key - key) for key in {FIRST, middle, end - 2} for new_key in {FIRST - 1, middle + 1, end})
    yield from (("retain", length, key) for key in (FIRST, middle, end))
    yield from (("reserve", length, more) for more in (1, length))
    # Above all, below all, between, equal, in descending order, each key twice; and few among many.
    given = [(end, 1, 1), (end, length, 1), (1, 1, 1), (1, length, 1), (FIRST - 1, length, 2), (FIRST, length, 2), (2 * end, length, -1), (end, 3, 0)]
    given += [(middle + 1, count, step) for count in (1, 3, 17) for step in (2, -2)]
    yield from ((call, length, *it) for call in BULK for it in given)


# The lengths of maps; those of maps of wide keys are fewer.
LENGTHS, WIDE = [*range(65), 100, 129, 513, 1000], [*range(14), 16, 17, 20, 21, 31, 32, 33, 63, 64, 1000]


def swept(length):
    """Calls at each key, of short maps at each gap too."""
    keys, end = range(FIRST - (length < 1000), FIRST + 2 * length, 1 + (length == 1000)), FIRST + 2 * length
    yield from ((call, length, key, 1, 1) for call in ("split_off", "entry_remove") for key in keys)
    yield from (("rename", length, key, 2, new_key - key) for key in keys for new_key in (FIRST - 1, end))
    yield from ((call, length, FIRST - 1, 2 * length + 1, 1) for call in LOOKS)


def calls(kind):
    lengths = WIDE if kind.startswith("wide") else LENGTHS
    calls = [it for length in lengths for it in some(length)]
    calls += [(call, length) for length in lengths if length not in (100, 129, 513) for call in COPIES]
    # Natural growth from nothing, in each order, and by room for one more around each power of two.
    calls += [(call, 0, first, count, step) for call in EACH[:3] for count in (*range(65), 129, 1025) for first, step in ((1, 1), (5000, -1))]
    calls += [("reserve", 2**power + more, 1) for power in range(13) for more in (-1, 0, 1)]
    # Iterators that promise more pairs than they have.
    promises = (3, 100, 65537, 100001, 10**6, 10**8)
    calls += [(call, length, FIRST + 1, 3, promised) for call in ("promised", "from_promised") for length in (0, 5, 1000) for promised in promises]
    return [*calls, *(call for length in ((64, 1000) if kind.startswith("small") else (64,)) for call in swept(length))]


# Many lookups in a long map, whose time bin/requests bounds.
TIMED = "".join(f"small {store} {call} 500000 {BEFORE} 100001 10\n" for store in ("vec", "columns") for call in LOOKS)


@functools.cache
def rows():
    """All other rows, with the output of each."""
    return [line(kind, *call) for kind in KINDS for call in calls(kind)]


def timed():
    """The rows whose time is bounded, with the output of each."""
    return [line(f"{kind} {store}", call, *map(int, words)) for kind, store, call, *words in map(str.split, TIMED.splitlines())]


def sample():
    """What is stored: of each call over each kind of pairs and store the first row of a map of twenty pairs or more."""
    found = {}
    for row, told in rows():
        *words, length, _, _, _ = row.split(" ")
        if int(length) >= 20:
            found.setdefault(" ".join(words), (row, told))
    return found.values()
