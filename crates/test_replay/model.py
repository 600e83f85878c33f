"""A model of a map as a plain list of pairs, and the lines of data that `test_replay` reads, which bin/data writes.

The files data/*.calls have each call of a map and of a store, at lengths around every limit and at each kind of index, with what
it returns, the pairs after it, and a bound on its comparisons. Nothing here runs the code under test. The cases of `rows` are
written by hand there, without results. A sample of the lines is stored, and bin/requests runs all of them.
"""
import bisect
import collections
import functools
import itertools
import math
import pathlib
import re

FOLDER = pathlib.Path(__file__).resolve().parent
STEP, MASK = 1099511628211, 2**64 - 1
# Past this length each search may make as many comparisons as the one that makes the most.
LONG = 20000
# The most pairs that std sorts by inserting each.
INSERTED = 20
# Lengths around those at which the libraries take another way: none, one, a sort without memory, a vector's first room, and more.
LENGTHS = [0, 1, 2, 3, 4, 5, 7, 8, 9, 12, 16, 17, 20, 21, 24, 30, 33, 65, 100, 129, 513, 1000]
# The stores, by their names in src/run.rt: those that grow, those of them that lend a slice, and all that have lines.
GROWING = "vec columns short"
SLICED = "vec short"
ALL = GROWING + " fixed"
# A row of calls/arguments.txt, whose first line says what its columns are.
Group = collections.namedtuple("Group", "often over words refused names")


def table_of(name):
    """The rows of a table of calls, whose first line says what its columns are."""
    return (FOLDER / "calls" / name).read_text(encoding="utf-8").splitlines()[1:]


GROUPS = {}
for row in table_of("arguments.txt"):
    name, often, over, words, refused, names = row.split(" | ")
    GROUPS[name] = Group(int(often), over, words.replace("-", "").split(), refused, names.split(" "))
# The group of each call.
GROUP_OF = {name: it for it in GROUPS.values() for name in it.names}


def named(*groups):
    """The calls of some groups."""
    return [*dict.fromkeys(name for it in groups for name in GROUPS[it].names)]


def spelled(*groups, **given):
    """Each call of some groups, with each of the words that are given for the kinds of its words."""
    for it in groups:
        for name in dict.fromkeys(GROUPS[it].names):
            yield from (" ".join([name, *map(str, words)]).rstrip() for words in itertools.product(*(given[kind] for kind in GROUPS[it].words)))


@functools.cache
def searched(size, place, is_there):
    """The most comparisons of a search that ends at a place. Stores round the half of what is left up or down."""
    if size > LONG:
        return size.bit_length()
    most = 0
    for rest in (0, 1):
        low, left, cost = 0, size, 0
        while left:
            middle, cost = low + (left - rest) // 2, cost + 1
            if is_there and middle == place:
                break
            low, left = (middle + 1, low + left - middle - 1) if middle < place else (low, middle - low)
        most = max(most, cost)
    return most


def sorting(keys):
    """The most comparisons of a sort of keys that don't ascend, and of a test which of them are equal. No contract bounds them."""
    number = len(keys)
    if number <= INSERTED:
        # each is inserted among those before
        sort = sum(min(1 + sum(key > keys[place] for key in keys[:place]), place) for place in range(number))
    elif all(high > low for high, low in zip(keys, keys[1:])):
        sort = number - 1
    else:
        sort = number + number * number.bit_length()
    return sort + number - 1


# What a key is compared by, by the name of its order.
RANKS = {
    "number": int,
    "falling": lambda word: -int(word),
    "same": lambda _: 0,
    "letter": lambda word: ord(word.lower()),
    "text": str.encode,
    "length": lambda word: len(word.encode()),
}


class Model:
    """A map: the order of its keys by its name, its pairs as words, and its room, if that is fixed."""

    def __init__(self, order, pairs=(), room=math.inf):
        self.order, self.rank, self.pairs, self.room = order, RANKS[order], list(pairs), room
        # The number of a word: of a text the one whose bytes, from the highest one on, are those of the text.
        self.code = int if order in ("number", "falling") else lambda word: int.from_bytes(word.encode().ljust(8, b"\0"), "big")

    def text(self, pairs):
        pairs = list(pairs)
        if len(pairs) <= 6:
            return " ".join(f"{key}:{value}" for key, value in pairs) or "-"
        total = 0
        for key, value in pairs:
            total = (((total ^ self.code(key)) * STEP & MASK) ^ value) * STEP & MASK
            total ^= total >> 29
        return f"#{len(pairs)}:{total % 10**9}"

    def place(self, key):
        """The number of smaller keys, and whether an equal one is present."""
        rank = self.rank
        below = bisect.bisect_left(self.pairs, rank(key), key=lambda pair: rank(pair[0]))
        return below, below < len(self.pairs) and rank(self.pairs[below][0]) == rank(key)

    def search(self, key):
        """The most comparisons of a search for a key."""
        return searched(len(self.pairs), *self.place(key))

    def searches(self, pairs):
        """The most comparisons of insertions, each by a search, and whether each key was absent."""
        there, rank = [self.rank(key) for key, _ in self.pairs], self.rank
        cost, absent = 0, []
        for key, _ in pairs:
            place = bisect.bisect_left(there, rank(key))
            absent.append(place == len(there) or there[place] != rank(key))
            cost += searched(len(there), place, not absent[-1])
            if absent[-1]:
                there.insert(place, rank(key))
        return cost, absent

    def last(self, pairs):
        """The last pair of each key, in ascending order."""
        kept = {self.rank(pair[0]): pair for pair in pairs}
        return [kept[rank] for rank in sorted(kept)]

    def rises(self, pairs):
        ranks = [self.rank(key) for key, _ in pairs]
        return all(low < high for low, high in zip(ranks, ranks[1:]))

    def taken(self, count=1):
        """Takes room for so many pairs, if it is there."""
        if self.room < count:
            return False
        self.room -= count
        return True

    def put(self, key, value, place=None):
        """Inserts an absent key, at its place if none is given, if there is room. Returns the error if there isn't."""
        if not self.taken():
            return f"refused {key}:{value}"
        self.pairs.insert(self.place(key)[0] if place is None else place, (key, value))
        return None

    def remove(self, index):
        self.room += 1
        return self.pairs.pop(index)

    def bounds(self, words):
        """The indices between two bounds."""
        low, first, high, last = words
        start, end = 0, len(self.pairs)
        if low != "-":
            place, there = self.place(first)
            start = place + (there and low == "out")
        if high != "-":
            place, there = self.place(last)
            end = place + (there and high == "in")
        return start, max(start, end)

    def given(self, words):
        """The pairs that these words stand for."""
        pairs = []
        for word in words:
            if ":" in word:
                key, value = word.split(":")
                pairs.append((key, int(value)))
            elif not word.startswith("room="):
                first, count, step = map(int, word.split(","))
                pairs += [(str(first + place * step), place) for place in range(count)]
        return pairs

    def make(self, call):
        """Makes a call: what it returns, and the most comparisons that it makes (None: they have no bound)."""
        name, *words = call.split(" ")
        if name == "sweep":
            return self.sweep(*words)
        search = self.search(words[0]) if name in KEYED else 0
        for group in [self.look, self.by_key, self.put_in, self.enter, self.take, self.walk, self.many]:
            answer = group(name, words)
            if answer is not None:
                return answer if isinstance(answer, tuple) else (answer, search)
        raise ValueError(call)

    def sweep(self, name, *words):
        """Makes a call at each key and each gap: a checksum of what it returns and leaves, and the most comparisons of one."""
        pairs, room, most, total = self.pairs, self.room, 0, 0
        for code in map(str, range(1, 2 * len(pairs) + 2)):
            # `get` leaves the list, which needs no copy then.
            self.pairs, self.room = pairs if name == "get" else list(pairs), room
            answer, cost = self.make(" ".join([name, code, *words]))
            if not name.startswith("lm_"):
                place, there = self.place(code)
                answer += f" {self.pairs[place][1] if there else 'none'} {len(self.pairs)}"
            most = max(most, cost)
            for byte in answer.encode():
                total = (total ^ byte) * STEP & MASK
                total ^= total >> 29
        self.pairs, self.room = pairs, room
        return f"swept {total % 10**9}", most

    def pair_at(self, index):
        return self.text([self.pairs[index]]) if -1 <= index < len(self.pairs) and self.pairs else "none"

    def look(self, name, words):
        pairs, size = self.pairs, len(self.pairs)
        texts = {
            "len": lambda: str(size),
            "lm_len": lambda: str(size),
            "is_empty": lambda: "false" if size else "true",
            "lm_is_empty": lambda: "false" if size else "true",
            "first": lambda: self.pair_at(0),
            "last": lambda: self.pair_at(-1),
            "lm_last": lambda: self.pair_at(-1),
            "get_indexed": lambda: self.pair_at(int(words[0])),
            "lm_get": lambda: self.pair_at(int(words[0])),
            "keys_ascend": lambda: "ok",
            "as_slice": lambda: self.text(pairs),
            "as_sliced": lambda: " ".join([self.text(pairs), f"{size} true" if not size else f"{size} false {self.pair_at(0)}"]),
            "debug": lambda: "{" + ", ".join(f"{key}: {value}" for key, value in pairs) + "}",
            "debug_lines": lambda: " ".join(["{", *(f"    {key}: {value}," for key, value in pairs), "}"]) if size else "{}",
            "lm_debug": lambda: "[" + ", ".join(f"({key}, {value})" for key, value in pairs) + "]",
            "lm_debug_lines": lambda: " ".join(["[", *(f"    (         {key},         {value},     )," for key, value in pairs), "]"]) if size else "[]",
        }
        if name in texts:
            return texts[name]()
        if name in ("into_tuple_vec", "take_range"):
            start, end = map(int, words or (0, size))
            taken, self.pairs = pairs[start:end], pairs[:start] + pairs[end:]
            return self.text(taken)
        if name == "is_sorted_store":
            falls = [place for place in range(1, size) if not self.rises(pairs[place - 1 : place + 1])]
            return ("false" if falls else "true"), falls[0] if falls else max(size - 1, 0)
        if name == "get_indexed_range":
            start, end = map(int, words)
            return self.text(pairs[start:end]) if start <= end <= size else "none"
        if name in ("index_range", "index_range_counted", "range", "iter_range"):
            start, end = self.bounds(words)
            part = pairs[start:end]
            told = f"{self.text(part[-1:]) if part else 'none'} {self.text(part[:-1])}" if name == "iter_range" else self.text(part)
            cost = sum(self.search(key) for bound, key in zip(words[::2], words[1::2]) if bound != "-")
            return (f"{start} {end}" if name.startswith("index") else told), cost
        return None

    def by_key(self, name, words):
        if name in ("get_indexed_mut", "lm_get_mut", "lm_pair_mut", "lm_replace"):
            index, (*new_key, value) = int(words[0]), words[1:]
            if index >= len(self.pairs):
                return "none"
            key, old = self.pairs[index]
            self.pairs[index] = (*(new_key or [key]), int(value))
            return str(old) if name == "get_indexed_mut" else f"{key}:{old}"
        if name not in LOOK_UPS:
            return None
        place, there = self.place(words[0])
        if name.startswith("find_index") or name == "lm_binary_search_by":
            return f"{'ok' if there else 'err'} {place}"
        if name == "contains_key" or not there:
            return str(there).lower() if name == "contains_key" else "absent" if name.startswith("index") else "none"
        key, value = self.pairs[place]
        if words[1:]:
            self.pairs[place] = (key, int(words[1]))
        return f"{key}:{value}" if name == "get_key_value" else str(value)

    def put_in(self, name, words):
        if name not in PUTS:
            return None
        key, value = words[0], int(words[1])
        place, there = self.place(key)
        if name == "try_append":
            return (f"back {key}:{value}" if place < len(self.pairs) else self.put(key, value) or "placed"), 1
        stored, old = self.pairs[place] if there else (key, value)
        if name in ("insert", "insert_counted"):
            if there:
                self.pairs[place] = (stored, value)
            return str(old) if there else self.put(key, value) or "none"
        if name == "insert_indexed":
            return "there" if there else (self.put(key, value) or "placed", 0)
        if name == "try_insert":
            return f"back {key}:{value}" if there else self.put(key, value) or "placed"
        if name.endswith("fail") and not there:
            return f"closure {value} asked 1"
        refused = None if there else self.put(key, value)
        return f"{refused or (f'{place} {old}' if 'get' in name else place)} asked {int(not there)}"

    def enter(self, name, words):
        if name not in ENTRIES + TWICE:
            return None
        # the key, the value if there is one, and what is written into the value that is lent
        key, value, *more = words[0], *[0] * (name == "or_default" or len(words) == 1), *map(int, words[1:])
        place, there = self.place(key)
        stored, old = self.pairs[place] if there else (key, value)
        if name in ("entry_debug", "entry_debug_lines"):
            text = f"OccupiedEntry {{ key: {stored}, value: {old} }}" if there else f"VacantEntry {{ key: {key} }}"
            return re.sub(r"(\w+: \w+),?", r"    \1,", text) if name == "entry_debug_lines" else text
        if name == "entry":
            return f"occupied {stored}" if there else f"vacant {key}"
        if name in ("entry_get", "entry_remove", *TWICE) and not there:
            return "vacant"
        if name.endswith("remove"):
            self.remove(place)
            return f"{old} {value}" if name in TWICE else str(old)
        if name == "entry_get":
            return str(old)
        # how often the closure is asked, if there is one
        asked = {"or_insert": 0, "or_insert_with": not there, "and_modify": there}.get(name)
        asked = "" if asked is None else f" asked {int(asked)}"
        if not there:
            refused = self.put(key, value)
            if refused:
                return refused + asked
        if name in TWICE:
            self.pairs[place] = (stored, *(more or [value]))
            return f"{old} {value}"
        if there and name in ("entry_insert", "entry_get_mut", "entry_into_mut"):
            more = [value]
        elif there and name == "and_modify":
            old += value
        self.pairs[place] = (stored, *(more or [old]))
        return f"{old}{asked}"

    def take(self, name, words):
        if name in TAKES:
            place, there = self.place(words[0])
            key, value = self.remove(place) if there else (None, "none")
            return f"{key}:{value}" if name == "remove_entry" and there else str(value)
        if name in RENAMES:
            value, cost = self.make(f"remove {words[0]}")
            if value == "none":
                return "false", cost
            return "true", cost + self.make(f"insert {words[1]} {value}")[1]
        if name in ("pop_first", "pop_last", "lm_remove"):
            index = {"pop_first": 0, "pop_last": -1}.get(name) if name != "lm_remove" else int(words[0])
            return self.text([self.remove(index)]) if self.pairs else "none"
        if name in ("clear", "lm_clear"):
            self.room += len(self.pairs)
            self.pairs = []
            return "ok"
        if name in ("retain", "lm_retain", "extract"):
            size, marked = len(self.pairs), {False: [], True: []}
            for place, pair in enumerate(self.pairs):
                marked[bool(int(words[0]) >> place % 64 & 1)].append(pair)
            self.pairs = marked[name != "extract"]
            self.room += size - len(self.pairs)
            return self.text(marked[True]) if name == "extract" else str(size)
        if name == "update":
            self.pairs = [(key, value + int(words[0]) + place) for place, (key, value) in enumerate(self.pairs)]
            return str(len(self.pairs))
        return None

    def walk(self, name, words):
        if name in ("iter", "keys", "values"):
            front, back = map(int, words)
            ahead, behind = self.pairs[:front], self.pairs[max(front, len(self.pairs) - back) :][::-1]
            return self.text(part(name, pair) for pair in ahead + behind) + " exact"
        if name == "keys_in_turns":
            # the keys that are taken from either end, as words say, or the number of keys that are left
            left, answers = [key for key, _ in self.pairs], []
            for word in words:
                key = left.pop(0 if word == "next" else -1) if left and word != "len" else "none"
                answers.append(str(len(left)) if word == "len" else key)
            return " ".join(answers)
        if name == "into_iter":
            text, self.pairs = self.text(self.pairs[: int(words[0])]), []
            return text + " exact"
        if name in ("for", "iter_keys", "iter_values"):
            pairs = self.pairs if name == "for" else self.pairs[:1]
            return self.text(part(name[5:], pair) for pair in pairs) + " exact"
        if name in CONVERSIONS:
            cloned = len(self.pairs) * CONVERSIONS[name]
            text = f"{'in order ' * (name == 'to_keys_by')}{self.text(self.pairs)} cloned {cloned}"
            return text, max(len(self.pairs) - 1, 0) * (name == "cloned")
        return self.text(self.pairs) if name == "lm_try_clone" else None

    def cost(self, pairs):
        """The most comparisons of bulk input: by a merge, or in a vector by a search for each of few pairs."""
        if not pairs:
            return 0
        mine, theirs = ([self.rank(key) for key, _ in some] for some in (self.pairs, pairs))
        total, rises = len(mine) + len(theirs), self.rises(pairs)
        # it is tested up to the first pair that doesn't ascend
        tested = next((place for place in range(1, len(theirs)) if theirs[place - 1] >= theirs[place]), len(theirs) - 1)
        below = not mine or mine[-1] < min(theirs)
        # a walk over two lists from their fronts, until one of them ends
        end = 0 if below else min(mine[-1], max(theirs))
        walk = 0 if below else len({key for key in mine + theirs if key <= end})
        merge = tested + (0 if rises else sorting(theirs)) + bool(mine) + walk
        is_few = len(pairs) <= FEW and len(pairs) * total.bit_length() < total and not (rises and below)
        return max(merge, tested + rises + self.searches(pairs)[0] if is_few else 0)

    def many(self, name, words):
        size = int(words[0]) if name in RESERVED else 0
        if size > 2**48:
            return "refused"
        if name in ("clone", "new", "lm_empty", "with_capacity", "lm_with_capacity"):
            if name != "clone":
                self.pairs, self.room = [], size if self.room < math.inf else self.room
            return "ok"
        if name in ("reserve", "lm_reserve"):
            return "ok" if self.room >= size else "refused"
        if name in ("lm_push", "lm_insert"):
            *index, key, value = words
            return self.put(key, int(value), int(index[0]) if index else len(self.pairs)) or "ok"
        if name in READS:
            return self.read(name, words)
        if name == "read_results":
            return self.read_results(words)
        if name == "find_by_slice":
            key, length = map(int, words)
            below, there = min((key - 1) // 2, length), key % 2 == 0 and key <= 2 * length
            return f"{'ok' if there else 'err'} {below}", searched(length, below, there)
        if name == "split_off":
            place, _ = self.place(words[0])
            self.pairs, later = self.pairs[:place], self.pairs[place:]
            return self.text(later)
        if name in RUNS:
            return self.run(words)
        if name.startswith("grow_") or name in ("extend_small", "extend_set"):
            *length, count, step = map(int, words)
            keys = {2 * place for place in range(1, sum(length) + 1)} | {place * step % 10007 for place in range(1, count + 1)}
            return self.text((str(key), 0 if name.endswith("set") else key) for key in sorted(keys))
        return self.of_pairs(name, self.given(words))

    def of_pairs(self, name, pairs):
        if name in (*MAKES, "lm_sort_from_iter", "lm_sort_from_vec"):
            cost = Model(self.order).cost(pairs)
            self.pairs = self.last(pairs)
            return "ok", cost
        if name == "lm_from_pairs":
            self.pairs = pairs
            return "ok"
        if name == "insert_each":
            cost, absent = self.searches(pairs)
            self.pairs = self.last(self.pairs + pairs)
            return str(sum(absent)), cost
        if name in EXTENSIONS:
            return self.extend(name, pairs)
        if name in (*MERGES, "extend_from_clone"):
            return self.merge(self.last(pairs) if name in MERGES else self.pairs)
        if name in COMBINES:
            there, pairs = {self.rank(key) for key, _ in self.pairs}, self.last(pairs)
            asked, searches = sum(self.rank(key) in there for key, _ in pairs), sum(self.search(key) for key, _ in pairs)
            answer, cost = self.merge(self.combined(pairs))
            return f"{answer} asked {asked}", cost + searches
        if name in BESIDE:
            return self.beside(name, self.last(pairs))
        if name in ("lm_extend_end", "lm_extend_start"):
            if not self.taken(len(pairs)):
                return f"refused {self.text(pairs)}"
            self.pairs = self.pairs + pairs if name.endswith("end") else pairs + self.pairs
            return "ok"
        if name in ("eq", "hash", "cmp", "partial_cmp"):
            return self.compare(name, self.last(pairs))
        return None

    def extend(self, name, pairs):
        cost = self.cost(pairs)
        fresh = self.last(pairs)
        above = not self.pairs or not fresh or self.rank(self.pairs[-1][0]) < self.rank(fresh[0][0])
        if above and not self.taken(len(fresh)):
            return "refused" + (f" {self.text(pairs)}" if "_vec" in name else ""), cost
        self.pairs = self.last(self.pairs + pairs)
        return "ok", cost

    def merge(self, pairs):
        old, rank, cost = self.pairs, self.rank, self.merging(pairs)
        there, came = ({rank(key): value for key, value in some} for some in (old, pairs))
        left = [(key, there[rank(key)]) for key, _ in pairs if rank(key) in there]
        kept = [(key, came.get(rank(key), value)) for key, value in old]
        self.pairs = sorted(kept + [pair for pair in pairs if rank(pair[0]) not in there], key=lambda pair: rank(pair[0]))
        return (f"left {self.text(left)}" if left else "none"), cost

    def merging(self, pairs):
        """The most comparisons of a merge: of two ends, and then of a walk over both, or of a search for each new pair."""
        mine, theirs = ([self.rank(key) for key, _ in some] for some in (self.pairs, pairs))
        if not mine or not theirs or mine[-1] < theirs[0]:
            return 1 if mine and theirs else 0
        if theirs[-1] < mine[0]:
            return 2
        total = len(mine) + len(theirs)
        if total <= len(theirs) * total.bit_length():
            # a walk over two lists side by side, until one of them ends
            end = min(mine[-1], theirs[-1])
            return 2 + len({key for key in mine + theirs if key <= end})
        one_by_one, left = self.searches(pairs)[0], len(mine)
        from_the_end = 0
        for key in reversed(theirs):
            place = bisect.bisect_left(mine, key, 0, left)
            from_the_end += searched(left, place, place < left and mine[place] == key)
            left = place
        return 2 + max(one_by_one, from_the_end)

    def combined(self, pairs):
        """These pairs, with the values of common keys combined."""
        here, new, asked = {self.rank(key): value for key, value in self.pairs}, [], 0
        for key, value in pairs:
            if self.rank(key) in here:
                value += 3 * here[self.rank(key)] + self.code(key) % 7 + 1000 * asked
                asked += 1
            new.append((key, value))
        return new

    def beside(self, name, pairs):
        theirs, left, cost, found, old = [self.rank(key) for key, _ in pairs], 0, 0, [], len(self.pairs)
        for key in [self.rank(key) for key, _ in self.pairs]:
            place = bisect.bisect_left(theirs, key)
            found.append(place < len(theirs) and theirs[place] == key)
            # it is compared with each key up to the first that isn't smaller, from the last one that wasn't passed
            cost += min(place + 1, len(theirs)) - left
            left = place + found[-1]
            if name.startswith("is_subset") and not found[-1]:
                break
        if name.startswith("is_subset"):
            return ("true" if all(found) else "false"), cost
        self.pairs = [pair for pair, there in zip(self.pairs, found) if there == (name == "keep_keys_of")]
        self.room += old - len(self.pairs)
        return "ok", cost

    def read(self, name, words):
        pairs, error = self.given(words[2:]), None if words[1] == "-" else int(words[1])
        if error is not None and error <= len(pairs):
            return f"error {error + 1} asked {error + 1}", max(error - 1, 0) if name == "read_pairs" else 0
        start, cost = ([], self.sifting(pairs)) if name == "read_pairs" else (self.pairs, self.cost(pairs))
        self.pairs = self.last(start + pairs)
        return f"ok asked {len(pairs) + 1}", cost

    def sifting(self, pairs):
        """The most comparisons if each pair is compared with the last one, and those that aren't above are put aside."""
        kept, aside = Model(self.order), []
        for pair in pairs:
            (kept.pairs if kept.rises([*kept.pairs[-1:], pair]) else aside).append(pair)
        return max(len(pairs) - 1, 0) + kept.cost(aside)

    def read_results(self, words):
        pairs, error = self.given(words[1:]), None if words[0] == "-" else int(words[0])
        if error is not None and error < len(pairs):
            return f"error {error}", max(error - 1, 0)
        self.pairs = self.last(pairs)
        return "ok", self.sifting(pairs)

    def run(self, words):
        """Makes a list of calls of an empty map: what they return, and the map after them."""
        made = Model(self.order)
        answers = [made.step(word)[0] for word in words]
        is_put = all(word.startswith("insert:") for word in words)
        return f"[{', '.join(answers)}] {made.look('debug', [])}", len(words) * len(words).bit_length() if is_put else None

    def step(self, word):
        """Makes a call of a list: what it returns, and its error out of memory, if it may need some."""
        kind, _, rest = word.partition(":")
        (call, result), pair, size = STEPS[kind], f"Some(({rest.replace(':', ', ')}))", len(self.pairs)
        answer, _ = self.make(" ".join([call, *rest.split("+" if kind == "extend" else ":")]).rstrip())
        told = {
            "Done": "",
            "Number": f"({answer})",
            "Flag": f"({answer})",
            "Place": f"({answer.title().replace(' ', '(')}))",
            "Value": "(None)" if answer == "none" else f"(Some({answer.rpartition(':')[2]}))",
            "Back": f"({pair})" if answer.startswith("back") else "(None)",
        }
        refusal = "NoRoom(None)" if kind in ("extend", "reserve") else f"NoRoom({pair})" if len(self.pairs) > size else None
        return result + told[result], refusal

    def compare(self, name, other):
        mine = [(self.rank(key), value) for key, value in self.pairs]
        theirs = [(self.rank(key), value) for key, value in other]
        # they end at the first difference
        same = sum(1 for _ in itertools.takewhile(lambda pair: pair[0] == pair[1], zip(mine, theirs)))
        most = min(same + 1, len(mine), len(theirs))
        if name == "hash":
            return "true" if mine == theirs else "false"
        if name == "eq":
            return ("true" if mine == theirs else "false"), most if len(mine) == len(theirs) else 0
        return ("equal" if mine == theirs else "less" if mine < theirs else "greater"), most


# The calls of a list: the call of a map that each makes, and what its result is.
STEPS = {"len": ("len", "Number"), "find": ("find_index", "Place"), "contains": ("contains_key", "Flag")}
STEPS |= {kind: (kind, "Value") for kind in ("insert", "get", "remove")} | {"value_at": ("get_indexed", "Value")}
STEPS |= {"try_insert": ("try_insert", "Back"), "try_append": ("try_append", "Back")}
STEPS |= {kind: (kind, "Done") for kind in ("clear", "extend", "reserve")}
# The most pairs that a vector puts in one by one.
FEW = 16
# The groups of lookups, and all that look a key up.
LOOKING = ["get", "get_pair", "get_more", "find", "index"]
LOOK_UPS = {*named(*LOOKING, "write"), "lm_binary_search_by"}
PUTS, ENTERING = named("put", "put_at", "find_or_put", "find_or_fail"), named("enter")
ENTRIES, TWICE = [*ENTERING, *named("enter_default", "enter_key", "enter_out", "enter_text")], named("enter_twice")
EXTENDING, MAKING = ["extend", "extend_of_vec"], ["make", "make_of_vec"]
STORE_EXTENDING, STORE_MAKING = ["store_extend", "store_extend_of_vec"], ["store_sort", "store_sort_vec", "store_make"]
EXTENSIONS, MAKES, MADE = named(*EXTENDING, *STORE_EXTENDING), named(*MAKING), named(*STORE_MAKING)
MERGES, COMBINES, BESIDE, READS, RUNS, RENAMES = map(named, ("merge", "combine", "beside", "read", "run", "rename"))
# The calls whose first word is a key that is searched for.
TAKES = named("take", "take_pair")
KEYED = {*LOOK_UPS, *PUTS, *ENTRIES, *TWICE, *TAKES, "split_off"}
# The groups of calls with a pair, and of those that take a key out.
PAIRED, TAKING = ["put", "put_at", "find_or_put", "find_or_fail", "enter"], ["take", "take_pair"]
# The number of clones that each conversion makes of a pair.
CONVERSIONS = {"try_clone": 2, "cloned": 2, "to_boxed_keys_values": 2, "to_boxed_keys": 2, "to_boxed_values": 2, "to_keys_by": 1}
CONVERSIONS |= {"to_borrowed_keys_values": 0, "to_borrowed_keys": 1, "to_borrowed_values": 1}


def part(name, pair):
    """What an iterator of keys or of values shows of a pair."""
    return (pair[0], 0) if name == "keys" else (0, pair[1]) if name == "values" else pair


def line(model, call, mark=""):
    """Makes a call of the model, and returns its line."""
    *first, last = call.split("; ")
    for earlier in first:
        model.make(earlier)
    before = list(model.pairs)
    answer, cost = model.make(last)
    after = "same" if model.pairs == before else model.text(model.pairs)
    return f"{mark}{call} = {answer} | {after} | {'*' if cost is None else cost}"


@functools.cache
def first_pairs(length):
    """The pairs with which a line begins."""
    return [(str(2 * place), 20 * place) for place in range(1, length + 1)]


def begun(stores, order, length, room):
    """The map with which a line over these stores begins."""
    return Model(order, first_pairs(int(length)), int(room) if stores == "fixed" else math.inf)


def block(stores, length, room, calls):
    """Calls that each begin with the same pairs."""
    yield from (f"on {stores}", f"with number {length} {room}")
    yield from (line(begun(stores, "number", length, room), call) for call in calls)


def chain(stores, calls, order="number", room=0):
    """Calls that each continue from the one before, the first from an empty map with this room."""
    yield from (f"on {stores}", f"with {order} 0 {room}")
    model = begun(stores, order, 0, room)
    yield from (line(model, call, "+ " * bool(place)) for place, call in enumerate(calls))


# The lengths past nine at which the second key and the last but one are taken too, with the gaps beside them.
WITH_SECOND = (12, 33, 65)


def present(length):
    """The first key, the middle one and the last one, and at some lengths those next to the ends."""
    more = {4, 2 * length - 2} if length in WITH_SECOND else set()
    return sorted({2, length // 2 * 2 + 2 * (length % 2), 2 * length} - {0} | more) if length else []


def absent(length):
    """A key below all, two between others, and one above all, and at some lengths those next to the ends."""
    more = {3, 2 * length - 3} if length in WITH_SECOND else set()
    return sorted({1, length // 2 * 2 + 1, max(2 * length - 1, 1), 2 * length + 1} | more)


def indices(length):
    """The first index, the middle one and the last one, and at some lengths those next to the ends."""
    more = {1, length - 2} if length in WITH_SECOND else set()
    return sorted({0, length // 2, max(length - 1, 0)} | more)


def keys(length):
    """Each key and each gap of a short list; of a longer one those at the ends and in the middle."""
    return list(range(1, 2 * length + 2)) if length <= 9 else present(length) + absent(length)


def looks():
    """The calls that change nothing, by keys, indices and bounds."""
    for length in LENGTHS + [3000]:
        ends = [*indices(length), length, length + 1, 2**64 - 1]
        calls = ["len", "is_empty", "first", "last", "keys_ascend"] + (["debug"] if length <= 1000 else [])
        calls += ["debug_lines"] if length <= 129 else []
        calls += [f"get_indexed {index}" for index in ends]
        calls += spelled(*LOOKING, KEY=keys(length))
        some = [1, *present(length), 2 * length + 1]
        bounds = [(low, high) for low in ("in", "out", "-") for high in ("in", "out", "-")]
        pairs = [(first, last) for first in some for last in some]
        calls += [f"index_range {low} {first} {high} {last}" for low, high in bounds for first, last in pairs]
        calls += [f"index_range_counted {low} {some[0]} {high} {some[-1]}" for low, high in bounds]
        calls += [f"iter_range {low} {first} {high} {last}" for low, high in bounds for first, last in pairs[1::8]]
        yield from block(ALL, length, 1, calls)
        parts = [f"get_indexed_range {start} {end}" for start in ends for end in ends]
        parts += [f"range {low} {first} {high} {last}" for low, high in bounds for first, last in pairs[::3]]
        yield from block(SLICED, length, 1, ["as_slice", "as_sliced", *parts])
        taken = [f"take_range {start} {end}" for start in ends for end in ends if start <= end <= length]
        yield from block("vec", length, 1, ["into_tuple_vec", *taken])


def walks():
    """Iterators from both ends, conversions and comparisons."""
    for length in LENGTHS:
        steps = sorted({0, 1, 2, length // 2, max(length - 1, 0), length, length + 2})
        calls = [f"{name} {front} {back}" for name in ("iter", "keys", "values") for front in steps for back in steps]
        calls += [f"into_iter {steps}" for steps in steps]
        calls += ["for 0 0", "iter_keys 0 0", "iter_values 0 0", *CONVERSIONS]
        mine = [f"{2 * place}:{20 * place}" for place in range(1, length + 1)]
        others = [mine, mine[:-1], mine + [f"{2 * length + 2}:0"]]
        if length:
            others += [mine[:-1] + [f"{2 * length}:{value}"] for value in (20 * length - 1, 20 * length + 1)]
            others += [mine[:-1] + [f"{2 * length + change}:{20 * length}"] for change in (-1, 1)]
            others += [["1:1"] + mine[1:], ["2:21"] + mine[1:], ["2:19"] + mine[1:-1] + [f"{2 * length + 5}:1"]]
        some = others if length <= 100 else others[:2]
        calls += [" ".join([name, *other]) for name in ("eq", "hash", "cmp", "partial_cmp") for other in some]
        yield from block(ALL, length, 1, calls)
    alike = ["from_vec a:0 B:9", "hash A:0 b:9", "hash a:0", "hash a:0 b:8", "hash a:0 c:9", "hash"]
    yield from chain(ALL, alike, "letter", 8)


def changes():
    """The calls that insert, write or remove one pair, or visit all pairs."""
    for length in LENGTHS + [3000]:
        words = {"KEY": keys(length), "VALUE": [7]}
        calls = [*spelled(*PAIRED, "enter_default", "enter_key", "enter_out", "enter_text", "enter_write", MORE=[9], **words)]
        writes = [*spelled("write", **words), *spelled("write_at", PLACE=(*indices(length), length, 2**64 - 1), VALUE=[7])]
        writes += spelled(*TAKING, **words)
        writes += ["pop_first", "pop_last", "clear", "update 5", "reserve 0", "reserve 1"]
        writes += [f"retain {bits}" for bits in RETAINED]
        twice = [*spelled("enter_twice", KEY=present(length) + absent(length), VALUE=[7])]
        yield from block(ALL, length, 1, calls + writes + twice)
        writes += [f"extract {bits}" for bits in RETAINED]
        yield from block(GROWING, length, 0, calls + writes + [f"reserve {more}" for more in (2, 8, 100)])
        yield from block("fixed", length, 0, calls + writes[: -8 - len(RETAINED)] + ["reserve 0", "reserve 1"])


# Which pairs are kept, by the bits of a number: none, all, the first, all but the first, in turns, the last of 64, and others.
RETAINED = [0, 2**64 - 1, 1, 2**64 - 2, 0x5555555555555555, 0xAAAAAAAAAAAAAAAA, 2**63, 0xFFFF0000FFFF0000, 6, 2**64 - 7]


def inputs(length):
    """Bulk input of each kind: none, above, below, between, equal, descending, each key twice, in random order."""
    end = 2 * length
    yield ""
    for count in (1, 2, 5, 17, 40):
        yield from (f"{end + 1},{count},1", f"{end + 1 + 3 * count},{count},-3")
        yield from (f"{first},{count},{step}" for first, step in ((1, 2), (2, 2), (max(end - 2 * count, 0), 1)))
    yield from (f"{end},1,1", f"{end + 1},3,1 {end + 1},3,1", f"{end + 5},1,1 {end + 3},1,1 {end + 5},1,1")
    yield from ("1,30,7 3,30,5", f"{end + 2},1,1 1,1,1", "5,9,0")


def astray(length):
    """Many pairs above all others, which ascend except for the last one, the first or the second, or two or all have one key."""
    low = 2 * length + 1
    for count in (10, 40):
        high = low + 2 * count
        yield f"{low},{count - 1},2 {low + 1},1,1"
        yield f"{high},1,1 {low},{count - 1},2"
        yield f"{low},1,1 {high},1,1 {low + 2},{count - 2},2"
        yield f"{low},1,1 {low},{count},2"
        yield f"{low},{count},2 {high - 2},1,1"
        yield f"{low},{count},0"


def bulk():
    """The calls that take or make many pairs at once, merge, split and read."""
    for length in [0, 1, 2, 3, 5, 12, 16, 17, 24, 30, 33, 65, 100, 129, 1000]:
        given = list(inputs(length)) + ([f"{2 * length + 1},1000,1", "1,1000,2", "4000,1000,-4"] if length in (0, 17, 1000) else [])
        given += astray(length) if length in (0, 1, 12, 33, 129) else []
        calls = [*spelled(*EXTENDING, "merge", PAIRS=given)]
        calls += [f"split_off {key}" for key in keys(length)]
        yield from block(GROWING, length, 0, [*calls, *spelled("read", HINT="-", ERROR="-", PAIRS=given)])
        yield from block(GROWING, length, 3000, [call for call in calls if is_before(call)])
        yield from block(ALL, length, 3000, [call for call in calls if not is_before(call)])
        if length in (0, 5, 30):
            made = [*spelled(*MAKING, PAIRS=given)]
            yield from block(ALL, length, 0, made + ["new", "with_capacity 0", "with_capacity 1", "with_capacity 16", "with_capacity 100", "with_capacity 100000"])
            hints = [0, 1, 3, 17, 65536, 65537, 2**40, 2**63, 2**64 - 1]
            errors = spelled("read", HINT=hints, ERROR=("-", 0, 1, 4, 5), PAIRS=["1,5,2"])
            yield from block(GROWING, length, 0, errors)
    above = [*spelled(*EXTENDING, PAIRS=[f"1001,{count},1" for count in (0, 1, 2, 40)])]
    for room in (0, 1, 2, 39):
        yield from block("fixed", 20, room, above + ["reserve 3", f"reserve {room}"])


def is_before(call):
    """Whether a call merges pairs before all others: a store with a fixed room would then have to move into the other one."""
    name, *words = call.split(" ")
    codes = [int(key) for key, _ in Model("number").given(words)] if name in MERGES + COMBINES else []
    return bool(codes) and max(codes) < 2


def stores():
    """The calls of a store itself."""
    for length in LENGTHS:
        places = indices(length)
        looks = ["lm_len", "lm_is_empty", "lm_last", "lm_try_clone", "lm_clear", "is_sorted_store"]
        looks += [f"lm_get {index}" for index in [*places, length, 2**64 - 1]]
        looks += [f"lm_get_mut {index} 7" for index in [*places, length]]
        looks += [f"lm_binary_search_by {key}" for key in keys(length)]
        looks += [f"lm_retain {bits}" for bits in RETAINED]
        if length:
            looks += [call.format(index) for call in ("lm_pair_mut {} 7", "lm_replace {} 1 7", "lm_remove {}") for index in places]
        puts = ["lm_push 9999 7", *(f"lm_insert {index} 1 7" for index in {*places, length})]
        yield from block(ALL, length, 1, looks + puts + ["lm_reserve 0", "lm_reserve 1"])
        yield from block(SLICED, length, 1, ["lm_debug", "lm_debug_lines"] if length <= 129 else [])
        yield from block(GROWING, length, 0, looks + puts + ["lm_reserve 0", "lm_reserve 1", "lm_reserve 8"])
        yield from block("fixed", length, 0, puts + ["lm_reserve 0", "lm_reserve 1"])
        if length:
            yield from block("fixed", length, 0, ["lm_extend_end 9999:1", "lm_extend_start 1:1"])
        given = list(inputs(length))
        many = [*spelled(*STORE_EXTENDING, *(["store_join"] if length <= 33 else []), PAIRS=given)]
        yield from block(GROWING, length, 0, many)
        yield from block(ALL, length, 100, [call for call in many if not call.startswith("lm_extend_start")])
    for length in range(5):
        for given in itertools.product("123", repeat=length):
            pairs = "".join(f" {key}:{place}" for place, key in enumerate(given, 1))
            yield from chain(ALL, [f"lm_from_pairs{pairs}", "is_sorted_store"])
    made = [*spelled(*STORE_MAKING, PAIRS=[*inputs(20)])]
    yield from block(ALL, 5, 0, made + ["lm_empty 0", "lm_with_capacity 0", "lm_with_capacity 1", "lm_with_capacity 17"])


def refusable():
    """Each call that may be refused, at each length up to 70, and at three that are longer."""
    for length in [*range(71), 100, 129, 513]:
        end = 2 * length + 1
        given = [f"{end},1,1", f"1,{length},2", f"{2 * end},{length},-1"]
        calls = [*spelled(*PAIRED, KEY=[end], VALUE=[7]), f"or_default {end}", *CONVERSIONS, "lm_try_clone", "lm_push 9999 7"]
        calls += [f"{name} {more}" for name in RESERVED for more in (1, length)] + [f"split_off {key}" for key in (2, length, end - 1)]
        many = [name for name in EXTENSIONS + MERGES + MAKES + MADE if not name.endswith("counted")] + [f"{name} - -" for name in READS]
        calls += [f"extract {bits}" for bits in RETAINED[:3]]
        yield from block("vec", length, 0, [f"take_range {start} {length}" for start in {0, length // 2, length}])
        calls += ["lm_insert 0 1 7", *(f"{name} {pairs}" for name in many for pairs in given)]
        yield from block(GROWING, length, 0, calls)


RESERVED = ["reserve", "lm_reserve", "with_capacity", "lm_with_capacity"]


def sliced():
    """Slices that are looked up among vectors, of which each comparison is counted: in each gap, or at the ends and in the middle."""
    for length in LENGTHS:
        yield from block("vec", 0, 0, [f"find_by_slice {key} {length}" for key in keys(length)])


def grown():
    """Insertions of one pair without room, around the powers of two up to 2,048; small pairs and sets; and to 5,000 pairs."""
    for power in range(6, 12):
        for length in (2**power - 1, 2**power):
            end = 2 * length + 1
            calls = [f"{name} {key} 7" for name in PLACING for key in (1, end) if key == end or name != "try_append"]
            yield from block(GROWING, length, 0, [*calls, f"lm_push {end} 7", "lm_insert 0 1 7", f"lm_insert {length} {end} 7"])
    counts = [*range(1, 71), 100, 129, 257, 513, 1025]
    grow = [f"{name} {count} {step}" for name in ("grow_small", "grow_set") for count in counts for step in (1, 10006, 7919)]
    yield from block(GROWING, 0, 0, grow)
    # Full maps of small pairs, and full sets, extended by few keys and by many, in each order, from below, between and above.
    sizes = itertools.product((0, 1, 2, 5, 16, 33, 65, 129, 1000), (1, 2, 16, 17, 65, 513), (1, 2, 500, 10006, 7919))
    extend = [f"{name} {length} {count} {step}" for length, count, step in sizes for name in ("extend_small", "extend_set")]
    yield from block(GROWING, 0, 0, extend)
    scattered = " ".join(f"{first},500,10" for first in (3, 9, 1, 7, 0, 5, 2, 8, 4, 6))
    yield from block(GROWING, 0, 0, [f"insert_each {pairs}" for pairs in ("0,5000,1", "5000,5000,-1", scattered)])


PLACING = ["insert", "try_insert", "try_append", "try_find_or_insert", "or_insert", "entry_insert"]


def roomy():
    """Maps with room and no pair, or more room than pairs; vectors and other maps with room; and room for just the new pairs."""
    taking = EXTENSIONS + MERGES + COMBINES + MAKES + MADE + named("store_join")
    for room in (5, 47):
        calls = [*spelled(*PAIRED, KEY=[1], VALUE=[7]), "or_default 1", "split_off 1", "lm_push 1 7", "lm_insert 0 1 7"]
        calls += [*CONVERSIONS, "lm_try_clone", "clone", "clear", "pop_last", "into_iter 1", "iter 1 1", "debug", "hash", "eq", "retain 1"]
        calls += [f"{name} {more}" for name in RESERVED[:2] for more in (room - 1, room, room + 1)]
        calls += [f"{name} {first},{count},1" for name in taking for first in (1, 9) for count in (3, 9, 60)]
        calls += [f"{name} {pairs}".strip() for name in taking for pairs in ("", "room=9", "1,3,1 room=90")]
        calls += [*spelled("beside", PAIRS=["2,3,1"]), *spelled("read", HINT="-", ERROR="-", PAIRS=("", "1,9,1"))]
        yield from block(GROWING, 0, room, calls)
    for length in (1, 2, 24):
        given = [f"{pairs} room={room}".strip() for pairs in ("", "1,1,1", "1,9,2", f"{2 * length + 1},9,1") for room in (1, 90)]
        yield from block(GROWING, length, 0, [f"{name} {pairs}" for name in taking for pairs in given])
        copied = [*CONVERSIONS, "lm_try_clone", "clear", "retain 0", "retain 1", "into_iter 1"]
        yield from block(GROWING, length, 90, copied)
    for length, count in itertools.product((12, 100, 1000), (1, 9, 12)):
        yield from block(GROWING, length, count, [f"{name} 3,{count},2" for name in MERGES + EXTENSIONS])


def swept():
    """Each key and each gap of a map of 64 pairs: split off there, removed by an entry, renamed, and as a bound of each kind."""
    keys, bounds = range(1, 130), ("in", "out", "-")
    calls = [*spelled("split", KEY=keys), *(f"entry_remove {key}" for key in keys)]
    calls += [f"rename {key} {new_key}" for key in keys for new_key in (1, 129)]
    calls += [f"index_range {low} {key} {high} {130 - key}" for key in keys for low in bounds for high in bounds]
    yield from block(GROWING, 64, 0, calls)


def long():
    """Calls at a hundred thousand pairs, whose time bin/requests limits: lookups, iterators, removals and as many new pairs."""
    count, calls = 100000, ["retain 0", "clear", "lm_retain 0", "insert_each 200001,100000,1", "sweep get"]
    calls += [f"{name} {steps} {count - steps}" for name in ("iter", "keys", "values") for steps in (0, count)]
    calls += [f"into_iter {count}", "iter_range in 1 in 200001", "for 0 0", "try_clone", "to_keys_by", "cmp", "hash"]
    calls += [f"{name} 1,{count},2" for name in ("extend_from_litemap", "extend", "extend_with", *BESIDE)]
    calls += [f"read_pairs - - 1,{count},1", "update 5", f"retain {RETAINED[4]}", f"split_off {count}"]
    calls += [f"from_vec 2,{count},2; eq 2,{count},2", f"from_vec 2,{count},2; cmp 2,{count},2", f"extend_from_litemap 1,1000,200"]
    yield from block(GROWING, count, 0, calls)


def listed():
    """Iterators of `Result`s, and lists of insertions: ascending, descending, and with keys twice, of up to 40 pairs."""
    for length in [*range(41), 100, 129, 513]:
        given = [f"1,{length},1", f"{2 * length},{length},-2", f"1,{length},3 2,{length},1"]
        errors = ["-", *(range(length) if length in (1, 2, 13) else ())]
        yield from block(GROWING, 3, 0, spelled("read_results", ERROR=errors, PAIRS=given))
        lists = [[f"insert:{key}:{value}" for key, value in Model("number").given(pairs.split(" "))] for pairs in given]
        yield from block("vec", 3, 0, [" ".join([name, *calls]) for name in RUNS for calls in lists] if length <= 40 else [])


def scattered():
    """Input in random order around the length that is sorted without memory, and every short list into every short map."""
    for count in (19, 20, 21, 40, 41, 1000):
        pairs = " ".join(f"{place * 7919 % (count // 3 + 1)}:{place}" for place in range(count))
        yield from chain(ALL, [f"from_iter {pairs}", f"extend {pairs}", f"from_vec {pairs}"], room=4000)
    letters = ["".join(it) for length in range(5) for it in itertools.product("abc", repeat=length)]
    olds = ["".join(it) for length in range(4) for it in itertools.combinations("abc", length)]
    for new in letters:
        pairs = " ".join(f"{key if place % 2 else key.upper()}:{place}" for place, key in enumerate(new))
        for old in olds:
            calls = ["from_vec " + " ".join(f"{key}:99" for key in old) if old else "from_vec", f"extend {pairs}".strip()]
            yield from chain("vec", calls, "letter")
        yield from chain(ALL, [f"from_iter {pairs}".strip()], "letter")
        yield from chain("vec columns", [f"read_pairs - - {pairs}".strip()], "letter")


def of_letters(letters, name):
    """Every two maps over these letters, of which a call merges the second into the first."""
    sets = [it for length in range(len(letters) + 1) for it in itertools.combinations(letters, length)]
    for old, new in itertools.product(sets, sets):
        calls = ["from_vec" + "".join(f" {key}:{place}" for place, key in enumerate(old))]
        calls += [name + "".join(f" {key.upper()}:{9 - place}" for place, key in enumerate(new))]
        yield from chain(GROWING, calls, "letter", 8)


def merged():
    """Every two maps over four letters, longer maps at the lengths where the way of merging changes, and each total up to 600."""
    yield from of_letters("abcd", "extend_from_litemap")
    for length in (5, 20, 60, 100, 400, 6000, 12000):
        for count in sorted({1, 2, 3, 60, length // 8, length // 3, length, 3 * length} - {0}):
            if length < 6000 or count in (1, 2, 3, 60, 1500):
                step = max(2 * length // count, 1)
                calls = [f"extend_from_litemap {start},{count},{step}" for start in (1, 2)]
                yield from block(GROWING, length, 0, calls)
    for total in range(601):
        length = total // 2
        yield from block(GROWING, length, 0, [f"extend_from_litemap 1,{total - length},2"])


def beside():
    """Short maps beside each map of their keys and gaps, longer ones, and one beside each length up to 70."""
    for length in range(4):
        places = range(1, 2 * length + 2)
        theirs = [" ".join(f"{key}:9" for key in keys) for count in range(len(places) + 1) for keys in itertools.combinations(places, count)]
        yield from block(ALL, length, 0, spelled("beside", PAIRS=theirs))
    for length in (5, 12, 20, 24, 33, 65, 100, 129, 513, 1000):
        yield from block(ALL, length, 0, spelled("beside", PAIRS=[*inputs(length)]))
    yield from block(ALL, 20, 0, spelled("beside", PAIRS=[f"2,{count},2" for count in range(71)]))
    for length in (1, 3, 20, 1000):
        yield from block(ALL, length, 0, spelled("beside", PAIRS=[f"{first},1000,{step}" for first, step in ((1, 2), (2, 2), (3, 5))]))


def renamed():
    """Values that move from each kind of key to every other, and between letters that are equal keys."""
    for length in (0, 1, 2, 3, 5, 12, 17, 24, 30, 33, 65, 100, 129, 513, 1000):
        ends = [1, *present(length), 2 * length + 1]
        calls = [f"rename {key} {new_key}" for key in ends for new_key in keys(length)]
        calls += [f"rename_counted {key} {new_key}" for key in ends for new_key in ends]
        yield from block(ALL, length, 1, calls)
        yield from block(GROWING, length, 0, calls)
        yield from block("fixed", length, 0, calls)
    for key, new_key in itertools.product("AbCd", "aBcDe"):
        yield from chain(ALL, ["from_vec a:0 B:9 c:8", f"rename {key} {new_key}"], "letter", 8)


def combined():
    """Merges whose values are combined: every two maps over three letters, and each kind of input at some lengths."""
    yield from of_letters("abc", "extend_with")
    for length in (0, 1, 2, 3, 12, 17, 24, 30, 33, 65, 100, 129, 513, 1000):
        calls = [*spelled("combine", PAIRS=[*inputs(length)])]
        yield from block(GROWING, length, 0, calls)
        yield from block(ALL, length, 3000, [call for call in calls if not is_before(call)])


# Ten pairs that ascend, and ten that don't, of which none is above the last of the former.
RISING = "106:4816 147:9864 188:8588 252:6031 434:2518 574:8500 607:3756 619:4965 663:2669 724:9211".split()
OTHERS = "546:7490 273:4999 167:8078 176:2101 373:1304 339:9613 561:3620 301:1214 483:4453 704:5359".split()


def twenty():
    """Twenty pairs through the calls that append, put, merge, keep and take out, and each key and gap after each step and in a clone."""
    every = sorted(RISING + OTHERS)
    look = [f"find_index {key}" for key in sorted({int(pair.split(":")[0]) + more for pair in every for more in (0, 1)} | {0})]
    append, back = ([f"try_append {pair.replace(':', ' ')}" for pair in pairs] for pairs in (RISING, OTHERS))
    put = [f"insert {pair.replace(':', ' ')}" for pair in OTHERS]
    steps = [*append, *look, *back, *look, *put, *look]
    evens, whole, merge = f"retain {0xF697}", " ".join(every), "extend_from_litemap"
    changes = ["extend_from_clone", f"{merge} {whole}", evens, f"{merge} {whole}", evens, f"extend {whole}", "remove 175", "remove 176", f"retain {0xAAAAA}"]
    changes += [" ".join([merge, *pairs]) for pairs in (every[::2], ["900:1", "901:2"], ["1:1", "2:2"], OTHERS[::-1], [])]
    changes += ["retain 1048575", "extend " + " ".join(OTHERS), "try_clone", "clear"]
    searched = itertools.chain.from_iterable([change, *look, "clone", *look] for change in changes)
    yield from chain(GROWING, ["with_capacity 64", *steps, *searched])
    yield from chain("fixed", ["with_capacity 64", *steps], room=64)


class Generator:
    """Pseudo-random numbers, the same ones in each run."""

    def __init__(self, seed):
        self.state = seed

    def below(self, limit):
        self.state = (self.state * 6364136223846793005 + 1442695040888963407) % 2**64
        return (self.state >> 33) % limit

    def pick(self, items):
        return items[self.below(len(items))]


WORDS = {
    "number": [str(number) for number in range(30)],
    "falling": [str(number) for number in range(30)],
    "same": ["p", "q", "r"],
    "letter": list("AbCdEfGhIjKlMnOpQrStUvWxYzaBcD"),
    "text": "a aa ab aba b ba bab c ca d de def e f fa faa fab g h ha i j k l m n é ä ж 0".split(),
    "length": "a z aa zz é long longer texts".split(),
}


def picked_call(generator, order):
    key, value, kind = generator.pick(WORDS[order]), generator.below(1000), generator.below(50)
    if kind < 24:
        return f"{generator.pick(PUTS + ENTERING)} {key} {value}"
    if kind < 34:
        return f"{generator.pick([*named(*LOOKING), 'remove', *ENTRIES[len(ENTERING) + 1 :]])} {key}"
    if kind < 40:
        return f"{generator.pick(['get_mut', 'get_mut_by', 'index_mut'])} {key} {value}"
    if kind < 43:
        return f"get_indexed_mut {generator.below(30)} {value}"
    if kind < 45:
        return generator.pick(["pop_first", "pop_last", f"remove_by {key}", f"remove_entry {key}"])
    if kind < 47:
        return f"retain {2**64 - 1 - (1 << generator.below(8))}"
    more = " ".join(f"{generator.pick(WORDS[order])}:{generator.below(1000)}" for _ in range(generator.below(5)))
    return f"{generator.pick(['extend', 'extend_from_vec', 'extend_from_litemap'])} {more}".strip()


def picked():
    """Runs of calls that a generator picks, in each order of keys."""
    generator = Generator(1)
    for order in WORDS:
        for _ in range(4):
            calls = [picked_call(generator, order) for _ in range(150)]
            yield from chain(GROWING, calls, order)
            calls = [call for call in calls if not call.startswith(("extend", "reserve"))]
            yield from chain("fixed", calls, order, generator.below(12))


def rows():
    """The cases that are written by hand, as they are stored, with what each call returns and leaves written anew."""
    for text in (FOLDER / "data" / "rows.calls").read_text(encoding="utf-8").splitlines():
        word, _, words = text.partition(" ")
        if word == "on":
            stores = words
        elif word == "with":
            begins = words.split(" ")
        elif text and word != "#":
            call, mark = text.partition(" = ")[0].removeprefix("+ "), "+ " * (word == "+")
            model = model if mark else begun(stores, *begins)
            text = line(model, call, mark)
        yield text


# The calls of stores that no line makes: calls of maps make them, or cases of test_cases.
OF_MAPS = {"lm_alloc", "lm_columns", "lm_columns_mut", "lm_get_range", "lm_into_iter", "lm_iter", "lm_size_hint"}


def faults(files):
    """A message for each call that no line makes."""
    # The calls that lines have to make: those of the tables of calls that diff makes or lines alone judge, and those of stores.
    names = {*GROUP_OF}
    for row in table_of("beside.txt"):
        names |= {*row.partition(" | ")[0].rpartition("::")[2].split(" ")} if "lines of data" in row else set()
    for source in ("store", "into_iter"):
        text = (FOLDER.parent / "litemap_store" / "src" / f"{source}.rt").read_text(encoding="utf-8")
        names |= {*re.findall(r"^    (?:final )?fn (lm_\w+)", text, re.MULTILINE)}
    made = {found for text in files.values() for found in re.findall(r"^(?:\+ )?(\w+)(?= .*= )", text, re.MULTILINE)}
    return [f"no line makes {call}" for call in sorted(names - OF_MAPS - made)]


MAKERS = [looks, walks, changes, bulk, stores, scattered, refusable, merged, beside, twenty, picked, rows, renamed, combined, listed]
FILES = {it.__name__: it for it in [*MAKERS, grown, roomy, sliced, swept, long]}


def calls_of(lines):
    """The lines that make a call, each with its stores, and with the line that says what it begins with."""
    for text in lines:
        if text.startswith("on "):
            stores = text[3:].split(" ")
        elif text.startswith("with "):
            begins = text
        elif " = " in text:
            yield stores, begins, text


def written(made):
    """The files of the crate, by their names, of these lines of each."""
    files = {f"data/{name}.calls": lines for name, lines in made.items()}
    files["stdin"] = [f"{name}.calls" for name in made]
    files["stdout"] = [f"{name}.calls: {sum(len(it[0]) for it in calls_of(lines))} calls" for name, lines in made.items()]
    return {name: "".join(text + "\n" for text in lines) for name, lines in files.items()}


def files():
    return written({name: list(lines()) for name, lines in FILES.items()})


# The file of long maps, whose time bin/requests limits.
TIMED = "long.calls\n"
# The files of which a sample is stored.
SAMPLED = [name for name in FILES if name not in ("rows", "long")]
# The most lines of a sample that continue from one another.
MOST_TOGETHER = 5


def sampled(lines):
    """Of each call the first line, the second, the fourth, the eighth and so on, and some of those that continue from these."""
    heads, counts, left = {}, collections.Counter(), 0
    for text in lines:
        word = text.split(" ")[0]
        if word in ("on", "with"):
            heads[word] = text
        elif word == "+":
            left -= 1
            yield from [text] * (left > 0)
        elif word != "#":
            counts[word] += 1
            left = 0 if counts[word] & (counts[word] - 1) else MOST_TOGETHER
            yield from [*heads.values(), text] if left else ()
            heads = {} if left else heads


def sample(files):
    """The stored lines: those of `rows`, and in one file a sample of the others but `long`, each part under its name."""
    rows, *others = (files[f"data/{name}.calls"].splitlines() for name in ("rows", *SAMPLED))
    parts = [[f"# {name}", *sampled(lines)] for name, lines in zip(SAMPLED, others)]
    return written({"rows": rows, "sample": list(itertools.chain.from_iterable(parts))})
