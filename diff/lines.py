"""Runs of calls of one map, picked by a generator, as lines that `test_replay` reads."""
import pathlib
import random
import runpy

FOLDER = pathlib.Path(__file__).resolve().parent
MODEL = runpy.run_path(f"{FOLDER.parent}/crates/test_replay/model.py")
# How many calls a run has.
LENGTH = 500
STORES, SLICED = MODEL["GROWING"].split(), MODEL["SLICED"].split()
ORDERS = ["number", "text", "letter"]
# The numbers of keys are below one of these, and some of those in lists are above it.
RANGES = [3, 8, 20, 60, 60, 200, 600, 2**27]
# Indices are below one of these.
PLACES = [2, 6, 20, 60, 200]
# Lengths of lists at which a body here takes another way.
LENGTHS = [7, 8, 9, 15, 16, 17, 18, 20, 21, 30, 31, 32, 33, 41, 63, 64, 65, 100, 255, 256]
# The stores that rows of arguments.txt name.
OVER = {"all": STORES, "slice": SLICED, "vec": ["vec"]}
# The groups of calls by store, each with how often one of its calls is picked.
GROUPS = [group for group in MODEL["GROUPS"].values() if group.often]
CALLS_OVER = {store: [group for group in GROUPS if store in OVER[group.over]] for store in STORES}


def word(order, number):
    """The key with a number. Keys are in the order of their numbers. Letters that differ only in case are equal keys."""
    if order == "number":
        return str(number)
    if order == "text":
        return f"{number // 3:07x}" + ["", "a", "b"][number % 3]
    return f"{'aA'[number % 2]}{number // 2:07x}"


class Run:
    def __init__(self, seed, number):
        self.random = random.Random(f"{seed} {number}")
        self.order, self.store = ORDERS[number % len(ORDERS)], STORES[number // len(ORDERS) % len(STORES)]
        self.range = self.random.choice(RANGES)
        self.calls = []
        groups = CALLS_OVER[self.store]
        for group in self.random.choices(groups, [group.often for group in groups], k=LENGTH):
            name = self.random.choice(group.names)
            if group.words == ["ALIKE"]:
                given = self.pairs()
                self.calls.append(" ".join(["from_vec", *given]))
                given = self.changed(given)
            else:
                given = [self.given(kind) for kind in group.words]
            self.calls.append(" ".join([name, *given]).rstrip())
        del self.calls[LENGTH:]

    def below(self, limit):
        return int(self.random.random() * limit)

    def given(self, kind):
        if kind == "KEY":
            return word(self.order, self.below(self.range))
        if kind == "PLACE":
            return str(self.below(self.random.choice(PLACES)))
        if kind == "BITS":
            return str(self.random.getrandbits(64) | self.random.getrandbits(64))
        if kind == "PAIRS":
            return " ".join(self.pairs())
        return "0" if kind == "ZERO" else str(self.below(1000))

    def pairs(self):
        """Picks a list of pairs: the keys ascend, descend, are equal, lie above the others or between them, or none of these."""
        pick = self.below
        form, start = pick(8), pick(self.range)
        length = pick(6) if pick(2) else pick(30) if pick(2) else self.random.choice([*LENGTHS, pick(301)])
        forms = [
            lambda place: start + 2 * place + pick(2),
            lambda place: start + 600 - 2 * place,
            lambda place: start // 6 * 6 + pick(2),
            lambda place: self.range + 2 * place + pick(2),
            lambda place: start % 6 + 6 * place,
        ]
        number = forms[form] if form < len(forms) else lambda place: pick(self.range)
        return [f"{word(self.order, number(place))}:{pick(1000)}" for place in range(length)]

    def changed(self, pairs):
        """The pairs as they are, or with one less, with one more, or with another value."""
        form = self.below(4)
        if form == 0 or not pairs:
            return pairs
        place = self.below(len(pairs))
        key = pairs[place].split(":")[0]
        other = [[], [pairs[place], f"{self.given('KEY')}:0"], [f"{key}:{self.below(1000)}"]][form - 1]
        return pairs[:place] + other + pairs[place + 1 :]

    def text(self, calls):
        """The lines of these calls, which begin with an empty map and state no results."""
        return f"on {self.store}\nwith {self.order} 0 0\n" + " = ? | *\n+ ".join(calls) + " = ? | *\n"
