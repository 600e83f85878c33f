//! The rows and the numbers of their keys. Both programs have this file, so that both make the same calls on the same keys.

/// The greatest and the least number of rounds of a measure: the time of a first one depends on the memory that is free by then.
pub const ROUNDS: usize = 30;

const FEWEST_ROUNDS: usize = 3;
/// The time after which no further round of a measure begins.
const LONGEST_NANOS: u128 = 20_000_000;
/// How many keys a round looks up in one map, and how many pairs its maps have together at least.
const LOOKS: usize = 10_000;
/// How many keys are inserted into or removed from one map at most, one by one.
const CHANGES: usize = 1000;
/// The lowest number of a key, and in how wide a range all are: those of 20 digits, whose strings have the same order.
const LOWEST: u64 = 10_000_000_000_000_000_000;

const RANGE: u64 = 8_000_000_000_000_000_000;

/// Whether a measure has had enough rounds, after this time.
pub fn is_enough(rounds: usize, nanos: u128) -> bool {
    rounds >= ROUNDS || rounds >= FEWEST_ROUNDS && nanos > LONGEST_NANOS
}

// An item of a pseudo-random sequence.
fn random(index: u64) -> u64 {
    let first = index.wrapping_mul(0x9E37_79B9_7F4A_7C15);
    let second = (first ^ (first >> 30)).wrapping_mul(0xBF58_476D_1CE4_E5B9);
    let third = (second ^ (second >> 27)).wrapping_mul(0x94D0_49BB_1331_11EB);
    third ^ (third >> 31)
}

// An even number of the sequence.
fn number(index: u64) -> u64 {
    LOWEST.wrapping_add(random(index) % RANGE & !1)
}

// One of so many even numbers that ascend.
fn ascending(size: u64, first: u64, index: u64) -> u64 {
    let step = RANGE.checked_div(size).unwrap_or(RANGE);
    let more = random(first.wrapping_add(index)).checked_rem(step);
    let lowest = LOWEST.wrapping_add(index.wrapping_mul(step));
    lowest.wrapping_add(more.unwrap_or(0)) & !1
}

#[derive(Clone, Copy)]
enum Order {
    Ascending,
    Random,
    // Some of the ascending numbers, in random order.
    Asked,
}

/// Some of the numbers of a case.
#[derive(Clone, Copy)]
pub struct Numbers {
    order: Order,
    size: usize,
    from: usize,
    step: usize,
    /// How many there are.
    pub len: usize,
}

impl Numbers {
    /// The numbers that a word means, of so many pairs.
    fn new(word: &str, size: usize) -> Self {
        let (half, changed) = (size / 2, size.min(CHANGES));
        let rest = size.saturating_sub(changed);
        let (order, from, step, len) = match word {
            "all" => (Order::Ascending, 0, 1, size),
            "evens" => (Order::Ascending, 0, 2, size.saturating_sub(half)),
            "odds" => (Order::Ascending, 1, 2, half),
            "lower" => (Order::Ascending, 0, 1, half),
            "upper" => (Order::Ascending, half, 1, half),
            "random" => (Order::Random, 0, 1, size),
            "half" => (Order::Random, 0, 1, half),
            "others" => (Order::Random, half, 1, half),
            "kept" => (Order::Random, changed, 1, rest),
            "changed" => (Order::Random, 0, 1, changed),
            "renamed" => (Order::Random, 0, 1, half.min(CHANGES)),
            "absent" => (Order::Random, size, 1, LOOKS),
            "ten" => (Order::Random, size, 1, 10),
            "one" => (Order::Random, size, 1, 1),
            "present" => (Order::Asked, 0, 1, LOOKS),
            "any" => (Order::Asked, 0, 1, size.min(1)),
            _ => (Order::Ascending, 0, 1, 0),
        };
        Numbers { order, size, from, step, len }
    }

    /// The number at an index, in the case whose part of the sequence begins at `first`.
    pub fn at(&self, first: u64, index: usize) -> u64 {
        let index = index.wrapping_mul(self.step).wrapping_add(self.from) as u64;
        let drawn = first.wrapping_add(index);
        match self.order {
            Order::Random => number(drawn),
            Order::Ascending => ascending(self.size as u64, first, index),
            Order::Asked => {
                let index = (random(!drawn) >> 1).checked_rem(self.size as u64);
                ascending(self.size as u64, first, index.unwrap_or(0))
            }
        }
    }
}

/// A row of the tables, for one size: what is measured, its name and its call, and the keys of its cases.
#[derive(Clone, Copy)]
pub struct Row<'t> {
    size: usize,
    pub over: &'t str,
    pub name: &'t str,
    pub call: &'t str,
    /// The keys of the map.
    pub map: Numbers,
    /// Those of the pairs that are passed to it.
    pub given: Numbers,
    /// Those of the map that is passed to it.
    pub other: Numbers,
    /// Those that are looked up in it.
    pub asked: Numbers,
}

impl<'t> Row<'t> {
    /// The row of a line.
    pub fn new(line: &'t str, size: usize) -> Self {
        let mut words = line.split(' ');
        Row {
            size,
            over: words.next().unwrap_or(""),
            name: words.next().unwrap_or(""),
            call: words.next().unwrap_or(""),
            map: Numbers::new(words.next().unwrap_or(""), size),
            given: Numbers::new(words.next().unwrap_or(""), size),
            other: Numbers::new(words.next().unwrap_or(""), size),
            asked: Numbers::new(words.next().unwrap_or(""), size),
        }
    }

    /// How many cases a round has: so many that some thousands of calls are made.
    pub fn cases(&self) -> usize {
        let pairs = self.size.max(self.asked.len).max(5);
        LOOKS.checked_div(pairs).unwrap_or(0).max(1)
    }

    /// Where the sequence of a case's numbers begins.
    pub fn first(&self, round: usize, case: usize) -> u64 {
        let number = round.wrapping_mul(self.cases()).wrapping_add(case);
        (number as u64).wrapping_mul(1 << 20)
    }

    /// How many pairs, keys or calls the time of a round is divided by.
    pub fn pairs(&self) -> usize {
        let each = match (self.asked.len, self.given.len) {
            _ if self.over == "few" => 1,
            (0, 0) => self.map.len.max(self.other.len),
            (0, given) => given,
            (asked, _) => asked,
        };
        each.saturating_mul(self.cases())
    }
}
