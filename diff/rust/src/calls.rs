//! The calls that lines make.
use crate::keys::{pair, pairs, text, Code, Key, Order, Pair, Value, CLONED};
use litemap::Entry::{Occupied, Vacant};
use litemap::{LiteMap, OccupiedEntry};
use std::mem::{replace, take};

/// A map with keys of one type, whose calls are made.
pub type Map = LiteMap<Key, Value>;

type There<'m> = OccupiedEntry<'m, Key, Value, Vec<(Key, Value)>>;

/// The name of a call, and the words after it.
pub struct Given<'w> {
    order: Order,
    name: &'w str,
    words: Vec<&'w str>,
}

impl<'w> Given<'w> {
    fn key(&self) -> Key {
        Key::new(self.order, self.words[0])
    }

    fn number(&self, word: usize) -> u64 {
        self.words[word].parse().expect("a number")
    }

    fn index(&self, word: usize) -> usize {
        self.number(word) as usize
    }

    fn value(&self) -> Value {
        Value::new(self.number(1))
    }

    fn pairs(&self) -> impl Iterator<Item = (Key, Value)> + '_ {
        self.words.iter().map(|word| {
            let (key, value) = word.split_once(':').expect("a pair");
            let value = value.parse().expect("a number");
            (Key::new(self.order, key), Value::new(value))
        })
    }

    fn map(&self) -> Map {
        self.pairs().collect()
    }

    /// Writes the value into one that is lent: what it was.
    fn replace(&self, slot: &mut Value) -> String {
        replace(&mut slot.0, self.number(1)).to_string()
    }

    /// Writes the number of a word, if there is one, into the value that is lent: what it was.
    fn write(&self, slot: &mut Value, word: usize) -> String {
        let new = if self.words.len() > word { self.number(word) } else { slot.0 };
        replace(&mut slot.0, new).to_string()
    }
}

/// Makes a call, and returns its result.
pub fn make(map: &mut Map, order: Order, call: &str) -> String {
    let mut words = call.split(' ').filter(|word| !word.is_empty());
    let name = words.next().expect("a call");
    let found = CALLS.iter().find(|(names, _)| names.split(' ').any(|it| it == name));
    let (_, call) = found.unwrap_or_else(|| panic!("no call: {name}"));
    call(map, &Given { order, name, words: words.collect() })
}

/// Names of calls, and what makes them: what they return, as text.
type Call = (&'static str, fn(&mut Map, &Given) -> String);

#[allow(deprecated)]
const CALLS: &[Call] = &[
    ("len", |map, _| map.len().to_string()),
    ("is_empty", |map, _| map.is_empty().to_string()),
    ("first", |map, _| or_none(map.first().map(one))),
    ("last", |map, _| or_none(map.last().map(one))),
    ("get_indexed", |map, given| or_none(map.get_indexed(given.index(0)).map(one))),
    ("as_slice", |map, _| text(map.as_slice().iter().map(|(key, value)| pair((key, value))))),
    ("as_sliced", |map, _| table(&map.as_sliced())),
    ("get_indexed_range", |map, given| {
        let part = map.get_indexed_range(given.index(0)..given.index(1));
        or_none(part.map(|part| text(part.iter().map(pair))))
    }),
    ("into_tuple_vec", |map, _| text(take(map).into_tuple_vec().into_iter().map(pair))),
    // Look-ups.
    ("get get_counted", |map, given| or_none(map.get(&given.key()))),
    ("get_by", |map, given| or_none(map.get_by(|there| there.cmp(&given.key())))),
    ("contains_key", |map, given| map.contains_key(&given.key()).to_string()),
    ("index", |map, given| match map.contains_key(&given.key()) {
        true => map[&given.key()].to_string(),
        false => "absent".to_string(),
    }),
    ("find_index find_index_counted find_index_by", |map, given| match map.find_index(&given.key()) {
        Ok(index) => format!("ok {index}"),
        Err(index) => format!("err {index}"),
    }),
    ("iter", |map, given| steps(map.len(), map.iter(), given, pair)),
    ("keys", |map, given| steps(map.len(), map.keys(), given, of_key)),
    ("values", |map, given| steps(map.len(), map.values(), given, of_value)),
    ("into_iter", |map, given| steps(map.len(), take(map).into_iter(), given, pair)),
    ("for", |map, _| text((&*map).into_iter().map(pair)) + " exact"),
    ("iter_keys", |map, _| text(map.iter_keys().map(of_key).take(1)) + " exact"),
    ("iter_values", |map, _| text(map.iter_values().map(of_value).take(1)) + " exact"),
    // Copies, and comparisons with another map.
    ("try_clone cloned", |map, _| copied(|| pairs(&map.clone()))),
    ("to_boxed_keys_values", |map, _| copied(|| pairs::<Box<Key>, Box<Value>>(&map.to_boxed_keys_values()))),
    ("to_boxed_keys", |map, _| copied(|| pairs::<Box<Key>, Value>(&map.to_boxed_keys()))),
    ("to_boxed_values", |map, _| copied(|| pairs::<Key, Box<Value>>(&map.to_boxed_values()))),
    ("to_borrowed_keys_values", |map, _| copied(|| pairs::<&Key, &Value>(&map.to_borrowed_keys_values()))),
    ("to_borrowed_keys", |map, _| copied(|| pairs::<&Key, Value>(&map.to_borrowed_keys()))),
    ("to_borrowed_values", |map, _| copied(|| pairs::<Key, &Value>(&map.to_borrowed_values()))),
    ("eq", |map, given| (*map == given.map()).to_string()),
    ("cmp", |map, given| format!("{:?}", (*map).cmp(&given.map())).to_lowercase()),
    ("partial_cmp", |map, given| {
        let ordering = (*map).partial_cmp(&given.map());
        or_none(ordering.map(|ordering| format!("{ordering:?}").to_lowercase()))
    }),
    ("insert insert_counted", |map, given| or_none(map.insert(given.key(), given.value()))),
    ("try_insert", |map, given| back(map.try_insert(given.key(), given.value()))),
    ("try_append", |map, given| back(map.try_append(given.key(), given.value()))),
    ("try_get_or_insert try_find_or_insert", |map, given| try_get(map, given, Ok(given.value()))),
    ("try_get_or_fail try_find_or_fail", |map, given| try_get(map, given, Err(given.value()))),
    ("entry", |map, given| match map.entry(given.key()) {
        Occupied(entry) => format!("occupied {}", entry.key().code),
        Vacant(entry) => format!("vacant {}", entry.key().code),
    }),
    ("entry_get", |map, given| in_entry(map, given, |entry| entry.get().to_string(), false)),
    ("entry_remove", |map, given| in_entry(map, given, |entry| entry.remove().to_string(), false)),
    ("entry_insert", |map, given| in_entry(map, given, |mut entry| entry.insert(given.value()).to_string(), true)),
    ("entry_get_mut", |map, given| in_entry(map, given, |mut entry| given.replace(entry.get_mut()), true)),
    ("entry_into_mut", |map, given| in_entry(map, given, |entry| given.replace(entry.into_mut()), true)),
    ("or_default", |map, given| given.write(map.entry(given.key()).or_default(), 1)),
    ("or_insert", |map, given| given.write(map.entry(given.key()).or_insert(given.value()), 2) + " asked 0"),
    ("or_insert_with", |map, given| {
        let mut times = 0;
        let made = || {
            times += 1;
            given.value()
        };
        let old = given.write(map.entry(given.key()).or_insert_with(made), 2);
        format!("{old} asked {times}")
    }),
    ("and_modify", |map, given| {
        let mut times = 0;
        let entry = map.entry(given.key()).and_modify(|there| {
            times += 1;
            there.0 += given.number(1);
        });
        let old = given.write(entry.or_insert(given.value()), 2);
        format!("{old} asked {times}")
    }),
    // Other changes of one pair or of each.
    ("get_mut get_mut_by", |map, given| or_none(map.get_mut(&given.key()).map(|slot| given.replace(slot)))),
    ("get_indexed_mut", |map, given| {
        let slot = map.iter_mut().nth(given.index(0));
        or_none(slot.map(|(_, slot)| given.replace(slot)))
    }),
    ("index_mut", |map, given| match map.contains_key(&given.key()) {
        true => given.replace(&mut map[&given.key()]),
        false => "absent".to_string(),
    }),
    ("remove remove_counted remove_by", |map, given| or_none(map.remove(&given.key()))),
    ("rename rename_counted", |map, given| {
        let moved = map.remove(&given.key());
        moved.map(|value| map.insert(Key::new(given.order, given.words[1]), value)).is_some().to_string()
    }),
    ("update", |map, given| {
        for (index, (_, slot)) in map.into_iter().enumerate() {
            slot.0 += given.number(0) + index as u64;
        }
        map.len().to_string()
    }),
    ("retain", |map, given| {
        let mut times = 0;
        map.retain(|_, _| {
            times += 1;
            given.number(0) >> ((times - 1) % 64) & 1 == 1
        });
        times.to_string()
    }),
    // Changes of the whole, and by lists of pairs.
    ("new", |map, _| ok(*map = LiteMap::new())),
    ("with_capacity", |map, given| ok(*map = LiteMap::with_capacity(given.index(0)))),
    ("clear", |map, _| ok(map.clear())),
    ("reserve", |map, given| ok(map.reserve(given.index(0)))),
    ("from_iter collected from_iter_counted from_vec from_vec_counted", |map, given| ok(*map = given.map())),
    ("extend extended extend_counted extend_from_vec extend_from_vec_counted", |map, given| {
        ok(map.extend(given.pairs()))
    }),
    ("extend_from_litemap extend_from_litemap_counted", |map, given| {
        let left = map.extend_from_litemap(given.map());
        or_none(left.map(|left| format!("left {}", text(pairs(&left)))))
    }),
    ("extend_with extend_with_counted", |map, given| combine(map, given.map())),
    ("keep_keys_of remove_keys_of", |map, given| {
        let other = given.map();
        ok(map.retain(|key, _| other.contains_key(key) == (given.name == "keep_keys_of")))
    }),
    ("is_subset is_subset_counted", |map, given| {
        let other = given.map();
        map.iter().all(|(key, _)| other.contains_key(key)).to_string()
    }),
];

/// What a call returns that returns nothing.
fn ok(_: ()) -> String {
    "ok".to_string()
}

fn or_none(found: Option<impl ToString>) -> String {
    found.map_or("none".to_string(), |found| found.to_string())
}

fn one(found: (&Key, &Value)) -> String {
    text([pair(found)])
}

// What iterators of keys and of values yield: no value, and no key.
fn of_key(key: &Key) -> Pair {
    (key.code, 0)
}

fn of_value(value: &Value) -> Pair {
    (Code::default(), value.0)
}

/// The results of the calls of a constant table.
fn table(table: &LiteMap<Key, Value, &[(Key, Value)]>) -> String {
    let (len, is_empty) = (table.const_len(), table.const_is_empty());
    let shown = format!("{} {len} {is_empty}", text(table.iter().map(pair)));
    if is_empty {
        return shown;
    }
    let (key, value) = table.const_get_indexed_or_panic(0);
    format!("{shown} {}", one((key, value)))
}

/// Goes steps from the front, and then from the back: what is met, and whether each hint tells exactly how many are left.
fn steps<I: DoubleEndedIterator>(mut left: usize, mut rest: I, given: &Given, pair: fn(I::Item) -> Pair) -> String {
    let front = given.index(0);
    let back = given.words.get(1).map_or(0, |_| given.index(1));
    let (mut met, mut is_exact) = (Vec::new(), true);
    for step in 0..front + back {
        let item = if step < front { rest.next() } else { rest.next_back() };
        if let Some(item) = item {
            left -= 1;
            met.push(pair(item));
        }
        is_exact &= rest.size_hint() == (left, Some(left));
    }
    let hints = if is_exact { "exact" } else { "inexact" };
    format!("{} {hints}", text(met))
}

/// Makes another map: its pairs, and how many keys and values were cloned.
fn copied(make: impl FnOnce() -> Vec<Pair>) -> String {
    CLONED.set(0);
    let made = make();
    format!("{} cloned {}", text(made), CLONED.get())
}

fn back(back: Option<(Key, Value)>) -> String {
    back.map_or("placed".to_string(), |back| format!("back {}", text([pair(back)])))
}

/// `try_get_or_insert`, with the value or without it.
fn try_get(map: &mut Map, given: &Given, made: Result<Value, Value>) -> String {
    let mut times = 0;
    let found = map.try_get_or_insert(given.key(), |_| {
        times += 1;
        made
    });
    let result = match found {
        Ok((index, value)) if given.name.contains("get") => format!("{index} {value}"),
        Ok((index, _)) => index.to_string(),
        Err(error) => format!("closure {error}"),
    };
    format!("{result} asked {times}")
}

/// A call of an occupied entry. The value may be inserted into a vacant one, and another one written, if there is one.
fn in_entry(map: &mut Map, given: &Given, call: impl FnOnce(There) -> String, is_filled: bool) -> String {
    match map.entry(given.key()) {
        Occupied(entry) => call(entry),
        Vacant(entry) if is_filled => given.write(entry.insert(given.value()), 2),
        Vacant(_) => "vacant".to_string(),
    }
}

/// Puts the pairs of another map in one by one: a value that is there already becomes three times that, the new one, what the
/// new key's code leaves by seven, and a thousand for each that was there before. Returns what a merge does, and how many were
/// there.
fn combine(map: &mut Map, other: Map) -> String {
    let mut left = Vec::new();
    for (key, mut value) in other {
        if let Some(here) = map.get(&key).map(|here| here.0) {
            let more = here.wrapping_mul(3).wrapping_add(key.code.number % 7);
            value.0 = value.0.wrapping_add(more).wrapping_add(1000 * left.len() as u64);
            left.push((key.code, here));
        }
        map.insert(key, value);
    }
    if left.is_empty() {
        return "none asked 0".to_string();
    }
    format!("left {} asked {}", text(left.iter().copied()), left.len())
}
