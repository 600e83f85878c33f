//! What is measured, and its calls, each in a loop over the cases of a round.
use litemap::LiteMap;
use std::mem::take;

/// A map, and the arguments of its call: pairs, another map, in place of which stands what the call makes, and keys to look up.
pub struct Case<K, M> {
    pub map: M,
    pub given: Vec<(K, u64)>,
    pub other: M,
    pub asked: Vec<(K, u64)>,
}

/// What is measured: a map, or what is made of one.
pub trait Measured<K>: Sized {
    /// Its name in the tables.
    const NAME: &'static str;

    /// Makes it of pairs.
    fn made(pairs: Vec<(K, u64)>) -> Self;

    /// Makes a call of each case, and returns the sum of the results.
    fn call(call: &str, cases: &mut [Case<K, Self>]) -> u64;

    /// The sum of all values, by `iter`.
    fn total(&self) -> u64 {
        0
    }
}

impl<K: Ord + Clone> Measured<K> for LiteMap<K, u64> {
    const NAME: &'static str = "Vec";

    fn made(pairs: Vec<(K, u64)>) -> Self {
        // Few pairs are inserted one by one, as they mostly are.
        if pairs.len() > 8 {
            return LiteMap::from_iter(pairs);
        }
        let mut map = LiteMap::new_vec();
        insert(&mut map, pairs);
        map
    }

    fn call(call: &str, cases: &mut [Case<K, Self>]) -> u64 {
        look(call, cases)
    }

    fn total(&self) -> u64 {
        let mut sum: u64 = 0;
        for (_, value) in self {
            sum = sum.wrapping_add(*value);
        }
        sum
    }
}

/// The cases of a map.
type Cases<K> = [Case<K, LiteMap<K, u64>>];

/// Makes a call of each case, and returns the sum of the results.
#[inline(never)]
fn each<K, M>(cases: &mut [Case<K, M>], call: impl Fn(&mut Case<K, M>) -> u64) -> u64 {
    cases.iter_mut().map(call).fold(0, u64::wrapping_add)
}

/// Makes a call that returns nothing, of each case.
#[inline(never)]
fn done<K, M>(cases: &mut [Case<K, M>], call: impl Fn(&mut Case<K, M>)) -> u64 {
    cases.iter_mut().for_each(call);
    0
}

/// The calls that leave the maps as they are, or make others.
fn look<K: Ord + Clone>(call: &str, cases: &mut Cases<K>) -> u64 {
    match call {
        "get" => each(cases, |case| sum(case.asked.iter().map(|(key, _)| case.map.get(key).copied()))),
        "iter" => each(cases, |case| case.map.total()),
        "equal" => each(cases, |case| u64::from(case.map == case.other)),
        "is_subset" => each(cases, |case| u64::from(case.map.iter().all(|(key, _)| case.other.contains_key(key)))),
        "clone" => done(cases, |case| case.other = case.map.clone()),
        "from_iter" => done(cases, |case| case.map = LiteMap::from_iter(take(&mut case.given))),
        _ => change(call, cases),
    }
}

/// The calls that change the maps.
fn change<K: Ord + Clone>(call: &str, cases: &mut Cases<K>) -> u64 {
    match call {
        "insert" => done(cases, |case| insert(&mut case.map, take(&mut case.given))),
        "remove" => each(cases, |case| sum(case.asked.iter().map(|(key, _)| case.map.remove(key)))),
        "rename" => each(cases, |case| rename(&mut case.map, &case.asked, take(&mut case.given))),
        "update" | "iter_mut" => done(cases, |case| update(&mut case.map)),
        // The values are written first, since `retain` shows them only.
        "retain_mut" => done(cases, |case| {
            update(&mut case.map);
            case.map.retain(|_, value| *value & 2 == 0);
        }),
        "retain" => done(cases, |case| case.map.retain(|_, value| *value & 2 == 0)),
        // All values are even.
        "retain_all" => done(cases, |case| case.map.retain(|_, value| *value & 1 == 0)),
        "retain_none" => done(cases, |case| case.map.retain(|_, value| *value & 1 == 1)),
        "keep_keys_of" => done(cases, |case| case.map.retain(|key, _| case.other.contains_key(key))),
        "remove_keys_of" => done(cases, |case| case.map.retain(|key, _| !case.other.contains_key(key))),
        "extend" | "extend_from_vec" => done(cases, |case| case.map.extend(take(&mut case.given))),
        "extend_from_litemap" => done(cases, |case| {
            let left = case.map.extend_from_litemap(take(&mut case.other));
            case.other = left.unwrap_or_default();
        }),
        "extend_with" => done(cases, extend_with),
        _ => panic!("no call: {call}"),
    }
}

fn sum(found: impl Iterator<Item = Option<u64>>) -> u64 {
    found.fold(0, |sum, value| sum.wrapping_add(value.unwrap_or(0)))
}

fn insert<K: Ord + Clone>(map: &mut LiteMap<K, u64>, pairs: Vec<(K, u64)>) {
    for (key, value) in pairs {
        let _old = map.insert(key, value);
    }
}

fn rename<K: Ord + Clone>(map: &mut LiteMap<K, u64>, asked: &[(K, u64)], pairs: Vec<(K, u64)>) -> u64 {
    let mut sum: u64 = 0;
    for ((key, _), (new_key, _)) in asked.iter().zip(pairs) {
        if let Some(value) = map.remove(key) {
            let _old = map.insert(new_key, value);
            sum = sum.wrapping_add(1);
        }
    }
    sum
}

fn update<K: Ord + Clone>(map: &mut LiteMap<K, u64>) {
    for (_, value) in map.iter_mut() {
        *value = value.wrapping_add(2);
    }
}

fn extend_with<K: Ord + Clone>(case: &mut Case<K, LiteMap<K, u64>>) {
    let mut other = take(&mut case.other);
    for (key, new) in other.iter_mut() {
        if let Some(here) = case.map.get(key) {
            *new = here.wrapping_add(*new);
        }
    }
    case.other = case.map.extend_from_litemap(other).unwrap_or_default();
}
