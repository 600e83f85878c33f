//! The measures of bench/rattle, for the Rust crate: the same work on the same keys, and lines of the same form.
mod calls;
#[cfg(feature = "json")]
mod json;
mod rows;

use calls::{Case, Measured};
use litemap::LiteMap;
use rows::{Numbers, Row};

/// The number of the clock of a thread's processor time, on Linux.
const CLOCK_THREAD_CPUTIME_ID: i32 = 3;

// std has no such clock, and links the C library, which has one. It writes seconds and nanoseconds.
extern "C" {
    fn clock_gettime(clock: i32, time: *mut [i64; 2]) -> i32;
}

/// The processor time used so far, without that of other programs on a busy machine.
fn nanos_used() -> u128 {
    let mut time = [0, 0];
    // The C function writes only what is passed to it.
    let status = unsafe { clock_gettime(CLOCK_THREAD_CPUTIME_ID, &mut time) };
    assert_eq!(status, 0, "no clock");
    time[0] as u128 * 1_000_000_000 + time[1] as u128
}

/// The pairs of some numbers: each key with its number, plus a difference, as the value.
fn pairs<K>(key: fn(u64) -> K, numbers: Numbers, first: u64, more: u64) -> Vec<(K, u64)> {
    let pair = |number: u64| (key(number), number.wrapping_add(more));
    (0..numbers.len).map(|index| pair(numbers.at(first, index))).collect()
}

/// Makes a round: its time, and a number for the results and all maps after the calls.
fn call_round<K, M: Measured<K>>(key: fn(u64) -> K, row: &Row, round: usize) -> (u128, u64) {
    // What is merged has other values than the map, and what is compared the same.
    let case_at = |first: u64| Case {
        map: M::made(pairs(key, row.map, first, 0)),
        given: pairs(key, row.given, first, 0),
        other: M::made(pairs(key, row.other, first, u64::from(row.call != "equal"))),
        asked: pairs(key, row.asked, first, 0),
    };
    let mut cases: Vec<Case<K, M>> = (0..row.cases()).map(|case| case_at(row.first(round, case))).collect();
    let start = nanos_used();
    let sum = M::call(row.call, &mut cases);
    let nanos = nanos_used() - start;
    let answer = cases.iter().fold(sum, |answer, case| {
        let left = answer.wrapping_mul(31).wrapping_add(case.map.total());
        left.wrapping_mul(31).wrapping_add(case.other.total())
    });
    (nanos, answer)
}

/// Measures the rows of a kind of map at a size, and writes a line of each: the lowest time, and the result of the first round.
fn measure<K, M: Measured<K>>(lines: &str, (keys, key): (&str, fn(u64) -> K), over: &str, size: usize) {
    for row in lines.lines().map(|line| Row::new(line, size)).filter(|row| row.over == over) {
        let began = nanos_used();
        let (mut lowest, answer) = call_round::<K, M>(key, &row, 0);
        let mut round = 1;
        while !rows::is_enough(round, nanos_used() - began) {
            lowest = lowest.min(call_round::<K, M>(key, &row, round).0);
            round += 1;
        }
        let each = lowest * 1000 / row.pairs() as u128;
        println!("{} {keys} {} {size} {each} {answer}", row.name, M::NAME);
    }
}

fn main() -> std::io::Result<()> {
    let lines = &std::io::read_to_string(std::io::stdin())?;
    let number: (&str, fn(u64) -> u64) = ("number", |number| number);
    let text: (&str, fn(u64) -> String) = ("text", |number| format!("name {number}"));
    for size in [8, 64, 1000, 100_000] {
        measure::<u64, LiteMap<u64, u64>>(lines, number, "vector", size);
        measure::<String, LiteMap<String, u64>>(lines, text, "vector", size);
        #[cfg(feature = "json")]
        measure::<u64, json::Json<u64>>(lines, number, "json", size);
        #[cfg(feature = "json")]
        measure::<String, json::Json<String>>(lines, text, "json", size);
    }
    for size in [0, 1, 2, 8] {
        measure::<u64, LiteMap<u64, u64>>(lines, ("few", number.1), "few", size);
    }
    Ok(())
}
