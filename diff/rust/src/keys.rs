//! Keys and values, whose clones are counted, and the words for them that `test_replay` reads and writes.
use litemap::LiteMap;
use std::borrow::Borrow;
use std::cell::Cell;
use std::cmp::Ordering;
use std::fmt::{self, Display, Formatter};

thread_local! {
    /// The number of keys and values that were cloned.
    pub static CLONED: Cell<u64> = const { Cell::new(0) };
}

/// How keys are written, and their order: as numbers, as strings of up to eight bytes by their bytes, or as such strings whose
/// first letter counts without its case.
#[derive(Clone, Copy, PartialEq)]
pub enum Order {
    Number,
    Text,
    Letter,
}

impl Order {
    /// The order that a line names. Each run begins with no pairs and no room.
    pub fn new(words: &str) -> Self {
        match words {
            "number 0 0" => Order::Number,
            "text 0 0" => Order::Text,
            "letter 0 0" => Order::Letter,
            _ => panic!("no order: {words}"),
        }
    }
}

/// The number that a key's word stands for: itself, or the bytes of a string, the first one highest.
#[derive(Clone, Copy, Default, PartialEq)]
pub struct Code {
    is_text: bool,
    pub number: u64,
}

impl Display for Code {
    fn fmt(&self, f: &mut Formatter) -> fmt::Result {
        if !self.is_text {
            return write!(f, "{}", self.number);
        }
        let bytes = self.number.to_be_bytes();
        f.write_str(String::from_utf8_lossy(&bytes).trim_end_matches('\0'))
    }
}

/// Gives a type the order of one of its parts, and puts clones of it into boxes.
macro_rules! order_by {
    ($type:ty, $part:tt) => {
        impl PartialEq for $type {
            fn eq(&self, other: &Self) -> bool {
                self.$part == other.$part
            }
        }

        impl Eq for $type {}

        impl PartialOrd for $type {
            fn partial_cmp(&self, other: &Self) -> Option<Ordering> {
                Some(self.cmp(other))
            }
        }

        impl Ord for $type {
            fn cmp(&self, other: &Self) -> Ordering {
                self.$part.cmp(&other.$part)
            }
        }

        impl From<&$type> for Box<$type> {
            fn from(lent: &$type) -> Self {
                Box::new(lent.clone())
            }
        }
    };
}

order_by!(Key, rank);
order_by!(Value, 0);

/// A key: its code, and its rank among all keys.
pub struct Key {
    pub code: Code,
    rank: u64,
}

impl Key {
    /// The key of a word.
    pub fn new(order: Order, word: &str) -> Self {
        let is_text = order != Order::Number;
        let number = if is_text {
            let mut bytes = [0; 8];
            bytes[..word.len()].copy_from_slice(word.as_bytes());
            u64::from_be_bytes(bytes)
        } else {
            word.parse().expect("a number")
        };
        let rank = if order == Order::Letter { number | 1 << 61 } else { number };
        Key { code: Code { is_text, number }, rank }
    }
}

impl Clone for Key {
    fn clone(&self) -> Self {
        CLONED.set(CLONED.get() + 1);
        Key { ..*self }
    }
}

/// A value, and whether its clones are counted: those of one that `or_default` makes are not.
#[derive(Default)]
pub struct Value(pub u64, bool);

impl Value {
    /// The value of a number.
    pub fn new(number: u64) -> Self {
        Value(number, true)
    }
}

impl Display for Value {
    fn fmt(&self, f: &mut Formatter) -> fmt::Result {
        self.0.fmt(f)
    }
}

impl Clone for Value {
    fn clone(&self) -> Self {
        CLONED.set(CLONED.get() + self.1 as u64);
        Value(self.0, self.1)
    }
}

/// A pair as it is written.
pub type Pair = (Code, u64);

/// A key and a value as they are written.
pub fn pair<K: Borrow<Key>, V: Borrow<Value>>((key, value): (K, V)) -> Pair {
    (key.borrow().code, value.borrow().0)
}

/// The pairs of a map.
pub fn pairs<K: Borrow<Key>, V: Borrow<Value>>(map: &LiteMap<K, V>) -> Vec<Pair> {
    map.iter().map(|(key, value)| pair((key.borrow(), value.borrow()))).collect()
}

/// Pairs as they are written: a few by themselves, and many by their number and a sum.
pub fn text(pairs: impl IntoIterator<Item = Pair>) -> String {
    let pairs: Vec<Pair> = pairs.into_iter().collect();
    if pairs.is_empty() {
        return "-".to_string();
    }
    if pairs.len() <= 6 {
        let words = pairs.iter().map(|(code, value)| format!("{code}:{value}"));
        return words.collect::<Vec<_>>().join(" ");
    }
    let mut sum = 0u64;
    for (code, value) in &pairs {
        for number in [code.number, *value] {
            sum = (sum ^ number).wrapping_mul(1_099_511_628_211);
        }
        sum ^= sum >> 29;
    }
    format!("#{}:{}", pairs.len(), sum % 1_000_000_000)
}
