//! Maps as JSON text, by serde and serde_json.
use crate::calls::{Case, Measured};
use litemap::LiteMap;
use serde::{de::DeserializeOwned, Deserialize, Serialize};
use serde_json::Value;

/// A map, and its value and text as JSON.
pub struct Json<K> {
    map: LiteMap<K, u64>,
    value: Value,
    text: String,
}

impl<K: Ord + Serialize + DeserializeOwned> Measured<K> for Json<K> {
    const NAME: &'static str = "json";

    fn made(pairs: Vec<(K, u64)>) -> Self {
        let map = LiteMap::from_iter(pairs);
        let value = serde_json::to_value(&map).expect("a value");
        let text = value.to_string();
        Json { map, value, text }
    }

    fn call(call: &str, cases: &mut [Case<K, Self>]) -> u64 {
        cases.iter().map(|case| case.map.call_one(call) as u64).sum()
    }
}

impl<K: Ord + Serialize + DeserializeOwned> Json<K> {
    /// The length of the text that is written, or the number of pairs in the map that is read. Here serde does each of these, so
    /// that some calls are made twice.
    fn call_one(&self, call: &str) -> usize {
        match call {
            "to_json" => serde_json::to_value(&self.map).expect("a value").to_string().len(),
            "write_json" | "serde_write" => serde_json::to_string(&self.map).expect("a text").len(),
            "from_json" => LiteMap::<K, u64>::deserialize(&self.value).expect("a map").len(),
            _ => serde_json::from_str::<LiteMap<K, u64>>(&self.text).expect("a map").len(),
        }
    }
}
