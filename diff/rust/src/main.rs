//! Makes the calls of lines, as `test_replay` does, on a map of the Rust crate, and writes what each returns and leaves. Whatever
//! the store of a line is, the map is one over a vector.
mod calls;
mod keys;

use calls::Map;
use keys::{pairs, text, Order};
use std::io::{self, Write};

fn main() -> io::Result<()> {
    let input = io::read_to_string(io::stdin())?;
    let mut output = io::BufWriter::new(io::stdout());
    let (mut map, mut store, mut order) = (Map::new(), "", Order::Number);
    for (index, line) in input.lines().enumerate() {
        if let Some(name) = line.strip_prefix("on ") {
            store = name;
        } else if let Some(words) = line.strip_prefix("with ") {
            order = Order::new(words);
        } else {
            let line = line.strip_suffix(" = ? | *").unwrap_or(line);
            let call = line.strip_prefix("+ ").unwrap_or(line);
            if call == line {
                map = Map::new();
            }
            let before = pairs(&map);
            let result = calls::make(&mut map, order, call);
            let after = pairs(&map);
            let left = if before == after { "same".to_string() } else { text(after) };
            writeln!(output, "input:{} {store} {call} = {result} | {left}", index + 1)?;
        }
    }
    Ok(())
}
