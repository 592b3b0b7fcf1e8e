// Reads standard input as JSON by serde_json, and says how many keys its top has: what reading alone costs, beside which run.py puts `check`.
use std::io::Read;

fn main() {
    let mut text = Vec::new();
    std::io::stdin().read_to_end(&mut text).expect("standard input can be read");
    let value: serde_json::Value = serde_json::from_slice(&text).expect("it is JSON");
    println!("{}", value.as_object().map_or(0, |top| top.len()));
}
