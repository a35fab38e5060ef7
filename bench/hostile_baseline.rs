// A plain reader of Go benchmark text, for `bench/hostile`: keeps each value with its test and its unit, and prints how many.
use std::io::Read;

fn main() {
    let mut text = String::new();
    std::io::stdin().read_to_string(&mut text).unwrap();
    let mut kept: Vec<(String, String, f64)> = Vec::new();
    for line in text.lines() {
        let mut words = line.split_ascii_whitespace();
        let Some(name) = words.next().and_then(|word| word.strip_prefix("Benchmark")) else {
            continue;
        };
        let Some(Ok(_)) = words.next().map(|word| word.parse::<u64>()) else {
            continue;
        };
        while let (Some(value), Some(unit)) = (words.next(), words.next()) {
            if let Ok(value) = value.parse::<f64>() {
                kept.push((name.to_string(), unit.to_string(), value));
            }
        }
    }
    println!("{}", kept.len());
}
