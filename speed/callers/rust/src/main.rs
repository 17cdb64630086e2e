//! `by_rust answer FILE COUNT` resolves the features of a manifest COUNT times, and prints the best
//! time of one call in nanoseconds and how many features there are. The answer's release is timed
//! too.

use cargo_toml_proved::Resolver;
use std::hint::black_box;
use std::time::{Duration, Instant};

fn main() -> Result<(), Box<dyn std::error::Error>> {
    let words: Vec<String> = std::env::args().collect();
    let text = std::fs::read(&words[2])?;
    let (mut best, mut size) = (Duration::MAX, 0);
    for _ in 0..words[3].parse()? {
        let start = Instant::now();
        let answer = Resolver::new().parse(black_box(&text))?;
        size = answer.features.len();
        drop(black_box(answer));
        best = best.min(start.elapsed());
    }
    println!("{} {size}", best.as_nanos());
    Ok(())
}
