//! The same work as `crates/vr_bench`, written the same way in Rust without dependencies.
mod crossing;
mod spans;

use std::env;

fn main() {
    let mut words = env::args().skip(1);
    let (Some(what), Some(rounds)) = (words.next(), words.next()) else {
        return;
    };
    let rounds: u32 = rounds.parse().expect("the rounds are a number");
    match what.as_str() {
        "crossing" => crossing::time_crossings(rounds),
        "meet" => crossing::time_meets(rounds),
        _ => panic!("there is no work of this name"),
    }
}
