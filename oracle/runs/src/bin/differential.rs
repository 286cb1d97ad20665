//! Pigeonmast beside the published Rust and the reading.
//!
//!     cargo run --release --bin differential -- quick|long [SEED]

use compare::calls::READING;
use compare::run::{all, Plan, LONG, QUICK};
use runs::{safe_calls, stop, PIGEONMAST};
use std::time::Instant;

const USAGE: &str = "usage: differential quick|long [SEED], or differential reading [SEED]";

fn main() {
    let words: Vec<String> = std::env::args().skip(1).collect();
    let what = words.first().map(String::as_str);
    let (mut plan, calls): (Plan, _) = match what {
        Some("quick") => (QUICK, &PIGEONMAST),
        Some("long") => (LONG, &PIGEONMAST),
        // The reading itself against the Rust: what all else leans on.
        Some("reading") => (QUICK, &READING),
        _ => stop(USAGE),
    };
    match words.get(1).map(|seed| seed.parse()) {
        Some(Ok(seed)) => plan.seed = seed,
        Some(Err(_)) => stop("differential: the seed is a whole number below 2^64"),
        None => {}
    }
    if words.len() > 2 {
        stop(USAGE);
    }
    // Room for the seeds that a run makes of this one.
    plan.seed %= 1 << 60;
    let start = Instant::now();
    let mut differed = all(calls, &plan);
    // The crate's own types stand over Pigeonmast only.
    if what != Some("reading") {
        differed += safe_calls::check(plan.seed ^ 6, plan.meshes as u64 / 10);
    }
    println!("took {} s", start.elapsed().as_secs());
    match differed {
        0 => println!("differences: none"),
        _ => {
            println!("differences: {differed}");
            std::process::exit(1);
        }
    }
}
