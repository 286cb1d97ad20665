//! Writes the replay data.
//!
//!     cargo run --release --bin write_replay -- FILE

use compare::replay::{write, SEED};

fn run() -> Result<(), String> {
    let words: Vec<String> = std::env::args().skip(1).collect();
    let [path] = &words[..] else {
        return Err("usage: write_replay FILE".into());
    };
    let (bytes, answers) = write().map_err(|e| format!("write_replay: {e}"))?;
    std::fs::write(path, &bytes).map_err(|e| format!("write_replay: {path}: {e}"))?;
    println!("{} bytes, seed {SEED}; answers:", bytes.len());
    for ((call, number), times) in &answers {
        println!("  {call} {number}: {times}");
    }
    Ok(())
}

fn main() {
    if let Err(line) = run() {
        eprintln!("{line}");
        std::process::exit(1);
    }
}
