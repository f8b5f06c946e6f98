//! How many runs `explore_on` makes in a second: `cargo run --release --example runs [RUNS]`.
//!
//! Two threads make four calls each. For 1, 2 and 4 workers it prints the most runs of three rounds in a second.

use std::time::Instant;

use atomfs::{explore_on, Error, Plan};

fn made(plan: &mut Plan<'_, Result<(), Error>>) {
    for name in ["a", "b"] {
        plan.thread(name, move |tree| {
            let (one, other) = (format!("/{name}"), format!("/{name}2"));
            tree.mknod(&one)?;
            tree.write(&one, 0, "x")?;
            tree.stat(&one)?;
            tree.rename(&one, &other)
        });
    }
    plan.check(|_, replies| replies.iter().all(|(_, came)| came.is_ok()));
}

fn main() -> Result<(), Box<dyn std::error::Error>> {
    let runs: u64 = std::env::args().nth(1).map_or(Ok(5_000), |runs| runs.parse())?;
    for workers in [1, 2, 4] {
        let mut most = 0.0_f64;
        for _ in 0..3 {
            let begin = Instant::now();
            explore_on(workers, 0..runs, made)?;
            most = most.max(runs as f64 / begin.elapsed().as_secs_f64());
        }
        println!("workers {workers}: {most:.0} runs a second");
    }
    Ok(())
}
