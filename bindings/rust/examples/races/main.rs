//! Plays a race of this folder, or its repair: `cargo run --example races NAME [repair] [RUNS]`.
//!
//! Exit status: 0 no race was found; 1 one was; 2 a usage error.

use std::env;
use std::process::ExitCode;

use atomfs::explore_on;

macro_rules! races {
    ($($name:ident)*) => {
        $(mod $name;)*

        /// The names of all races.
        const NAMES: &[&str] = &[$(stringify!($name)),*];

        /// Makes so many runs of a race, or of its repair, on all cores. None if there is no such race.
        fn play(name: &str, repair: bool, runs: u64) -> Option<ExitCode> {
            let seeds = 1..runs + 1;
            let seen = match (name, repair) {
                $(
                    (stringify!($name), false) => explore_on(0, seeds, $name::race),
                    (stringify!($name), true) => explore_on(0, seeds, $name::repair),
                )*
                _ => return None,
            };
            match seen {
                Ok(seen) => println!("{seen}"),
                Err(error) => {
                    println!("{error}");
                    return Some(ExitCode::from(1));
                }
            }
            Some(ExitCode::SUCCESS)
        }
    };
}

races!(
    exists_then_create
    listing_in_pages
    log_rotation
    lost_update
    mkdir_p
    publish_by_rename
    queue_by_rename
    stale_lock
);

fn main() -> ExitCode {
    let words: Vec<String> = env::args().skip(1).collect();
    let mut left: Vec<&str> = words.iter().map(String::as_str).collect();
    let runs = left.last().and_then(|word| word.parse().ok());
    if runs.is_some() {
        left.pop();
    }
    let repair = left.get(1) == Some(&"repair");
    let played = match left.len() == 1 + usize::from(repair) {
        true => play(left[0], repair, runs.unwrap_or(1_000)),
        false => None,
    };
    played.unwrap_or_else(|| {
        eprintln!("usage: cargo run --example races NAME [repair] [RUNS]; NAME is {}", NAMES.join(", "));
        ExitCode::from(2)
    })
}
