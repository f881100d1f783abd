//! Makes calls of one case on one side, for a counter of instructions to watch.

use bench::{Case, Rust, Side, cases};
use std::process::ExitCode;

const USAGE: &str = "\
usage: calls                   lists the cases
       calls CASE SIDE COUNT   makes at least COUNT calls on rust or rattle,
                               and prints how many they were";

fn main() -> ExitCode {
    let words: Vec<String> = std::env::args().skip(1).collect();
    match &words.iter().map(String::as_str).collect::<Vec<_>>()[..] {
        [] => {
            for case in cases::<Rust>() {
                println!("{}", case.id);
            }
            ExitCode::SUCCESS
        }
        [id, side, count] => match (chosen(id, side), count.parse()) {
            (Some(mut case), Ok(count)) => {
                println!("{}", (case.run)(count).calls);
                ExitCode::SUCCESS
            }
            _ => wrong_use(),
        },
        _ => wrong_use(),
    }
}

fn wrong_use() -> ExitCode {
    eprintln!("{USAGE}");
    ExitCode::from(2)
}

fn chosen(id: &str, side: &str) -> Option<Case> {
    let all = match side {
        Rust::NAME => cases::<Rust>(),
        #[cfg(feature = "product")]
        bench::Rattle::NAME => cases::<bench::Rattle>(),
        _ => return None,
    };
    all.into_iter().find(|case| case.id == id)
}
