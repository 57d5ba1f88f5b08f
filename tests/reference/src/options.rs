//! The command line options of the programs, `--long`, `--seed N` and `--count N`, and how a comparison ends.

use std::env;
use std::process::exit;

pub struct Options {
    pub count: usize,
    pub seed: u64,
}

impl Options {
    pub fn read(count: usize, long_count: usize) -> Options {
        let mut options = Options { count, seed: 1 };
        let mut arguments = env::args().skip(1);
        while let Some(argument) = arguments.next() {
            match argument.as_str() {
                "--long" => options.count = long_count,
                "--seed" => options.seed = number(arguments.next()),
                "--count" => options.count = number(arguments.next()) as usize,
                _ => usage(),
            }
        }
        options
    }
}

fn number(argument: Option<String>) -> u64 {
    argument.and_then(|text| text.parse().ok()).unwrap_or_else(|| usage())
}

fn usage() -> ! {
    eprintln!("options: --long, --seed NUMBER, --count NUMBER");
    exit(2)
}

/// Ends a comparison. It fails if a required number never occurred, or if all of these variables are set and no library is linked.
pub fn conclude(all_met: bool, compared: bool, named_by: &[&str]) {
    if !all_met {
        println!("a number was never met");
        exit(1);
    }
    if !compared && named_by.iter().all(|variable| env::var(variable).is_ok()) {
        println!("a library is named, but not linked");
        exit(1);
    }
    println!("{}", if compared { "no difference" } else { "nothing compared" });
}
