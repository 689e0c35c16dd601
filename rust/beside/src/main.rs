//! Compares the archive, the Rust of wasmi 2.0.0 and a plain reading of document 01.

mod args;
#[cfg(target_arch = "x86_64")]
mod bench;
mod case;
mod command;
mod drive;
mod example;
#[cfg(target_arch = "x86_64")]
mod leaves;
#[cfg(target_arch = "x86_64")]
mod mission;
mod party;
#[cfg(target_arch = "x86_64")]
mod peak;
mod plain;
#[cfg(test)]
mod programs;
mod reading;
mod rng;
mod shrink;
mod vectors;

use std::process::ExitCode;

const HELP: &str = "beside: the archive beside the Rust of wasmi 2.0.0 and a plain reading of document 01

  beside compare [--seed N] [--count N] [--exhaustive LENGTH]
      random traces from a seed, so many requests; all histories of small worlds up to a length; broken states
  beside again
      runs the case on standard input, as `compare` prints a failing one
  beside bench [--records N] [--rounds N]
      times ours beside the Rust and beside C by hand on traces of so many records, and in blocks beside the whole trace, medians of
      so many rounds; wants a release build
  beside bench --count N
      what `bench` has callgrind count: each party on traces of so many records, and no more
  beside leaves
      conversions, align, the done slot, registers by their bits, records, replays, traces in blocks, K1 to K10
  beside mission
      one run at document 01's largest sizes, within 512 MiB
  beside gate
      mission, leaves and a fixed share of compare; the last line says how much was compared
  beside vectors FOLDER
      writes the fixed vectors, text files in data with their names in args, and in stdout what the program that runs them prints: the
      same bytes every time

The status is 0 where all is well, 1 on a difference, 2 on a wrong argument.";

fn main() -> ExitCode {
    let args: Vec<String> = std::env::args().skip(1).collect();
    let (word, rest) = args.split_first().map_or(("help", &[][..]), |(word, rest)| (word.as_str(), rest));
    let verdict = match word {
        "compare" => command::compare::run(rest),
        "again" => command::again::run(rest),
        #[cfg(target_arch = "x86_64")]
        "bench" => bench::run(rest),
        #[cfg(target_arch = "x86_64")]
        "leaves" => leaves::run(rest),
        #[cfg(target_arch = "x86_64")]
        "mission" => mission::run(rest),
        #[cfg(target_arch = "x86_64")]
        "gate" => command::gate::run(rest),
        #[cfg(not(target_arch = "x86_64"))]
        "bench" | "leaves" | "mission" | "gate" => Err("the archive is for x86-64, and this build is for another processor".to_string()),
        "vectors" => vectors::run(rest),
        "help" => {
            println!("{HELP}");
            Ok(true)
        }
        _ => Err(format!("no such word: {word}; `beside help` lists them")),
    };
    match verdict {
        Ok(true) => ExitCode::SUCCESS,
        Ok(false) => ExitCode::FAILURE,
        Err(why) => {
            eprintln!("beside: {why}");
            ExitCode::from(2)
        }
    }
}
