//! `beside again`: runs the case on standard input, as a failing one is printed.

use super::Verdict;
use crate::case::{Case, parse};
use crate::party::Table;
use std::io::{Read, stdin};

pub fn run(args: &[String]) -> Verdict {
    if !args.is_empty() {
        return Err("the case comes on standard input".to_string());
    }
    let mut text = String::new();
    stdin().read_to_string(&mut text).map_err(|error| error.to_string())?;
    let case = parse(&text).ok_or("this is no case: `open` or `state`, `words` and `cells`, then steps")?;
    let outcome = shown(&case);
    match &outcome {
        Ok(()) => println!("no difference"),
        Err(why) => println!("{why}"),
    }
    Ok(outcome.is_ok())
}

/// Runs the case, a line for each answer.
fn shown(case: &Case) -> Result<(), String> {
    let Some(mut table) = Table::new(&case.start)? else {
        println!("all refuse the opening");
        return Ok(());
    };
    for (i, step) in case.steps.iter().enumerate() {
        println!("{i} {}", table.take(step)?);
    }
    Ok(())
}
