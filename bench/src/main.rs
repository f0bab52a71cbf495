//! Compares and measures the proved libraries against plain Rust.

mod compare;
mod generate;
mod handmade;
#[cfg(test)]
mod naive;
mod plain;
mod proved;
mod random;
mod speed;
#[cfg(test)]
mod tests;
mod vectors;

use std::path::Path;
use std::process::ExitCode;

const USAGE: &str = "usage: bench vectors DIR [MOVED ..]
       bench compare [CASES] [SEED]
       bench show SEED
       bench handmade [CASES SEED]
       bench speed [read|close|refuse|step|short|explore]
       bench once proved|plain read|close|refuse|step|short|explore";

fn main() -> ExitCode {
    let words: Vec<String> = std::env::args().skip(1).collect();
    match command(&words) {
        Ok(true) => ExitCode::SUCCESS,
        Ok(false) => ExitCode::FAILURE,
        Err(message) => {
            eprintln!("{message}");
            ExitCode::from(2)
        }
    }
}

/// Does what the words say; whether all is as it should be.
fn command(words: &[String]) -> Result<bool, String> {
    let words: Vec<&str> = words.iter().map(String::as_str).collect();
    match words[..] {
        ["vectors", dir, ref lists @ ..] => vectors::compare(Path::new(dir), lists),
        ["compare"] => Ok(compare::compare(1_000_000, 1)),
        ["compare", cases] => Ok(compare::compare(number(cases)?, 1)),
        ["compare", cases, seed] => Ok(compare::compare(number(cases)?, number(seed)?)),
        ["handmade"] => Ok(handmade::handmade(100_000, 1)),
        ["handmade", cases, seed] => Ok(handmade::handmade(number(cases)?, number(seed)?)),
        ["show", seed] => {
            compare::show(number(seed)?);
            Ok(true)
        }
        ["once", side @ ("proved" | "plain"), what @ ("read" | "close" | "refuse" | "step" | "short" | "explore")] =>
        {
            speed::once(side == "proved", what);
            Ok(true)
        }
        ["speed"] => {
            speed::speed("");
            Ok(true)
        }
        ["speed", what @ ("read" | "close" | "refuse" | "step" | "short" | "explore")] => {
            speed::speed(what);
            Ok(true)
        }
        _ => Err(USAGE.to_string()),
    }
}

fn number(word: &str) -> Result<u64, String> {
    let refused = |_| format!("'{word}' is not a number\n{USAGE}");
    word.parse().map_err(refused)
}
