//! A plain program beside `mds_city`, without contracts and proofs, to measure the two side by side. Its answers are the same.
//!
//!     peer replay FILE
//!     peer serve --port N --each N [--workers N] [--journal FILE]
//!     peer table
//!     peer vehicles FILE

mod batch;
mod fleet;
mod http;
mod item;
mod journal;
mod replay;
mod serve;
mod table;
mod uuid;
mod vehicles;

use std::process::ExitCode;

const USAGE: &str = "peer replay FILE
peer serve --port N --each N [--workers N] [--journal FILE]
peer table
peer vehicles FILE";

/// The word behind an option of the command line.
fn word<'a>(words: &[&'a str], option: &str) -> Option<&'a str> {
    let at = words.iter().position(|word| *word == option)?;
    words.get(at + 1).copied()
}

fn number(words: &[&str], option: &str) -> Option<usize> {
    word(words, option)?.parse().ok()
}

fn serve(options: &[&str]) -> Option<Result<ExitCode, String>> {
    let port = u16::try_from(number(options, "--port")?).ok()?;
    let each = number(options, "--each")?;
    let workers = number(options, "--workers").unwrap_or(4);
    Some(serve::serve(port, each, workers, word(options, "--journal")))
}

fn main() -> ExitCode {
    let words: Vec<String> = std::env::args().skip(1).collect();
    let words: Vec<&str> = words.iter().map(String::as_str).collect();
    let ended = match words[..] {
        ["replay", path] => Some(replay::replay(path)),
        ["serve", ref options @ ..] => serve(options),
        ["vehicles", path] => Some(vehicles::vehicles(path)),
        ["table"] => {
            print!("{}", table::Table::profile().lines());
            Some(Ok(ExitCode::SUCCESS))
        }
        _ => None,
    };
    match ended {
        Some(Ok(status)) => status,
        Some(Err(fault)) => {
            eprintln!("peer: {fault}");
            ExitCode::from(3)
        }
        None => {
            eprintln!("{USAGE}");
            ExitCode::from(2)
        }
    }
}
