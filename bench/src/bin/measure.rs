//! The command behind `bench/run`: the agreement, each table, the plot, the input of the session list, and the calls to
//! be counted.

use std::path::Path;
use std::process::ExitCode;

use bench::{agreement, counting, inputs, plot, tables};

const COMMANDS: &str =
    "agreement | inputs | decode | encode | near | interleave | soft | plot | session | list | count";

fn number<T: std::str::FromStr>(text: &str) -> Result<T, String> {
    text.parse().map_err(|_| format!("not a number: {text}"))
}

fn write(file: &str, content: impl AsRef<[u8]>) -> Result<(), String> {
    std::fs::write(file, content).map_err(|error| format!("{file}: {error}"))
}

fn run(arguments: &[&str]) -> Result<(), String> {
    match arguments {
        ["agreement"] => println!("all agree on {} inputs", agreement::all()?),
        ["inputs"] => println!("{}", inputs::COUNT),
        ["decode"] => tables::decode(),
        ["encode"] => tables::encode(),
        ["near"] => tables::near(),
        ["interleave"] => tables::interleave(),
        ["soft"] => tables::soft(),
        ["plot", file] => write(file, plot::decode()?)?,
        ["session", file] => write(file, inputs::session())?,
        ["list", proved, rust, session, nothing] => {
            tables::list(Path::new(proved), Path::new(rust), Path::new(session), Path::new(nothing))?
        }
        ["count", call, q, m, passes] => counting::run(call, number(q)?, number(m)?, number(passes)?)?,
        _ => return Err(String::from(COMMANDS)),
    }
    Ok(())
}

fn main() -> ExitCode {
    let arguments: Vec<String> = std::env::args().skip(1).collect();
    let arguments: Vec<&str> = arguments.iter().map(String::as_str).collect();
    match run(&arguments) {
        Ok(()) => ExitCode::SUCCESS,
        Err(message) => {
            eprintln!("bench: {message}");
            ExitCode::FAILURE
        }
    }
}
