//! The session list as two programs, each run as a child process.

use std::fs::File;
use std::path::Path;
use std::process::{Command, Stdio};
use std::time::Instant;

/// A run with its standard input from the file.
fn command(program: &Path, input: &Path) -> Result<Command, String> {
    let file = File::open(input).map_err(|error| format!("{}: {error}", input.display()))?;
    let mut command = Command::new(program);
    command.stdin(file);
    Ok(command)
}

fn failed(program: &Path, reason: impl std::fmt::Display) -> String {
    format!("{}: {reason}", program.display())
}

/// All that a program prints for an input.
pub fn output(program: &Path, input: &Path) -> Result<Vec<u8>, String> {
    let output = command(program, input)?.output().map_err(|error| failed(program, error))?;
    if !output.status.success() {
        return Err(failed(program, output.status));
    }
    Ok(output.stdout)
}

/// The time of one run in nanoseconds, with the process's start and end; what it prints is dropped.
fn time(program: &Path, input: &Path) -> Result<f64, String> {
    let mut command = command(program, input)?;
    command.stdout(Stdio::null());
    let start = Instant::now();
    command.status().map_err(|error| failed(program, error))?;
    Ok(start.elapsed().as_nanos() as f64)
}

/// The best time of each program, in nanoseconds, over so many rounds of one run each.
pub fn best<const C: usize>(rounds: usize, programs: [&Path; C], input: &Path) -> Result<[f64; C], String> {
    let mut best = [f64::MAX; C];
    for _ in 0..rounds {
        for (best, program) in best.iter_mut().zip(programs) {
            *best = best.min(time(program, input)?);
        }
    }
    Ok(best)
}
