//! The whole program in plain Rust on the benchmark's input: standard input
//! in, standard output out, in blocks. It fails on a line that is refused.
//! `./build reference` builds it.

mod parallel;
mod types;

use std::fs::File;
use std::io::{BufRead, BufReader, Result, Write};
use std::os::fd::AsFd;

const BLOCK: usize = 1 << 16;

fn main() -> Result<()> {
    let stdin = File::from(std::io::stdin().as_fd().try_clone_to_owned()?);
    let mut stdout = File::from(std::io::stdout().as_fd().try_clone_to_owned()?);
    let mut input = BufReader::with_capacity(BLOCK, stdin);
    let mut output = Vec::with_capacity(2 * BLOCK);
    let mut line = Vec::new();
    input.read_until(b'\n', &mut line)?;
    let first = line.strip_suffix(b"\n").unwrap_or(&line);
    let mut run = parallel::Run::new(first, &mut output).expect("an accepted formula");
    line.clear();
    while input.read_until(b'\n', &mut line)? > 0 {
        let trace = line.strip_suffix(b"\n").unwrap_or(&line);
        run.trace_line(trace, &mut output)
            .expect("an accepted trace");
        line.clear();
        if output.len() >= BLOCK {
            stdout.write_all(&output)?;
            output.clear();
        }
    }
    stdout.write_all(&output)
}
