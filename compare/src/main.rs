//! oracle [FILE]: answers the cases of the file, or of standard input.

use compare::case;
use compare::tool::ended;
use std::fs::File;
use std::io::{self, BufRead, BufReader, BufWriter, Write};
use std::process::ExitCode;

const USAGE: &str = "usage: oracle [FILE]    (no file: cases from standard input; README.md has their format)";

fn main() -> ExitCode {
    ended("oracle", run())
}

fn run() -> Result<(), String> {
    let arguments: Vec<_> = std::env::args_os().skip(1).collect();
    let output = BufWriter::new(io::stdout().lock());
    match arguments.as_slice() {
        [] => answer_all(io::stdin().lock(), output),
        [path] => {
            let file = File::open(path).map_err(|e| format!("{}: {e}", path.to_string_lossy()))?;
            answer_all(BufReader::new(file), output)
        }
        _ => Err(USAGE.to_string()),
    }
}

/// Answers line by line. A line `end` closes the cases: without it the input is cut off.
fn answer_all(mut input: impl BufRead, mut output: impl Write) -> Result<(), String> {
    let mut line = Vec::new();
    for number in 1.. {
        line.clear();
        input.read_until(b'\n', &mut line).map_err(|e| format!("line {number}: {e}"))?;
        if line.is_empty() {
            return Err(format!("line {number}: the input is cut off: its last line must be `end`"));
        }
        let text = std::str::from_utf8(&line).map_err(|_| format!("line {number}: this is no text"))?.trim();
        if text == "end" {
            break;
        }
        if text.is_empty() || text.starts_with('#') {
            continue;
        }
        let answer = case::answer(text).map_err(|problem| format!("line {number}: {problem}"))?;
        writeln!(output, "{answer}").and_then(|()| output.flush()).map_err(|e| format!("standard output: {e}"))?;
    }
    Ok(())
}
