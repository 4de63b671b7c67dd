//! How a tool ends.

use std::process::ExitCode;

/// The exit status of a tool; its problem is told.
pub fn ended(tool: &str, run: Result<(), String>) -> ExitCode {
    match run {
        Ok(()) => ExitCode::SUCCESS,
        Err(problem) => {
            eprintln!("{tool}: {problem}");
            ExitCode::FAILURE
        }
    }
}
