//! roots SEED COUNT: roots by this library beside the machine's own, bit by bit. Exit status 0 only if none differs.

use compare::together::{check_version, library, roots};
use compare::tool::ended;
use std::env;
use std::process::ExitCode;

fn main() -> ExitCode {
    ended("roots", run())
}

fn run() -> Result<(), String> {
    check_version()?;
    let words: Vec<String> = env::args().skip(1).collect();
    let [seed, count] = &words[..] else {
        return Err("usage: roots SEED COUNT".to_string());
    };
    let number = |word: &String| word.parse().map_err(|_| format!("`{word}` is no whole number from 0 to {}", u64::MAX));
    let root = |x| {
        let mut root = [f64::NAN];
        (library::root(x, &mut root), root[0])
    };
    match roots::table(number(seed)?, number(count)?, root) {
        0 => Ok(()),
        different => Err(format!("{different} roots differ")),
    }
}
