//! beside OLD.so NEW.so [grids | FARMS]: two builds of this library, loaded as shared objects, side by side on the farms of the speed list,
//! as tables of ratios. `grids`: the grids, meshes and roots of the speed list in place of the farms.

use compare::together::beside::{tables, Build};
use compare::together::{beside_grids, farms, speed};
use compare::tool::ended;
use std::env;
use std::process::ExitCode;

fn main() -> ExitCode {
    ended("beside", run())
}

fn run() -> Result<(), String> {
    let words: Vec<String> = env::args().skip(1).collect();
    let words: Vec<&str> = words.iter().map(String::as_str).collect();
    let (old, new, path) = match words[..] {
        [old, new] => (old, new, farms::FILE),
        [old, new, "grids"] => return grids(old, new),
        [old, new, path] => (old, new, path),
        _ => return Err("usage: beside OLD.so NEW.so [grids | FARMS]".to_string()),
    };
    // SAFETY: whoever starts this tool names two builds of this library.
    let (old, new) = unsafe { (Build::load(old)?, Build::load(new)?) };
    tables(&old, &new, &speed::list(path)?)
}

fn grids(old: &str, new: &str) -> Result<(), String> {
    // SAFETY: as above.
    let (old, new) = unsafe { (beside_grids::Grids::load(old)?, beside_grids::Grids::load(new)?) };
    beside_grids::tables(&old, &new)
}
