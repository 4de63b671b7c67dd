//! growth FOLDER: times solves and grids of growing size through the Rust and through this library, and writes three plots to the folder:
//! growth-edges.svg, growth-moves.svg, growth-cells.svg.

use compare::together::plot::Plot;
use compare::together::{check_version, growth};
use compare::tool::ended;
use std::path::Path;
use std::process::ExitCode;
use std::{env, fs};

fn main() -> ExitCode {
    ended("growth", run())
}

fn run() -> Result<(), String> {
    check_version()?;
    let words: Vec<String> = env::args().skip(1).collect();
    let [folder] = &words[..] else {
        return Err("usage: growth FOLDER".to_string());
    };
    if !Path::new(folder).is_dir() {
        return Err(format!("{folder}: this is no folder"));
    }
    type Maker = fn() -> Result<Plot, String>;
    let plots: [(&str, Maker); 3] = [("edges", growth::edges), ("moves", growth::moves), ("cells", growth::cells)];
    for (name, plot) in plots {
        let path = Path::new(folder).join(format!("growth-{name}.svg"));
        fs::write(&path, plot()?.svg()).map_err(|e| format!("{}: {e}", path.display()))?;
    }
    Ok(())
}
