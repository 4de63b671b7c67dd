//! Finds the published Rust and hands it to the compiler: unchanged, and once more with curves that end on their stones (02, item 12).
//!
//! `mesh.rs` is compiled where it lies. `simons_qgp.rs` has private parts that the oracle must reach, and only a module inside it
//! can: so its text, followed by lines that declare the modules `reach` (src/reach.rs) and `reach_curves` (src/reach_curves.rs), goes
//! to OUT_DIR. The second text, `simons_qgp_stones.rs`, is the published one with two returns put into `at`, followed by `reach_curves`.

use std::path::{Path, PathBuf};
use std::{env, fs, process};

/// Names another place of the published files; relative paths start at this package.
const PLACE: &str = "PUBLISHED_RUST";
const DEFAULT_PLACE: &str = "../../shared/docs/src/src";

/// The line of `ArcCurve::at` behind which the two returns go.
const CLAMPED: &str = "let t = t.clamp(0.0, 1.0);";

/// 02, item 12: "the clamped parameter 0 now returns the first point and 1 the last, bit for bit". A curve without points, which `new`
/// refuses, goes on to `at`'s own error.
const RETURNS: &str = "
        if t == 0.0 {
            if let Some(&first) = self.points.first() {
                return Ok(first);
            }
        }
        if t == 1.0 {
            if let Some(&last) = self.points.last() {
                return Ok(last);
            }
        }";

fn main() {
    if let Err(problem) = prepare() {
        eprintln!("{problem}");
        process::exit(1);
    }
}

fn prepare() -> Result<(), String> {
    println!("cargo:rerun-if-env-changed={PLACE}");
    println!("cargo:rerun-if-changed=build.rs");
    let package = PathBuf::from(variable("CARGO_MANIFEST_DIR")?);
    let out = PathBuf::from(variable("OUT_DIR")?);
    let place = package.join(env::var(PLACE).unwrap_or_else(|_| DEFAULT_PLACE.to_string()));

    let mesh = published(&place, "mesh.rs")?;
    let solver = published(&place, "simons_qgp.rs")?;
    let text = fs::read_to_string(&solver).map_err(|e| format!("{}: {e}", solver.display()))?;
    let reach = module(&package.join("src/reach.rs"), "pub mod reach");
    let reach_curves = module(&package.join("src/reach_curves.rs"), "pub mod reach_curves");
    let unchanged = out.join("simons_qgp.rs");
    write(&unchanged, &format!("{text}\n{reach}{reach_curves}"))?;
    let stones = out.join("simons_qgp_stones.rs");
    let returning = with_returns(&text).map_err(|problem| format!("{}: {problem}", solver.display()))?;
    write(&stones, &format!("{returning}\n{reach_curves}"))?;
    let modules = module(&mesh, "mod mesh") + &module(&unchanged, "mod simons_qgp") + &module(&stones, "mod simons_qgp_stones");
    write(&out.join("published.rs"), &modules)
}

/// The published text with the two returns put into `at`.
fn with_returns(text: &str) -> Result<String, String> {
    match text.split(CLAMPED).collect::<Vec<_>>()[..] {
        [before, behind] => Ok([before, CLAMPED, RETURNS, behind].concat()),
        ref parts => {
            Err(format!("02's two returns go behind `{CLAMPED}`, which must stand there once, and stands {} times", parts.len() - 1))
        }
    }
}

fn variable(name: &str) -> Result<String, String> {
    env::var(name).map_err(|e| format!("{name}: {e}"))
}

fn published(place: &Path, name: &str) -> Result<PathBuf, String> {
    let path = place.join(name);
    println!("cargo:rerun-if-changed={}", path.display());
    path.canonicalize().map_err(|e| format!("{}: {e}\nput the published files there, or name their folder in {PLACE}", path.display()))
}

/// A module that is read from `path`. The published code has parts that nobody calls here, and `reach_curves` stands in both texts.
fn module(path: &Path, declaration: &str) -> String {
    format!("#[allow(dead_code, clippy::duplicate_mod)]\n#[path = {path:?}]\n{declaration};\n")
}

fn write(path: &Path, text: &str) -> Result<(), String> {
    fs::write(path, text).map_err(|e| format!("{}: {e}", path.display()))
}
