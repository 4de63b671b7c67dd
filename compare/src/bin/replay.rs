//! replay FILES..: runs the vectors of the files through this library's exported functions; prints each that differs. A case on a turned
//! sheet is held against the case before it too. A file whose name ends in `.json` lists vectors that an item of 02 changed: these are
//! passed over, as are those that do not apply by their items. Exit status 0 only if none differs.

use compare::landed::{self, Changed, PassedOver};
use compare::together::line::Line;
use compare::together::{call, check_version, line, turned};
use compare::tool::ended;
use std::process::ExitCode;
use std::{env, fs};

fn main() -> ExitCode {
    ended("replay", run())
}

fn run() -> Result<(), String> {
    check_version()?;
    let (files, changed) = landed::files(env::args().skip(1))?;
    if files.is_empty() {
        return Err("usage: replay FILES..    (files in the format of the vectors; README.md says more)".to_string());
    }
    match files.iter().map(|path| replay(path, &changed)).sum::<Result<usize, String>>()? {
        0 => Ok(()),
        different => Err(format!("{different} differ")),
    }
}

/// The number of cases that differ.
fn replay(path: &str, changed: &Changed) -> Result<usize, String> {
    let bytes = fs::read(path).map_err(|e| format!("{path}: {e}"))?;
    let text = String::from_utf8(bytes).map_err(|_| format!("{path}: this is no text"))?;
    if !text.ends_with('\n') {
        return Err(format!("{path}: cut off: the last line has no end"));
    }
    let (mut same, mut inner, mut different, mut of_turned) = (0, 0, 0, 0);
    let mut passed_over = PassedOver::default();
    let mut before = None;
    for (number, text) in (1..).zip(text.lines()) {
        let told = |problem| format!("{path}, line {number}: {problem}");
        if !changed.holds(text, &mut passed_over).map_err(told)? {
            before = None;
            continue;
        }
        let line = line::read(text).map_err(told)?;
        of_turned += usize::from(is_turned(before.as_ref(), &line).map_err(told)?);
        match &line.case {
            None => inner += 1,
            Some((call, expected)) => match call::difference(expected, &call.made()) {
                None => same += 1,
                Some(what) => {
                    println!("{path}, line {number}, {} ({}): {what}", line.id, line.function);
                    different += 1;
                }
            },
        }
        before = Some(line);
    }
    let turned = if of_turned == 0 { String::new() } else { format!("; {of_turned} are the case before on a turned sheet") };
    println!("{path}: {same} as expected, {different} different, {inner} of inner functions, which are not exported{turned}{passed_over}");
    Ok(different)
}

/// Whether a line is on a turned sheet. If it says so it must be: the case before with pairs of sides exchanged, and so answered.
fn is_turned(before: Option<&Line>, line: &Line) -> Result<bool, String> {
    if !line.rule.contains(turned::RULE) {
        return Ok(false);
    }
    let told = |problem: &str| format!("{}: {problem}", turned::RULE);
    match (before.and_then(|before| before.case.as_ref()), &line.case) {
        (Some(before), Some(case)) => match turned::held(before, case).map_err(|problem| told(&problem))? {
            0 => Err(told("no sides are exchanged")),
            _ => Ok(true),
        },
        _ => Err(told("there is no case before it")),
    }
}
