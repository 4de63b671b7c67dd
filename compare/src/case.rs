//! Cases and answers as text: one case a line, one answer a line (README.md has the format).

use crate::geometry::{self, Flat, Grid, Seams, Tile};
use crate::ranges::{self, Ends};
use crate::refusal::Stop;
use crate::solver::{self, Round};
use crate::words::{hex, Words};

/// The answer to the case of one line.
pub fn answer(line: &str) -> Result<String, String> {
    let mut words = Words::new(line);
    match words.word("an operation")? {
        "delta" => delta(words),
        "round" => round(words),
        "rounds" => rounds(words),
        "solve" => solve(words),
        "round_within" => round_within(words),
        "solve_within" => solve_within(words),
        "energy" => energy(words),
        "hold" => hold(words),
        "root" => root(words),
        "at" => at(words),
        "intersection" => intersection(words),
        "coons_from_parameters" => coons_from_parameters(words),
        "coons_curves" => on_curves(words, |curves, n_u, n_v| told(geometry::coons_curves(curves, n_u, n_v), grid)),
        "mesh_tile_curves" => on_curves(words, |curves, n_u, n_v| told(geometry::mesh_tile_curves(curves, n_u, n_v), tile)),
        "coons_checked" => on_loop(words, |points, n_u, n_v| told(geometry::coons_checked(points, n_u, n_v), grid)),
        "mesh_tile" => on_loop(words, |points, n_u, n_v| told(geometry::mesh_tile(points, n_u, n_v), tile)),
        other => Err(format!("`{other}` is no operation")),
    }
}

/// The line for an answer: `ok` and what `show` says, or the refusal.
fn told<T>(answer: Result<T, Stop>, show: impl Fn(T) -> String) -> Result<String, String> {
    match answer {
        Ok(value) => Ok(format!("ok {}", show(value))),
        Err(Stop::Broken(why)) => Err(why),
        Err(stop) => Ok(stop.to_string()),
    }
}

fn list<T>(values: &[T], show: impl Fn(&T) -> String) -> String {
    let mut text = values.len().to_string();
    for value in values {
        text.push(' ');
        text += &show(value);
    }
    text
}

fn numbers(values: &[u32]) -> String {
    list(values, u32::to_string)
}

fn floats(values: &[f64]) -> String {
    list(values, |&x| hex(x))
}

fn delta(mut words: Words) -> Result<String, String> {
    let count = words.number("a count")?;
    let ideal = words.float("an ideal")?;
    let sign = words.sign()?;
    words.end()?;
    Ok(format!("ok {}", hex(solver::delta(count, ideal, sign))))
}

fn round(mut words: Words) -> Result<String, String> {
    let records = words.places("places of records")?;
    let ideals = words.floats("ideals")?;
    let counts = words.numbers("counts")?;
    let limit = words.limit()?;
    words.end()?;
    told(solver::round(&records, &ideals, &counts, limit), |r| format!("{} {}", round_told(&r), numbers(&r.counts)))
}

/// Cost, cut mark, expansions, kept reading.
fn round_told(round: &Round) -> String {
    let (cost, reading) = match &round.made {
        None => ("none".to_string(), "-".to_string()),
        Some((cost, changes)) => {
            let steps: Vec<String> = changes.iter().map(|(edge, sign)| format!("{edge}:{sign:+}")).collect();
            (hex(*cost), steps.join(","))
        }
    };
    format!("{cost} {} {} {reading}", u8::from(round.cut), round.expansions)
}

fn rounds(mut words: Words) -> Result<String, String> {
    let records = words.places("places of records")?;
    let counts = words.numbers("counts")?;
    let mut steps = Vec::new();
    for _ in 0..words.number("the number of rounds")? {
        let ideals = words.floats("ideals")?;
        steps.push((ideals, words.limit()?));
    }
    words.end()?;
    let mut text = format!("ok {}", steps.len());
    for step in solver::rounds(&records, &counts, &steps) {
        text.push(' ');
        text += &told(step.answer, |r| round_told(&r))?;
        text.push(' ');
        text += &numbers(&step.counts);
    }
    Ok(text)
}

fn solve(mut words: Words) -> Result<String, String> {
    let records = words.places("places of records")?;
    let ideals = words.floats("ideals")?;
    let limit = words.limit()?;
    words.end()?;
    told(solver::solve(&records, &ideals, limit), |solved| format!("{} {}", solved.moves, numbers(&solved.counts)))
}

/// By the model: cost, cut mark, entries, counts after.
fn round_within(mut words: Words) -> Result<String, String> {
    let records = words.places("places of records")?;
    let (least, most) = (words.floats("leasts")?, words.floats("mosts")?);
    let mut counts = words.numbers("counts")?;
    let limit = words.limit()?;
    words.end()?;
    let answer = ranges::round(&records, Ends { least: &least, most: &most }, &mut counts, limit);
    told(answer.map_err(Stop::Refused), |round| {
        let cost = round.cost.map_or("none".to_string(), hex);
        format!("{cost} {} {} {}", u8::from(round.cut), round.entries, numbers(&counts))
    })
}

/// By the model, on counts for each least.
fn solve_within(mut words: Words) -> Result<String, String> {
    let records = words.places("places of records")?;
    let (least, most) = (words.floats("leasts")?, words.floats("mosts")?);
    let limit = words.limit()?;
    words.end()?;
    let mut counts = vec![0; least.len()];
    let answer = ranges::solve(&records, Ends { least: &least, most: &most }, &mut counts, limit);
    told(answer.map_err(Stop::Refused), |moves| format!("{moves} {}", numbers(&counts)))
}

fn energy(mut words: Words) -> Result<String, String> {
    let counts = words.numbers("counts")?;
    let ideals = words.floats("ideals")?;
    words.end()?;
    told(solver::energy(&counts, &ideals), hex)
}

fn hold(mut words: Words) -> Result<String, String> {
    let records = words.places("places of records")?;
    let counts = words.numbers("counts")?;
    words.end()?;
    told(solver::hold(&records, &counts), |holds| u8::from(holds).to_string())
}

fn root(mut words: Words) -> Result<String, String> {
    let x = words.float("a number")?;
    words.end()?;
    told(geometry::root(x), hex)
}

fn at(mut words: Words) -> Result<String, String> {
    let curve = words.floats("coordinates of a curve")?;
    let parameter = words.float("a parameter")?;
    words.end()?;
    if !parameter.is_finite() {
        return Err("the parameter of a curve must be finite".to_string());
    }
    told(geometry::at(&curve, parameter), |p| format!("{} {}", hex(p[0]), hex(p[1])))
}

fn intersection(mut words: Words) -> Result<String, String> {
    let mut end = || words.float("an end of a line");
    let (a, b, c, d) = (end()?, end()?, end()?, end()?);
    words.end()?;
    told(geometry::intersection(a, b, c, d), |(u, v)| format!("{} {}", hex(u), hex(v)))
}

fn four_curves(words: &mut Words) -> Result<[Flat; 4], String> {
    let mut curve = |what| words.floats(what);
    Ok([
        curve("coordinates of the bottom curve")?,
        curve("coordinates of the right curve")?,
        curve("coordinates of the top curve")?,
        curve("coordinates of the left curve")?,
    ])
}

fn coons_from_parameters(mut words: Words) -> Result<String, String> {
    let curves = four_curves(&mut words)?;
    let seams = Seams {
        bottom: words.floats("values of the bottom seam")?,
        top: words.floats("values of the top seam")?,
        left: words.floats("values of the left seam")?,
        right: words.floats("values of the right seam")?,
    };
    words.end()?;
    told(geometry::coons_from_parameters(&curves, &seams), grid)
}

fn on_curves(mut words: Words, run: impl Fn(&[Flat; 4], u32, u32) -> Result<String, String>) -> Result<String, String> {
    let curves = four_curves(&mut words)?;
    let (n_u, n_v) = cells(&mut words)?;
    run(&curves, n_u, n_v)
}

fn on_loop(mut words: Words, run: impl Fn(&Flat, u32, u32) -> Result<String, String>) -> Result<String, String> {
    let points = words.floats("coordinates of the loop")?;
    let (n_u, n_v) = cells(&mut words)?;
    run(&points, n_u, n_v)
}

fn cells(words: &mut Words) -> Result<(u32, u32), String> {
    let n_u = words.number("n_u")?;
    let n_v = words.number("n_v")?;
    words.end()?;
    Ok((n_u, n_v))
}

fn grid(grid: Grid) -> String {
    format!("{} {}", grid.quads, floats(&grid.values))
}

fn tile(tile: Tile) -> String {
    format!("{} {} {}", tile.quads, floats(&tile.points), list(&tile.cells, usize::to_string))
}
