//! The vectors, one JSON object a line, as stored cases.

use crate::former;
use crate::geometry::Seams;
use crate::grids::{zeroes, Boundary, Grid, Root, Source, Tile, Written};
use crate::json::{parse, Json};
use crate::lay::Region;
use crate::limits;
use crate::refusal::Refusal;
use crate::stored::{Case, Energy, Hold, Made, Round, Rounds, Solve, Spacing, Step};
use crate::words;

/// Inner functions, which are not exported.
pub const INNER: [&str; 3] = ["edge_delta", "at", "logical_intersection"];

/// The case of a line; none if its operation is an inner one.
pub fn case(line: &str) -> Result<Option<Case>, String> {
    let vector = parse(line)?;
    let given = vector.field("in")?;
    let out = vector.field("out")?;
    let function = vector.field("fn")?.text()?;
    if INNER.contains(&function) {
        return Ok(None);
    }
    Ok(Some(match function {
        "solve" | "solve_limit" | "solve_range" => Case::Solve(solve(function, given, out)?),
        "round" | "round_range" => {
            Case::Round(Round { records: records(given, "regions")?, before: numbers(given)?, step: step(given, out)? })
        }
        "rounds" => Case::Rounds(rounds(given, out)?),
        "energy" => Case::Energy(energy(given, out)?),
        "constraints_hold" => Case::Hold(hold(given, out)?),
        "root" => Case::Root(root(given, out)?),
        "coons_from_parameters" => Case::Grid(grid(Source::Parameters(four(given, "curves")?, seams(given)?), given, out)?),
        "coons_curves" => Case::Grid(grid(even(Boundary::Curves(four(given, "curves")?), given)?, given, out)?),
        "coons_checked" => Case::Grid(grid(even(Boundary::Loop(named(given, "loop")?), given)?, given, out)?),
        "lay" => Case::Grid(grid(Source::Lay(region(given)?), given, out)?),
        "mesh_tile_curves" => Case::Tile(tile(Boundary::Curves(four(given, "curves")?), given, out)?),
        "mesh_tile" => Case::Tile(tile(Boundary::Loop(named(given, "loop")?), given, out)?),
        other => return Err(format!("`{other}` is no function")),
    }))
}

fn solve(function: &str, given: &Json, out: &Json) -> Result<Solve, String> {
    Ok(Solve {
        records: records(given, "regions")?,
        spacing: spacing(given)?,
        before: numbers(given)?,
        limit: limit_of_solve(function, given)?,
        answer: answer(out, |out| whole(out.field("moves")?))?,
        after: numbers(out)?,
    })
}

fn rounds(given: &Json, out: &Json) -> Result<Rounds, String> {
    let (calls, answers) = (given.field("steps")?.list()?, out.field("steps")?.list()?);
    if calls.len() != answers.len() {
        return Err(format!("{} rounds with {} answers", calls.len(), answers.len()));
    }
    let steps = calls.iter().zip(answers).map(|(call, answer)| step(call, answer)).collect::<Result<_, _>>()?;
    Ok(Rounds { records: records(given, "regions")?, before: numbers(given)?, steps })
}

fn step(given: &Json, out: &Json) -> Result<Step, String> {
    let made = |out: &Json| {
        let cost = match out.field("cost")? {
            Json::Null => None,
            digits => Some(float(digits)?),
        };
        Ok(Made { cost, cut: flag(out.field("cut")?)? })
    };
    Ok(Step { spacing: spacing(given)?, limit: limit(given)?, answer: answer(out, made)?, after: numbers(out)? })
}

fn energy(given: &Json, out: &Json) -> Result<Energy, String> {
    Ok(Energy { counts: numbers(given)?, ideals: floats(given)?, answer: answer(out, |out| float(out.field("energy")?))? })
}

fn hold(given: &Json, out: &Json) -> Result<Hold, String> {
    Ok(Hold { records: records(given, "regions")?, counts: numbers(given)?, answer: answer(out, |out| flag(out.field("hold")?))? })
}

fn root(given: &Json, out: &Json) -> Result<Root, String> {
    Ok(Root { x: float(given.field("x")?)?, answer: answer(out, |out| float(out.field("root")?))? })
}

fn even(boundary: Boundary, given: &Json) -> Result<Source, String> {
    Ok(Source::Even(boundary, whole(given.field("n_u")?)?, whole(given.field("n_v")?)?))
}

fn seams(given: &Json) -> Result<Seams, String> {
    let seam = |name| named(given, name);
    Ok(Seams { bottom: seam("bottom")?, top: seam("top")?, left: seam("left")?, right: seam("right")? })
}

fn region(given: &Json) -> Result<Region, String> {
    Ok(Region {
        record: records(given, "record")?,
        counts: numbers(given)?,
        breaks: four(given, "breaks")?,
        curves: four(given, "curves")?,
    })
}

fn grid(source: Source, given: &Json, out: &Json) -> Result<Grid, String> {
    let answer = answer(out, |out| whole(out.field("quads")?))?;
    let written = match &answer {
        Ok(_) => named(out, "out")?,
        Err(refusal) if zeroes(refusal) => vec![0.0; length(out.field("needed")?)?],
        Err(_) => Vec::new(),
    };
    Ok(Grid { source, lent: length(given.field("out_len")?)?, answer, written })
}

fn tile(boundary: Boundary, given: &Json, out: &Json) -> Result<Tile, String> {
    let answer = answer(out, |out| whole(out.field("quads")?))?;
    let written = match &answer {
        Ok(_) => Written { points: named(out, "points")?, cells: list(out.field("cells")?, whole)? },
        Err(refusal) if zeroes(refusal) => match out.field("needed")?.list()? {
            [points, cells] => Written { points: vec![0.0; length(points)?], cells: vec![0; length(cells)?] },
            needed => return Err(format!("a mesh has two outputs, and not {}", needed.len())),
        },
        Err(_) => Written::default(),
    };
    let (lent_points, lent_cells) = (length(given.field("points_len")?)?, length(given.field("cells_len")?)?);
    let (n_u, n_v) = (whole(given.field("n_u")?)?, whole(given.field("n_v")?)?);
    Ok(Tile { boundary, n_u, n_v, lent_points, lent_cells, answer, written })
}

/// The refusal, or what `accepted` reads.
fn answer<T>(out: &Json, accepted: impl Fn(&Json) -> Result<T, String>) -> Result<Result<T, Refusal>, String> {
    let number = whole(out.field("refusal")?)?;
    if number == 0 {
        return accepted(out).map(Ok);
    }
    match out.field("places")?.list()? {
        [first, second] => Ok(Err(Refusal { number, first: whole(first)?, second: whole(second)? })),
        places => Err(format!("a refusal with {} places", places.len())),
    }
}

pub fn whole(value: &Json) -> Result<u32, String> {
    let number = value.number()?;
    u32::try_from(number).map_err(|_| format!("{number} is not from 0 to {}", u32::MAX))
}

/// The limit of a call; null where it states none.
pub fn limit(given: &Json) -> Result<Option<u32>, String> {
    match given.field("limit")? {
        Json::Null => Ok(None),
        limit => whole(limit).map(Some),
    }
}

/// The limit of a solve. 01's vectors have none: they were made when a solve had the Rust's limit, which such a caller now states.
pub fn limit_of_solve(function: &str, given: &Json) -> Result<Option<u32>, String> {
    match function {
        "solve" => Ok(Some(limits::SEARCH)),
        _ => limit(given),
    }
}

pub fn flag(value: &Json) -> Result<bool, String> {
    match value.number()? {
        0 => Ok(false),
        1 => Ok(true),
        number => Err(format!("{number} is neither 0 nor 1")),
    }
}

pub fn float(value: &Json) -> Result<f64, String> {
    let digits = value.text()?;
    words::bits(digits).ok_or_else(|| format!("`{digits}` is not the 16 hexadecimal digits of an f64"))
}

fn list<T>(values: &Json, read: impl Fn(&Json) -> Result<T, String>) -> Result<Vec<T>, String> {
    values.list()?.iter().map(read).collect()
}

fn list_of_places(values: &Json) -> Result<Vec<u16>, String> {
    list(values, |value| {
        let number = value.number()?;
        u16::try_from(number).map_err(|_| format!("place {number} is over 16 bits"))
    })
}

/// Region records. A vector may say how many places a side has in them: those of before (02, item 9) are repacked.
pub fn records(given: &Json, name: &str) -> Result<Vec<u16>, String> {
    let list = list_of_places(given.field(name)?)?;
    let Ok(places) = given.field("places") else {
        return Ok(list);
    };
    match usize::try_from(places.number()?) {
        Ok(limits::SIDE_EDGES) => Ok(list),
        Ok(places) if places == former::PLACES.into() => Ok(former::repacked(&list)),
        _ => Err(format!("`places`: in this vector a side has {}, and here it has {}", places.number()?, limits::SIDE_EDGES)),
    }
}

fn numbers(given: &Json) -> Result<Vec<u32>, String> {
    list(given.field("counts")?, whole)
}

fn floats(given: &Json) -> Result<Vec<f64>, String> {
    named(given, "ideals")
}

/// Ideals, or least and most where a call has a least.
pub fn spacing(given: &Json) -> Result<Spacing, String> {
    match given.field("least") {
        Ok(_) => Ok(Spacing::Within { least: named(given, "least")?, most: named(given, "most")? }),
        Err(_) => floats(given).map(Spacing::Ideals),
    }
}

/// The f64 list of that name.
fn named(given: &Json, name: &str) -> Result<Vec<f64>, String> {
    list(given.field(name)?, float)
}

/// The four f64 lists of that name, by side number.
fn four(given: &Json, name: &str) -> Result<[Vec<f64>; 4], String> {
    let lists = list(given.field(name)?, |values| list(values, float))?;
    lists.try_into().map_err(|lists: Vec<_>| format!("`{name}` has {} lists, and not four", lists.len()))
}

fn length(value: &Json) -> Result<usize, String> {
    Ok(whole(value)? as usize)
}
