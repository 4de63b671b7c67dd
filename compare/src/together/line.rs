//! A call and its effect as a line of the vectors' format (the README of the vectors of 01 has it), read and written.

use super::call::{Call, Effect, Sides, Spacing, Step, LENT_FLOAT, LENT_NUMBER};
use crate::json::{parse, Json};
use crate::vector::{flag, float, limit, limit_of_solve, records, spacing, whole, INNER};

/// A line: its name, the rule that it is meant to hit if it says one, and the call with its effects; none of an inner function, which is
/// not exported.
pub struct Line {
    pub id: String,
    pub function: String,
    pub rule: String,
    pub case: Option<(Call, Vec<Effect>)>,
}

/// Longer output would exhaust the memory before the call is made.
const LONGEST: u32 = 50_000_000;

pub fn read(text: &str) -> Result<Line, String> {
    let line = parse(text)?;
    let function = line.field("fn")?.text()?.to_string();
    let id = match line.field("id")? {
        Json::Text(id) => id.clone(),
        other => other.number()?.to_string(),
    };
    let rule = line.field("rule").map_or(Ok(""), Json::text)?.to_string();
    let (given, out) = (line.field("in")?, line.field("out")?);
    let inner = INNER.contains(&function.as_str());
    let case = if inner { None } else { Some(case(&function, given, out)?) };
    Ok(Line { id, function, rule, case })
}

fn case(function: &str, given: &Json, out: &Json) -> Result<(Call, Vec<Effect>), String> {
    let one = |call: Call, effect: Effect| Ok((call, vec![effect]));
    match function {
        "solve" | "solve_limit" | "solve_range" => {
            let (regions, counts) = (records(given, "regions")?, numbers(given, "counts")?);
            let call = Call::Solve { regions, spacing: spacing(given)?, counts, limit: limit_of_solve(function, given)? };
            one(call, Effect { numbers: numbers(out, "counts")?, ..answer(out, "moves")? })
        }
        "round" | "round_range" => {
            let call = Call::Round { regions: records(given, "regions")?, counts: numbers(given, "counts")?, step: step(given)? };
            one(call, round(out)?)
        }
        "rounds" => {
            let steps = given.field("steps")?.list()?.iter().map(step).collect::<Result<_, _>>()?;
            let effects = out.field("steps")?.list()?.iter().map(round).collect::<Result<_, _>>()?;
            Ok((Call::Rounds { regions: records(given, "regions")?, counts: numbers(given, "counts")?, steps }, effects))
        }
        "energy" => one(Call::Energy { counts: numbers(given, "counts")?, ideals: floats(given, "ideals")? }, valued(out, "energy")?),
        "constraints_hold" => {
            one(Call::Hold { regions: records(given, "regions")?, counts: numbers(given, "counts")? }, answer(out, "hold")?)
        }
        "root" => one(Call::Root { x: float(given.field("x")?)? }, valued(out, "root")?),
        "coons_from_parameters" => {
            let seam = |side| floats(given, side);
            let seams = [seam("bottom")?, seam("right")?, seam("top")?, seam("left")?];
            let lent = length(given, "out_len")?;
            one(Call::FromParameters { curves: sides(given, "curves")?, seams, out: lent }, grid(out, lent)?)
        }
        "coons_curves" => {
            let lent = length(given, "out_len")?;
            one(Call::Curves { curves: sides(given, "curves")?, cells: cells(given)?, out: lent }, grid(out, lent)?)
        }
        "coons_checked" => {
            let lent = length(given, "out_len")?;
            one(Call::Checked { boundary: floats(given, "loop")?, cells: cells(given)?, out: lent }, grid(out, lent)?)
        }
        "lay" => {
            let lent = length(given, "out_len")?;
            let (record, counts) = (records(given, "record")?, numbers(given, "counts")?);
            let (breaks, curves) = (sides(given, "breaks")?, sides(given, "curves")?);
            one(Call::Lay { record, counts, breaks, curves, out: lent }, grid(out, lent)?)
        }
        "mesh_tile_curves" => {
            let (points, indices) = (length(given, "points_len")?, length(given, "cells_len")?);
            let call = Call::MeshCurves { curves: sides(given, "curves")?, cells: cells(given)?, points, indices };
            one(call, mesh(out, points, indices)?)
        }
        "mesh_tile" => {
            let (points, indices) = (length(given, "points_len")?, length(given, "cells_len")?);
            one(Call::Mesh { boundary: floats(given, "loop")?, cells: cells(given)?, points, indices }, mesh(out, points, indices)?)
        }
        other => Err(format!("`{other}` is no function")),
    }
}

fn list<T>(object: &Json, name: &str, read: impl Fn(&Json) -> Result<T, String>) -> Result<Vec<T>, String> {
    let told = |why| format!("`{name}`: {why}");
    object.field(name)?.list().map_err(told)?.iter().map(read).collect::<Result<_, _>>().map_err(told)
}

fn numbers(object: &Json, name: &str) -> Result<Vec<u32>, String> {
    list(object, name, whole)
}

fn floats(object: &Json, name: &str) -> Result<Vec<f64>, String> {
    list(object, name, float)
}

fn sides(object: &Json, name: &str) -> Result<Sides, String> {
    let lists = list(object, name, |side| side.list()?.iter().map(float).collect())?;
    lists.try_into().map_err(|lists: Vec<_>| format!("`{name}` has {} lists and not four", lists.len()))
}

fn cells(given: &Json) -> Result<[u32; 2], String> {
    Ok([whole(given.field("n_u")?)?, whole(given.field("n_v")?)?])
}

fn length(given: &Json, name: &str) -> Result<usize, String> {
    let length = whole(given.field(name)?)?;
    if length > LONGEST {
        return Err(format!("`{name}`: {length} values are more than the {LONGEST} that this tool lends"));
    }
    Ok(length as usize)
}

fn step(given: &Json) -> Result<Step, String> {
    Ok(Step { spacing: spacing(given)?, limit: limit(given)? })
}

/// Refusal and places, and the number that the field has where the call is accepted.
fn answer(out: &Json, number: &str) -> Result<Effect, String> {
    let mut effect = Effect { refusal: whole(out.field("refusal")?)?, ..Effect::default() };
    if effect.refusal != 0 {
        let places = numbers(out, "places")?;
        effect.places = places.try_into().map_err(|places: Vec<_>| format!("a refusal with {} places", places.len()))?;
    } else if !number.is_empty() {
        effect.number = whole(out.field(number)?)?;
    }
    Ok(effect)
}

fn valued(out: &Json, name: &str) -> Result<Effect, String> {
    let effect = answer(out, "")?;
    let value = if effect.refusal == 0 { float(out.field(name)?)? } else { 0.0 };
    Ok(Effect { value, ..effect })
}

fn round(out: &Json) -> Result<Effect, String> {
    let mut effect = Effect { numbers: numbers(out, "counts")?, ..answer(out, "")? };
    if effect.refusal == 0 {
        effect.cut = u32::from(flag(out.field("cut")?)?);
        let cost = out.field("cost")?;
        if *cost != Json::Null {
            (effect.number, effect.value) = (1, float(cost)?);
        }
    }
    Ok(effect)
}

/// What a refused call leaves of a buffer of this length: all, or `needed` values made `zero`.
fn left<T: Copy>(out: &Json, lent: T, zero: T, length: usize, needed: &Json) -> Result<Vec<T>, String> {
    let mut after = vec![lent; length];
    match out.field("out")?.text()? {
        "all" => {}
        "zero" => after.get_mut(..whole(needed)? as usize).ok_or("more is needed than is lent")?.fill(zero),
        other => return Err(format!("`out`: `{other}` is neither all nor zero")),
    }
    Ok(after)
}

/// The needed part in front of a buffer of this length.
fn written<T: Copy>(needed: Vec<T>, lent: T, length: usize) -> Result<Vec<T>, String> {
    if needed.len() > length {
        return Err(format!("{} values are written to a buffer of {length}", needed.len()));
    }
    let mut after = needed;
    after.resize(length, lent);
    Ok(after)
}

fn grid(out: &Json, lent: usize) -> Result<Effect, String> {
    let effect = answer(out, "quads")?;
    let floats = if effect.refusal == 0 {
        written(floats(out, "out")?, LENT_FLOAT, lent)?
    } else {
        left(out, LENT_FLOAT, 0.0, lent, out.field("needed").unwrap_or(&Json::Null))?
    };
    Ok(Effect { floats, ..effect })
}

fn mesh(out: &Json, points: usize, indices: usize) -> Result<Effect, String> {
    let effect = answer(out, "quads")?;
    if effect.refusal == 0 {
        let floats = written(floats(out, "points")?, LENT_FLOAT, points)?;
        return Ok(Effect { floats, numbers: written(numbers(out, "cells")?, LENT_NUMBER, indices)?, ..effect });
    }
    let none = [Json::Null, Json::Null];
    let needed = out.field("needed").map_or(Ok(&none[..]), Json::list)?;
    let [of_points, of_indices] = needed else {
        return Err(format!("`needed` of a mesh has {} numbers and not two", needed.len()));
    };
    let floats = left(out, LENT_FLOAT, 0.0, points, of_points)?;
    Ok(Effect { floats, numbers: left(out, LENT_NUMBER, 0, indices, of_indices)?, ..effect })
}

// ------------------------------------------------------------------------------------------------------------------------------------
// Writing
// ------------------------------------------------------------------------------------------------------------------------------------

/// The line of a call with its effects; `rule` may be empty.
pub fn write(id: &str, rule: &str, call: &Call, effects: &[Effect]) -> String {
    let out = match call {
        Call::Rounds { .. } => format!("{{\"steps\":{}}}", items(effects, |effect| out_text(call, effect))),
        _ => effects.iter().map(|effect| out_text(call, effect)).collect(),
    };
    let rule = if rule.is_empty() { String::new() } else { format!("\"rule\":\"{rule}\",") };
    format!("{{\"id\":\"{id}\",\"fn\":\"{}\",{rule}\"in\":{{{}}},\"out\":{out}}}", call.function(), in_text(call))
}

fn items<T>(list: &[T], show: impl Fn(&T) -> String) -> String {
    format!("[{}]", list.iter().map(show).collect::<Vec<_>>().join(","))
}

fn digits(x: &f64) -> String {
    format!("\"{:016x}\"", x.to_bits())
}

fn floats_text(list: &[f64]) -> String {
    items(list, digits)
}

fn sides_text(sides: &Sides) -> String {
    items(sides, |side| floats_text(side))
}

fn in_text(call: &Call) -> String {
    let regions = |regions: &[u16]| format!("\"regions\":{}", items(regions, u16::to_string));
    let counts = |counts: &[u32]| format!("\"counts\":{}", items(counts, u32::to_string));
    let ideals = |ideals: &[f64]| format!("\"ideals\":{}", floats_text(ideals));
    let wanted = |spacing: &Spacing| match spacing {
        Spacing::Ideals(list) => ideals(list),
        Spacing::Within { least, most } => format!("\"least\":{},\"most\":{}", floats_text(least), floats_text(most)),
    };
    let limited = |limit: Option<u32>| format!("\"limit\":{}", limit.map_or("null".to_string(), |limit| limit.to_string()));
    let step = |step: &Step| format!("{},{}", wanted(&step.spacing), limited(step.limit));
    let curves = |curves: &Sides| format!("\"curves\":{}", sides_text(curves));
    let closed = |boundary: &[f64]| format!("\"loop\":{}", floats_text(boundary));
    let size = |cells: &[u32; 2]| format!("\"n_u\":{},\"n_v\":{}", cells[0], cells[1]);
    let lent = |out: &usize| format!("\"out_len\":{out}");
    let lent_mesh = |points: &usize, indices: &usize| format!("\"points_len\":{points},\"cells_len\":{indices}");
    let parts = match call {
        Call::Solve { regions: r, spacing: s, counts: c, limit } => vec![regions(r), wanted(s), limited(*limit), counts(c)],
        Call::Round { regions: r, counts: c, step: s } => vec![regions(r), counts(c), step(s)],
        Call::Rounds { regions: r, counts: c, steps } => {
            vec![regions(r), counts(c), format!("\"steps\":{}", items(steps, |s| format!("{{{}}}", step(s))))]
        }
        Call::Energy { counts: c, ideals: i } => vec![counts(c), ideals(i)],
        Call::Hold { regions: r, counts: c } => vec![regions(r), counts(c)],
        Call::Root { x } => vec![format!("\"x\":{}", digits(x))],
        Call::FromParameters { curves: four, seams, out } => {
            let named =
                ["bottom", "right", "top", "left"].iter().zip(seams).map(|(side, seam)| format!("\"{side}\":{}", floats_text(seam)));
            named.chain([curves(four), lent(out)]).collect()
        }
        Call::Curves { curves: four, cells, out } => vec![curves(four), size(cells), lent(out)],
        Call::Checked { boundary, cells, out } => vec![closed(boundary), size(cells), lent(out)],
        Call::Lay { record, counts: c, breaks, curves: four, out } => {
            let record = format!("\"record\":{}", items(record, u16::to_string));
            vec![record, counts(c), format!("\"breaks\":{}", sides_text(breaks)), curves(four), lent(out)]
        }
        Call::MeshCurves { curves: four, cells, points, indices } => vec![curves(four), size(cells), lent_mesh(points, indices)],
        Call::Mesh { boundary, cells, points, indices } => vec![closed(boundary), size(cells), lent_mesh(points, indices)],
    };
    parts.join(",")
}

fn out_text(call: &Call, effect: &Effect) -> String {
    let mut parts = vec![format!("\"refusal\":{}", effect.refusal)];
    if effect.refusal != 0 {
        parts.push(format!("\"places\":[{},{}]", effect.places[0], effect.places[1]));
    }
    let accepted = effect.refusal == 0;
    match call {
        Call::Solve { .. } | Call::Round { .. } | Call::Rounds { .. } => {
            let cost = if effect.number == 1 { digits(&effect.value) } else { "null".to_string() };
            match call {
                Call::Solve { .. } if accepted => parts.push(format!("\"moves\":{}", effect.number)),
                _ if accepted => parts.push(format!("\"cost\":{cost},\"cut\":{}", effect.cut)),
                _ => {}
            }
            parts.push(format!("\"counts\":{}", items(&effect.numbers, u32::to_string)));
        }
        Call::Energy { .. } if accepted => parts.push(format!("\"energy\":{}", digits(&effect.value))),
        Call::Root { .. } if accepted => parts.push(format!("\"root\":{}", digits(&effect.value))),
        Call::Hold { .. } if accepted => parts.push(format!("\"hold\":{}", effect.number)),
        Call::Energy { .. } | Call::Root { .. } | Call::Hold { .. } => {}
        Call::MeshCurves { .. } | Call::Mesh { .. } => parts.push(mesh_text(effect)),
        _ => parts.push(grid_text(effect)),
    }
    format!("{{{}}}", parts.join(","))
}

/// How many values of a buffer are written: all up to the last that is not as it was lent.
fn touched<T: PartialEq>(buffer: &[T], lent: &T) -> usize {
    buffer.iter().rposition(|value| value != lent).map_or(0, |last| last + 1)
}

fn grid_text(effect: &Effect) -> String {
    let needed = touched(&effect.floats, &LENT_FLOAT);
    match effect.refusal {
        0 => format!("\"quads\":{},\"out\":{}", effect.number, floats_text(&effect.floats[..8 * effect.number as usize])),
        _ if needed == 0 => "\"out\":\"all\"".to_string(),
        _ => format!("\"out\":\"zero\",\"needed\":{needed}"),
    }
}

fn mesh_text(effect: &Effect) -> String {
    let (points, indices) = (touched(&effect.floats, &LENT_FLOAT), touched(&effect.numbers, &LENT_NUMBER));
    match effect.refusal {
        0 => format!(
            "\"quads\":{},\"points\":{},\"cells\":{}",
            effect.number,
            floats_text(&effect.floats[..points]),
            items(&effect.numbers[..indices], u32::to_string)
        ),
        _ if points == 0 => "\"out\":\"all\"".to_string(),
        _ => format!("\"out\":\"zero\",\"needed\":[{points},{indices}]"),
    }
}
