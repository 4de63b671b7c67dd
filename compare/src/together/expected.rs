//! The effect that a call must have, by the stored case of the same input: its answer is the oracle's, and that of 01's table where the
//! Rust does not decide (the limits, 1, 8, 9, 10, 11, 27, 28, lay, lent buffers). Within ranges it is the model's, and also the oracle's
//! where the ends are equal.

use super::call::{Call, Effect, LENT_FLOAT, LENT_NUMBER};
use crate::geometry::Seams;
use crate::grids::{self, Boundary, Source};
use crate::lay::Region;
use crate::refusal::Refusal;
use crate::stored::{self, Case, Step};

/// One effect for each round of a list, else just one. An error: the oracle or the model is at fault.
pub fn effects(call: &Call) -> Result<Vec<Effect>, String> {
    Ok(match case(call.clone())? {
        Case::Solve(case) => vec![Effect { numbers: case.after, ..counted(case.answer) }],
        Case::Round(case) => vec![round(case.step)],
        Case::Rounds(case) => case.steps.into_iter().map(round).collect(),
        Case::Energy(case) => vec![valued(case.answer)],
        Case::Hold(case) => vec![counted(case.answer.map(u32::from))],
        Case::Root(case) => vec![valued(case.answer)],
        Case::Grid(case) => vec![Effect { floats: lent(case.written, LENT_FLOAT, case.lent), ..counted(case.answer) }],
        Case::Tile(case) => {
            let floats = lent(case.written.points, LENT_FLOAT, case.lent_points);
            vec![Effect { floats, numbers: lent(case.written.cells, LENT_NUMBER, case.lent_cells), ..counted(case.answer) }]
        }
    })
}

fn case(call: Call) -> Result<Case, String> {
    let even = |boundary: Boundary, [n_u, n_v]: [u32; 2], out: usize| grids::grid(Source::Even(boundary, n_u, n_v), out);
    match call {
        Call::Solve { regions, spacing, counts, limit } => stored::solve(regions, spacing, counts, limit),
        Call::Round { regions, counts, step } => stored::round(regions, step.spacing, counts, step.limit),
        Call::Rounds { regions, counts, steps } => {
            stored::rounds(regions, counts, steps.into_iter().map(|step| (step.spacing, step.limit)).collect())
        }
        Call::Energy { counts, ideals } => stored::energy(counts, ideals),
        Call::Hold { regions, counts } => stored::hold(regions, counts),
        Call::Root { x } => grids::root(x),
        Call::FromParameters { curves, seams: [bottom, right, top, left], out } => {
            grids::grid(Source::Parameters(curves, Seams { bottom, top, left, right }), out)
        }
        Call::Curves { curves, cells, out } => even(Boundary::Curves(curves), cells, out),
        Call::Checked { boundary, cells, out } => even(Boundary::Loop(boundary), cells, out),
        Call::Lay { record, counts, breaks, curves, out } => grids::grid(Source::Lay(Region { record, counts, breaks, curves }), out),
        Call::MeshCurves { curves, cells: [n_u, n_v], points, indices } => grids::tile(Boundary::Curves(curves), n_u, n_v, points, indices),
        Call::Mesh { boundary, cells: [n_u, n_v], points, indices } => grids::tile(Boundary::Loop(boundary), n_u, n_v, points, indices),
    }
}

fn refused(refusal: Refusal) -> Effect {
    Effect { refusal: refusal.number, places: [refusal.first, refusal.second], ..Effect::default() }
}

fn counted(answer: Result<u32, Refusal>) -> Effect {
    answer.map_or_else(refused, |number| Effect { number, ..Effect::default() })
}

fn valued(answer: Result<f64, Refusal>) -> Effect {
    answer.map_or_else(refused, |value| Effect { value, ..Effect::default() })
}

fn round(step: Step) -> Effect {
    let effect = step.answer.map_or_else(refused, |made| Effect {
        number: u32::from(made.cost.is_some()),
        cut: u32::from(made.cut),
        value: made.cost.unwrap_or(0.0),
        ..Effect::default()
    });
    Effect { numbers: step.after, ..effect }
}

/// A lent buffer of this length with what is written to its start.
fn lent<T: Copy>(written: Vec<T>, before: T, length: usize) -> Vec<T> {
    let mut after = written;
    after.resize(length, before);
    after
}
