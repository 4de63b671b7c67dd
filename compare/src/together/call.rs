//! A call of a public function with all that it is lent, and its effect: the answer and the whole of each buffer after it.

use super::library;
use crate::farm::lists;
use std::fmt::Debug;

pub use crate::stored::Spacing;

/// What f64 output holds before a call.
pub const LENT_FLOAT: f64 = std::f64::consts::PI;
/// What output of 32 bits holds before a call.
pub const LENT_NUMBER: u32 = 0xA5A5_A5A5;

/// Four lists by side number: bottom, right, top, left.
pub type Sides = [Vec<f64>; 4];

/// A call. Output is lent by its length.
#[derive(Clone, Debug, PartialEq)]
pub enum Call {
    /// A solve, by ideals or within ranges.
    Solve {
        regions: Vec<u16>,
        spacing: Spacing,
        counts: Vec<u32>,
        limit: Option<u32>,
    },
    /// One public round.
    Round {
        regions: Vec<u16>,
        counts: Vec<u32>,
        step: Step,
    },
    /// A list of rounds of either kind on one buffer of counts.
    Rounds {
        regions: Vec<u16>,
        counts: Vec<u32>,
        steps: Vec<Step>,
    },
    Energy {
        counts: Vec<u32>,
        ideals: Vec<f64>,
    },
    Hold {
        regions: Vec<u16>,
        counts: Vec<u32>,
    },
    Root {
        x: f64,
    },
    FromParameters {
        curves: Sides,
        seams: Sides,
        out: usize,
    },
    Curves {
        curves: Sides,
        cells: [u32; 2],
        out: usize,
    },
    Lay {
        record: Vec<u16>,
        counts: Vec<u32>,
        breaks: Sides,
        curves: Sides,
        out: usize,
    },
    Checked {
        boundary: Vec<f64>,
        cells: [u32; 2],
        out: usize,
    },
    MeshCurves {
        curves: Sides,
        cells: [u32; 2],
        points: usize,
        indices: usize,
    },
    Mesh {
        boundary: Vec<f64>,
        cells: [u32; 2],
        points: usize,
        indices: usize,
    },
}

/// What a round has of its own.
#[derive(Clone, Debug, PartialEq)]
pub struct Step {
    pub spacing: Spacing,
    pub limit: Option<u32>,
}

impl Step {
    pub fn new(spacing: impl Into<Spacing>, limit: impl Into<Option<u32>>) -> Step {
        Step { spacing: spacing.into(), limit: limit.into() }
    }
}

/// Answer and buffers after a call. What a function does not have is empty or 0.
#[derive(Clone, Debug, Default)]
pub struct Effect {
    pub refusal: u32,
    pub places: [u32; 2],
    /// Number of moves or of quads; 1 if the constraints hold; 1 if a round made a move.
    pub number: u32,
    /// 1 if a search of a round was cut.
    pub cut: u32,
    /// Cost of the move, energy, root; +0.0 where there is none.
    pub value: f64,
    /// Counts, or point indices of a mesh.
    pub numbers: Vec<u32>,
    /// Quads, or points of a mesh.
    pub floats: Vec<f64>,
}

impl Call {
    /// The name that the vectors have for the function.
    pub fn function(&self) -> &'static str {
        match self {
            Call::Solve { spacing: Spacing::Within { .. }, .. } => "solve_range",
            Call::Solve { .. } => "solve_limit",
            Call::Round { step: Step { spacing: Spacing::Within { .. }, .. }, .. } => "round_range",
            Call::Round { .. } => "round",
            Call::Rounds { .. } => "rounds",
            Call::Energy { .. } => "energy",
            Call::Hold { .. } => "constraints_hold",
            Call::Root { .. } => "root",
            Call::FromParameters { .. } => "coons_from_parameters",
            Call::Curves { .. } => "coons_curves",
            Call::Lay { .. } => "lay",
            Call::Checked { .. } => "coons_checked",
            Call::MeshCurves { .. } => "mesh_tile_curves",
            Call::Mesh { .. } => "mesh_tile",
        }
    }

    /// The regions of a call of the solver.
    pub fn regions(&mut self) -> Option<&mut Vec<u16>> {
        match self {
            Call::Solve { regions, .. } | Call::Round { regions, .. } | Call::Rounds { regions, .. } | Call::Hold { regions, .. } => {
                Some(regions)
            }
            _ => None,
        }
    }

    /// Makes the call: one effect for each round of a list, else just one.
    pub fn made(&self) -> Vec<Effect> {
        match self {
            Call::Rounds { regions, counts, steps } => rounds(regions, counts, steps),
            Call::Round { regions, counts, step } => rounds(regions, counts, std::slice::from_ref(step)),
            other => vec![other.made_once()],
        }
    }

    fn made_once(&self) -> Effect {
        match self {
            Call::Solve { regions, spacing, counts, limit } => {
                let mut lent = Lent::new(counts);
                let mut answer = [LENT_NUMBER; 3];
                let counts = lent.buffer();
                let refusal = match spacing {
                    Spacing::Ideals(ideals) => library::solve_counts(regions, ideals, counts, *limit, &mut answer),
                    Spacing::Within { least, most } => library::solve_counts_within(regions, [least, most], counts, *limit, &mut answer),
                };
                Effect { numbers: lent.after(), ..told(refusal, answer) }
            }
            Call::Energy { counts, ideals } => {
                let (mut answer, mut sum) = ([LENT_NUMBER; 2], [LENT_FLOAT]);
                let refusal = library::energy(counts, ideals, &mut answer, &mut sum);
                Effect { value: sum[0], ..told(refusal, [answer[0], answer[1], 0]) }
            }
            Call::Hold { regions, counts } => {
                let mut answer = [LENT_NUMBER; 3];
                let refusal = library::constraints_hold(regions, counts, &mut answer);
                told(refusal, answer)
            }
            Call::Root { x } => {
                let mut root = [LENT_FLOAT];
                let refusal = library::root(*x, &mut root);
                Effect { value: root[0], ..told(refusal, [0; 3]) }
            }
            Call::FromParameters { curves, seams, out } => {
                grid(*out, |out, answer| library::coons_from_parameters(lists(curves), lists(seams), out, answer))
            }
            Call::Curves { curves, cells, out } => grid(*out, |out, answer| library::coons_curves(lists(curves), *cells, out, answer)),
            Call::Lay { record, counts, breaks, curves, out } => {
                grid(*out, |out, answer| library::lay_region(record, counts, lists(breaks), lists(curves), out, answer))
            }
            Call::Checked { boundary, cells, out } => grid(*out, |out, answer| library::coons_checked(boundary, *cells, out, answer)),
            Call::MeshCurves { curves, cells, points, indices } => {
                mesh(*points, *indices, |points, indices, answer| library::mesh_tile_curves(lists(curves), *cells, points, indices, answer))
            }
            Call::Mesh { boundary, cells, points, indices } => {
                mesh(*points, *indices, |points, indices, answer| library::mesh_tile(boundary, *cells, points, indices, answer))
            }
            Call::Round { .. } | Call::Rounds { .. } => unreachable!("rounds have a list of effects"),
        }
    }
}

fn told(refusal: u32, answer: [u32; 3]) -> Effect {
    let [first, second, number] = answer;
    Effect { refusal, places: [first, second], number, ..Effect::default() }
}

fn rounds(regions: &[u16], counts: &[u32], steps: &[Step]) -> Vec<Effect> {
    let mut lent = Lent::new(counts);
    let mut done = Vec::new();
    for step in steps {
        let (mut answer, mut cost) = ([LENT_NUMBER; 4], [LENT_FLOAT]);
        let counts = lent.buffer();
        let refusal = match &step.spacing {
            Spacing::Ideals(ideals) => library::round(regions, ideals, counts, step.limit, &mut answer, &mut cost),
            Spacing::Within { least, most } => library::round_within(regions, [least, most], counts, step.limit, &mut answer, &mut cost),
        };
        let [first, second, made, cut] = answer;
        done.push(Effect { cut, value: cost[0], numbers: lent.after(), ..told(refusal, [first, second, made]) });
    }
    done
}

fn grid(out: usize, call: impl FnOnce(&mut [f64], &mut [u32; 3]) -> u32) -> Effect {
    let mut lent = Lent::filled(LENT_FLOAT, out);
    let mut answer = [LENT_NUMBER; 3];
    let refusal = call(lent.buffer(), &mut answer);
    Effect { floats: lent.after(), ..told(refusal, answer) }
}

fn mesh(points: usize, indices: usize, call: impl FnOnce(&mut [f64], &mut [u32], &mut [u32; 3]) -> u32) -> Effect {
    let (mut points, mut indices) = (Lent::filled(LENT_FLOAT, points), Lent::filled(LENT_NUMBER, indices));
    let mut answer = [LENT_NUMBER; 3];
    let refusal = call(points.buffer(), indices.buffer(), &mut answer);
    Effect { floats: points.after(), numbers: indices.after(), ..told(refusal, answer) }
}

/// A buffer that is lent, with values before and behind it that a call must leave alone.
struct Lent<T> {
    values: Vec<T>,
}

const GUARD: usize = 4;

trait Guarded: Copy + PartialEq + Debug {
    const WALL: Self;
}

impl Guarded for u32 {
    const WALL: u32 = 0x5A5A_5A5A;
}

impl Guarded for f64 {
    const WALL: f64 = -std::f64::consts::E;
}

impl<T: Guarded> Lent<T> {
    fn new(values: &[T]) -> Lent<T> {
        let mut guarded = vec![T::WALL; GUARD];
        guarded.extend(values);
        guarded.extend([T::WALL; GUARD]);
        Lent { values: guarded }
    }

    fn filled(value: T, length: usize) -> Lent<T> {
        let mut values = vec![value; length + 2 * GUARD];
        values[..GUARD].fill(T::WALL);
        values[length + GUARD..].fill(T::WALL);
        Lent { values }
    }

    fn buffer(&mut self) -> &mut [T] {
        let end = self.values.len() - GUARD;
        &mut self.values[GUARD..end]
    }

    fn after(&self) -> Vec<T> {
        let end = self.values.len() - GUARD;
        let walls = self.values[..GUARD].iter().chain(&self.values[end..]);
        assert!(walls.copied().all(|value| value == T::WALL), "a call wrote outside its buffer");
        self.values[GUARD..end].to_vec()
    }
}

/// What differs between the effects that are expected and those that came; none if nothing does.
pub fn difference(expected: &[Effect], came: &[Effect]) -> Option<String> {
    if expected.len() != came.len() {
        return Some(format!("{} answers are expected, {} came", expected.len(), came.len()));
    }
    let of_round = |index: usize| if expected.len() > 1 { format!("round {index}: ") } else { String::new() };
    let found = expected.iter().zip(came).map(|(expected, came)| effect_difference(expected, came)).enumerate();
    found.into_iter().find_map(|(index, text)| text.map(|text| of_round(index) + &text))
}

fn effect_difference(expected: &Effect, came: &Effect) -> Option<String> {
    let mut found = Vec::new();
    note(&mut found, "refusal", &expected.refusal, &came.refusal, u32::to_string);
    note(&mut found, "places", &expected.places, &came.places, |places| format!("{places:?}"));
    note(&mut found, "number", &expected.number, &came.number, u32::to_string);
    note(&mut found, "cut", &expected.cut, &came.cut, u32::to_string);
    note(&mut found, "value", &expected.value.to_bits(), &came.value.to_bits(), shown);
    let bits = |values: &[f64]| values.iter().map(|value| value.to_bits()).collect::<Vec<u64>>();
    list_note(&mut found, "f64 output", &bits(&expected.floats), &bits(&came.floats), shown);
    list_note(&mut found, "output of 32 bits", &expected.numbers, &came.numbers, u32::to_string);
    (!found.is_empty()).then(|| found.join("; "))
}

fn note<T: PartialEq>(found: &mut Vec<String>, what: &str, expected: &T, came: &T, show: impl Fn(&T) -> String) {
    if expected != came {
        found.push(format!("{what}: expected {}, came {}", show(expected), show(came)));
    }
}

/// The first place where two lists differ.
fn list_note<T: PartialEq>(found: &mut Vec<String>, what: &str, expected: &[T], came: &[T], show: impl Fn(&T) -> String) {
    note(found, &format!("length of {what}"), &expected.len(), &came.len(), usize::to_string);
    if let Some(index) = expected.iter().zip(came).position(|(a, b)| a != b) {
        note(found, &format!("{what} at {index}"), &expected[index], &came[index], show);
    }
}

fn shown(bits: &u64) -> String {
    format!("{:e} ({bits:016x})", f64::from_bits(*bits))
}
