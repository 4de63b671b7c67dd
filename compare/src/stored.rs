//! A stored case: what an operation is called with, and all that it must answer and leave, by the oracle, or by the model within ranges.

use crate::grids;
use crate::limits;
use crate::ranges::{self, Ends};
use crate::reach;
use crate::refusal::{Refusal, Stop};
use crate::solver;

#[derive(Clone, Debug)]
pub enum Case {
    Solve(Solve),
    Round(Round),
    Rounds(Rounds),
    Energy(Energy),
    Hold(Hold),
    Root(grids::Root),
    Grid(grids::Grid),
    Tile(grids::Tile),
}

/// What is wanted of each edge.
#[derive(Clone, Debug, PartialEq)]
pub enum Spacing {
    /// An ideal.
    Ideals(Vec<f64>),
    /// A least and a most.
    Within { least: Vec<f64>, most: Vec<f64> },
}

#[derive(Clone, Debug)]
pub struct Solve {
    pub records: Vec<u16>,
    pub spacing: Spacing,
    pub before: Vec<u32>,
    pub limit: Option<u32>,
    pub answer: Result<u32, Refusal>,
    pub after: Vec<u32>,
}

/// A round not refused: the cost of the move made, and the cut mark.
#[derive(Clone, Copy, Debug, PartialEq)]
pub struct Made {
    pub cost: Option<f64>,
    pub cut: bool,
}

/// A call of the round on counts that lie outside it.
#[derive(Clone, Debug)]
pub struct Step {
    pub spacing: Spacing,
    pub limit: Option<u32>,
    pub answer: Result<Made, Refusal>,
    pub after: Vec<u32>,
}

#[derive(Clone, Debug)]
pub struct Round {
    pub records: Vec<u16>,
    pub before: Vec<u32>,
    pub step: Step,
}

#[derive(Clone, Debug)]
pub struct Rounds {
    pub records: Vec<u16>,
    pub before: Vec<u32>,
    pub steps: Vec<Step>,
}

#[derive(Clone, Debug)]
pub struct Energy {
    pub counts: Vec<u32>,
    pub ideals: Vec<f64>,
    pub answer: Result<f64, Refusal>,
}

#[derive(Clone, Debug)]
pub struct Hold {
    pub records: Vec<u16>,
    pub counts: Vec<u32>,
    pub answer: Result<bool, Refusal>,
}

impl From<Vec<f64>> for Spacing {
    fn from(ideals: Vec<f64>) -> Spacing {
        Spacing::Ideals(ideals)
    }
}

impl Spacing {
    pub fn is_within(&self) -> bool {
        matches!(self, Spacing::Within { .. })
    }

    /// Both ends; an ideal is a range from itself to itself.
    pub fn ends(&self) -> Ends<'_> {
        match self {
            Spacing::Ideals(ideals) => Ends { least: ideals, most: ideals },
            Spacing::Within { least, most } => Ends { least, most },
        }
    }
}

impl Case {
    pub fn operation(&self) -> &'static str {
        match self {
            Case::Solve(_) if self.is_within() => "solve_within",
            Case::Solve(_) => "solve",
            Case::Round(_) | Case::Rounds(_) if self.is_within() => "rounds_mixed",
            Case::Round(_) => "round",
            Case::Rounds(_) => "rounds",
            Case::Energy(_) => "energy",
            Case::Hold(_) => "hold",
            Case::Root(_) => "root",
            Case::Grid(case) => case.operation(),
            Case::Tile(case) => case.operation(),
        }
    }

    /// Whether a range is wanted of the edges, in a list of rounds in any of them.
    pub fn is_within(&self) -> bool {
        match self {
            Case::Solve(case) => case.spacing.is_within(),
            Case::Round(case) => case.step.spacing.is_within(),
            Case::Rounds(case) => case.steps.iter().any(|step| step.spacing.is_within()),
            _ => false,
        }
    }

    pub fn is_solver(&self) -> bool {
        !matches!(self, Case::Root(_) | Case::Grid(_) | Case::Tile(_))
    }

    /// The case's refusal; a list of rounds has one for each round, and is not asked.
    pub fn refusal(&self) -> Option<Refusal> {
        match self {
            Case::Solve(case) => case.answer.err(),
            Case::Round(case) => case.step.answer.err(),
            Case::Rounds(_) => None,
            Case::Energy(case) => case.answer.err(),
            Case::Hold(case) => case.answer.err(),
            Case::Root(case) => case.answer.err(),
            Case::Grid(case) => case.answer.err(),
            Case::Tile(case) => case.answer.err(),
        }
    }

    /// The region records of a case that has any.
    pub fn records(&mut self) -> Option<&mut Vec<u16>> {
        match self {
            Case::Solve(case) => Some(&mut case.records),
            Case::Round(case) => Some(&mut case.records),
            Case::Rounds(case) => Some(&mut case.records),
            Case::Hold(case) => Some(&mut case.records),
            _ => None,
        }
    }

    /// The entries of all searches of the case, counted no further than just past `most`.
    pub fn effort(&self, most: usize) -> usize {
        match self {
            Case::Solve(case) => solve_effort(case, most),
            Case::Round(case) => round_effort(&case.records, &case.before, &case.step, most),
            Case::Rounds(case) => rounds_effort(case, most),
            _ => 0,
        }
    }
}

fn solve_effort(case: &Solve, most: usize) -> usize {
    let limit = limits::expansions(case.limit);
    match (solver::regions(&case.records), &case.spacing) {
        (Ok(regions), Spacing::Ideals(ideals)) if limit <= limits::SEARCH => reach::solve_effort(&regions, ideals, limit as usize, most),
        (Ok(_), Spacing::Within { least, most: ends }) => solve_within_effort(&case.records, Ends { least, most: ends }, case.limit, most),
        _ => 0,
    }
}

/// Round after round, as a solve makes them.
fn solve_within_effort(records: &[u16], ends: Ends, limit: Option<u32>, most: usize) -> usize {
    let mut counts = vec![0; ends.least.len()];
    let mut total = 0;
    while total <= most {
        match ranges::round(records, ends, &mut counts, limit) {
            Ok(round) if round.cost.is_some() => total += round.entries,
            Ok(round) => return total + round.entries,
            Err(_) => break,
        }
    }
    total
}

fn round_effort(records: &[u16], counts: &[u32], step: &Step, most: usize) -> usize {
    match (solver::regions(records), &step.spacing) {
        (Ok(regions), Spacing::Ideals(ideals)) => {
            reach::round_effort(&regions, &solver::to_usize(counts), ideals, limits::expansions(step.limit) as usize, most)
        }
        (Ok(_), Spacing::Within { least, most }) => {
            ranges::round(records, Ends { least, most }, &mut counts.to_vec(), step.limit).map_or(0, |round| round.entries)
        }
        (Err(_), _) => 0,
    }
}

fn rounds_effort(case: &Rounds, most: usize) -> usize {
    let mut counts = &case.before;
    let mut total = 0;
    for step in &case.steps {
        total += round_effort(&case.records, counts, step, most);
        counts = &step.after;
    }
    total
}

/// The refusal that 01's table gives for a rule that the Rust does not have: 9 names the edge, the others no place.
pub fn by_01(number: u32, counts: &[u32]) -> Refusal {
    let above = (0..).zip(counts).find(|(_, &count)| count > limits::COUNT);
    match above {
        Some((edge, _)) if number == 9 => Refusal { number, first: edge, second: 0 },
        _ => Refusal::plain(number),
    }
}

/// The oracle's answer, with 01's own rules where the Rust has none.
pub fn settled<T>(answer: Result<T, Stop>, counts: &[u32]) -> Result<Result<T, Refusal>, String> {
    match answer {
        Ok(value) => Ok(Ok(value)),
        Err(Stop::Refused(refusal)) => Ok(Err(refusal)),
        Err(Stop::Undecided(number)) => Ok(Err(by_01(number, counts))),
        Err(Stop::Broken(why)) => Err(why),
    }
}

// ------------------------------------------------------------------------------------------------------------------------------------
// Cases with their answers: by ideals the oracle's, within ranges the model's. Where both ends are the same in every bit, both are asked
// ------------------------------------------------------------------------------------------------------------------------------------

/// What is answered, and the counts after the call.
type Told<T> = Result<(Result<T, Refusal>, Vec<u32>), String>;

/// A solve by a limit, or by none that is stated.
pub fn solve(records: Vec<u16>, spacing: impl Into<Spacing>, before: Vec<u32>, limit: impl Into<Option<u32>>) -> Result<Case, String> {
    let (spacing, limit) = (spacing.into(), limit.into());
    let (answer, after) = match &spacing {
        Spacing::Ideals(ideals) => solve_by(&records, ideals, &before, limit)?,
        Spacing::Within { least, most } => {
            let mut after = before.clone();
            let answer = ranges::solve(&records, Ends { least, most }, &mut after, limit);
            if same_bits(least, most) && (answer, after.clone()) != solve_by(&records, least, &before, limit)? {
                return Err(apart(&spacing));
            }
            (answer, after)
        }
    };
    Ok(Case::Solve(Solve { records, spacing, before, limit, answer, after }))
}

/// 11 is 01's: it comes behind 1 and 10 alone, and the Rust has no lent counts.
fn solve_by(records: &[u16], ideals: &[f64], before: &[u32], limit: Option<u32>) -> Told<u32> {
    let answer = solver::solve(records, ideals, limit);
    let refused_before = matches!(answer, Err(Stop::Undecided(1 | 10)));
    let mut after = before.to_vec();
    let answer = if !refused_before && before.len() < ideals.len() {
        Err(by_01(11, &[]))
    } else {
        settled(answer, &[])?.map(|solved| {
            after[..ideals.len()].copy_from_slice(&solved.counts);
            solved.moves
        })
    };
    if matches!(answer, Err(refusal) if refusal.number == 7) {
        after[..ideals.len()].fill(0);
    }
    Ok((answer, after))
}

fn same_bits(one: &[f64], other: &[f64]) -> bool {
    one.iter().map(|end| end.to_bits()).eq(other.iter().map(|end| end.to_bits()))
}

fn apart(spacing: &Spacing) -> String {
    format!("on equal ends the model and the Rust differ: {spacing:?}")
}

fn step(records: &[u16], spacing: Spacing, before: &[u32], limit: Option<u32>) -> Result<Step, String> {
    let (answer, after) = match &spacing {
        Spacing::Ideals(ideals) => round_by(records, ideals, before, limit)?,
        Spacing::Within { least, most } => {
            let mut after = before.to_vec();
            let answer = ranges::round(records, Ends { least, most }, &mut after, limit);
            let answer = answer.map(|round| Made { cost: round.cost, cut: round.cut });
            if same_bits(least, most) && (answer, after.clone()) != round_by(records, least, before, limit)? {
                return Err(apart(&spacing));
            }
            (answer, after)
        }
    };
    Ok(Step { spacing, limit, answer, after })
}

fn round_by(records: &[u16], ideals: &[f64], before: &[u32], limit: Option<u32>) -> Told<Made> {
    let answer = solver::round(records, ideals, before, limit);
    let after = answer.as_ref().map_or_else(|_| before.to_vec(), |round| round.counts.clone());
    let answer = settled(answer, before)?.map(|round| Made { cost: round.made.map(|(cost, _)| cost), cut: round.cut });
    Ok((answer, after))
}

/// A round by a limit, or by none that is stated.
pub fn round(records: Vec<u16>, spacing: impl Into<Spacing>, before: Vec<u32>, limit: impl Into<Option<u32>>) -> Result<Case, String> {
    let step = step(&records, spacing.into(), &before, limit.into())?;
    Ok(Case::Round(Round { records, before, step }))
}

/// A list of rounds on one buffer of counts; a refused round leaves it as it was.
pub fn rounds(records: Vec<u16>, before: Vec<u32>, calls: Vec<(Spacing, Option<u32>)>) -> Result<Case, String> {
    let mut steps: Vec<Step> = Vec::new();
    for (spacing, limit) in calls {
        let counts = steps.last().map_or(&before, |last| &last.after);
        let next = step(&records, spacing, counts, limit)?;
        steps.push(next);
    }
    Ok(Case::Rounds(Rounds { records, before, steps }))
}

pub fn energy(counts: Vec<u32>, ideals: Vec<f64>) -> Result<Case, String> {
    let answer = settled(solver::energy(&counts, &ideals), &counts)?;
    Ok(Case::Energy(Energy { counts, ideals, answer }))
}

pub fn hold(records: Vec<u16>, counts: Vec<u32>) -> Result<Case, String> {
    let answer = settled(solver::hold(&records, &counts), &[])?;
    Ok(Case::Hold(Hold { records, counts, answer }))
}

/// The case as the oracle or the model answers it.
pub fn asked_again(case: &Case) -> Result<Case, String> {
    match case.clone() {
        Case::Solve(c) => solve(c.records, c.spacing, c.before, c.limit),
        Case::Round(c) => round(c.records, c.step.spacing, c.before, c.step.limit),
        Case::Rounds(c) => rounds(c.records, c.before, c.steps.into_iter().map(|s| (s.spacing, s.limit)).collect()),
        Case::Energy(c) => energy(c.counts, c.ideals),
        Case::Hold(c) => hold(c.records, c.counts),
        Case::Root(c) => grids::root(c.x),
        Case::Grid(c) => grids::grid(c.source, c.lent),
        Case::Tile(c) => grids::tile(c.boundary, c.n_u, c.n_v, c.lent_points, c.lent_cells),
    }
}
