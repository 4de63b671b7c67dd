//! The data file of the replay: numbers of fixed widths, little-endian, no padding. README.md has the layout.

use crate::grids::{Boundary, Source};
use crate::refusal::Refusal;
use crate::stored::{Case, Spacing, Step};

const MARK: &[u8; 8] = b"replay 2";

/// The operation of a list of rounds that says of each round which kind it is.
const MIXED: u32 = 14;

pub fn file(cases: &[Case]) -> Result<Vec<u8>, String> {
    let mut bytes = Bytes(MARK.to_vec());
    bytes.length(cases.len())?;
    for case in cases {
        let packed = one(case)?;
        bytes.length(packed.len())?;
        bytes.0.extend(packed);
    }
    Ok(bytes.0)
}

/// One case, without its length.
pub fn one(case: &Case) -> Result<Vec<u8>, String> {
    let mut bytes = Bytes(Vec::new());
    match case {
        Case::Solve(c) => {
            bytes.number(if case.is_within() { 13 } else { 1 });
            bytes.places(&c.records)?;
            bytes.spacing(&c.spacing)?;
            bytes.numbers(&c.before)?;
            bytes.limit(c.limit);
            bytes.verdict(c.answer.err());
            bytes.number(c.answer.unwrap_or(0));
            bytes.numbers(&c.after)?;
        }
        Case::Round(c) => {
            bytes.number(if case.is_within() { MIXED } else { 2 });
            bytes.rounds(&c.records, &c.before, std::slice::from_ref(&c.step), case.is_within())?;
        }
        Case::Rounds(c) => {
            bytes.number(if case.is_within() { MIXED } else { 3 });
            bytes.rounds(&c.records, &c.before, &c.steps, case.is_within())?;
        }
        Case::Energy(c) => {
            bytes.number(4);
            bytes.numbers(&c.counts)?;
            bytes.floats(&c.ideals)?;
            bytes.verdict(c.answer.err());
            bytes.float(c.answer.unwrap_or(0.0));
        }
        Case::Hold(c) => {
            bytes.number(5);
            bytes.places(&c.records)?;
            bytes.numbers(&c.counts)?;
            bytes.verdict(c.answer.err());
            bytes.number(u32::from(c.answer.unwrap_or(false)));
        }
        Case::Root(c) => {
            bytes.number(6);
            bytes.float(c.x);
            bytes.verdict(c.answer.err());
            bytes.float(c.answer.unwrap_or(0.0));
        }
        Case::Grid(c) => {
            bytes.source(&c.source)?;
            bytes.length(c.lent)?;
            bytes.verdict(c.answer.err());
            bytes.number(c.answer.unwrap_or(0));
            bytes.floats(&c.written)?;
        }
        Case::Tile(c) => {
            bytes.number(if matches!(c.boundary, Boundary::Curves(_)) { 11 } else { 12 });
            bytes.even(&c.boundary, c.n_u, c.n_v)?;
            bytes.length(c.lent_points)?;
            bytes.length(c.lent_cells)?;
            bytes.verdict(c.answer.err());
            bytes.number(c.answer.unwrap_or(0));
            bytes.floats(&c.written.points)?;
            bytes.numbers(&c.written.cells)?;
        }
    }
    Ok(bytes.0)
}

struct Bytes(Vec<u8>);

impl Bytes {
    fn number(&mut self, value: u32) {
        self.0.extend(value.to_le_bytes());
    }

    /// Whether it is stated, and the limit; 0 where it is not.
    fn limit(&mut self, limit: Option<u32>) {
        self.number(u32::from(limit.is_some()));
        self.number(limit.unwrap_or(0));
    }

    /// All NaNs are one.
    fn float(&mut self, value: f64) {
        let value = if value.is_nan() { f64::NAN } else { value };
        self.0.extend(value.to_bits().to_le_bytes());
    }

    fn length(&mut self, length: usize) -> Result<(), String> {
        self.number(u32::try_from(length).map_err(|_| format!("a list of {length} is too long"))?);
        Ok(())
    }

    fn places(&mut self, values: &[u16]) -> Result<(), String> {
        self.length(values.len())?;
        self.0.extend(values.iter().flat_map(|value| value.to_le_bytes()));
        Ok(())
    }

    fn numbers(&mut self, values: &[u32]) -> Result<(), String> {
        self.length(values.len())?;
        values.iter().for_each(|&value| self.number(value));
        Ok(())
    }

    fn floats(&mut self, values: &[f64]) -> Result<(), String> {
        self.length(values.len())?;
        values.iter().for_each(|&value| self.float(value));
        Ok(())
    }

    fn verdict(&mut self, refusal: Option<Refusal>) {
        let refusal = refusal.unwrap_or(Refusal::plain(0));
        self.number(refusal.number);
        self.number(refusal.first);
        self.number(refusal.second);
    }

    fn spacing(&mut self, spacing: &Spacing) -> Result<(), String> {
        match spacing {
            Spacing::Ideals(ideals) => self.floats(ideals),
            Spacing::Within { least, most } => {
                self.floats(least)?;
                self.floats(most)
            }
        }
    }

    /// With the kind of each round in front of it, where both may come.
    fn rounds(&mut self, records: &[u16], before: &[u32], steps: &[Step], mixed: bool) -> Result<(), String> {
        self.places(records)?;
        self.numbers(before)?;
        self.length(steps.len())?;
        for step in steps {
            let made = step.answer.ok();
            let cost = made.and_then(|made| made.cost);
            if mixed {
                self.number(u32::from(step.spacing.is_within()));
            }
            self.spacing(&step.spacing)?;
            self.limit(step.limit);
            self.verdict(step.answer.err());
            self.number(u32::from(cost.is_some()));
            self.float(cost.unwrap_or(0.0));
            self.number(u32::from(made.is_some_and(|made| made.cut)));
            self.numbers(&step.after)?;
        }
        Ok(())
    }

    fn each(&mut self, lists: &[Vec<f64>; 4]) -> Result<(), String> {
        lists.iter().try_for_each(|list| self.floats(list))
    }

    /// The operation of a grid, and what it is made from.
    fn source(&mut self, source: &Source) -> Result<(), String> {
        match source {
            Source::Parameters(curves, seams) => {
                self.number(7);
                self.each(curves)?;
                self.floats(&seams.bottom)?;
                self.floats(&seams.top)?;
                self.floats(&seams.left)?;
                self.floats(&seams.right)
            }
            Source::Even(boundary, n_u, n_v) => {
                self.number(if matches!(boundary, Boundary::Curves(_)) { 8 } else { 10 });
                self.even(boundary, *n_u, *n_v)
            }
            Source::Lay(region) => {
                self.number(9);
                self.each(&region.curves)?;
                self.each(&region.breaks)?;
                self.places(&region.record)?;
                self.numbers(&region.counts)
            }
        }
    }

    fn even(&mut self, boundary: &Boundary, n_u: u32, n_v: u32) -> Result<(), String> {
        match boundary {
            Boundary::Curves(curves) => self.each(curves)?,
            Boundary::Loop(points) => self.floats(points)?,
        }
        self.number(n_u);
        self.number(n_v);
        Ok(())
    }
}
