//! Comparison at scale: calls are made, put to the oracle and to this library, and every result and buffer is compared.
//!
//! - `exhaustive`: all short inputs of some kinds; `limits`: 01's limits, with one below and one above; `stones`: the ends of curves.
//! - `solver`, `geometry`: random calls, most of them small, and damaged ones.
//! - `tiles`: farms that are solved, and their tiles laid from the counts.
//! - `turned`: each call of the solver once more, on its sheet turned round.
//! - `strips`: each call of lay with an empty pair of sides once more, with other breaks there.
//! - `shrink`: the smallest form of a difference.

mod exhaustive;
mod geometry;
mod limits;
mod shrink;
mod solver;
mod stones;
mod strips;
mod tiles;
mod turned;

use super::call::{difference, Call, Effect};
use super::random::Random;
use super::turned::{difference as difference_turned, RULE};
use super::{clock, expected, line};
use std::collections::BTreeMap;

/// Where calls go to be compared.
type Sink<'a> = &'a mut dyn FnMut(Call) -> Result<(), String>;

/// Differences of a function that are shown, in their smallest form.
const SHOWN: usize = 3;

/// What was compared, by the kind of input and the function.
#[derive(Default)]
struct Tally {
    cases: u64,
    accepted: u64,
    /// How often each refusal was answered.
    refused: BTreeMap<u32, u64>,
}

pub struct Run {
    seed: u64,
    tallies: BTreeMap<(&'static str, &'static str), Tally>,
    turned: turned::Tallies,
    strips: strips::Tally,
    tiles: tiles::Tally,
    /// The differences shown of each function, and of each on a turned sheet.
    shown: BTreeMap<(&'static str, &'static str), Vec<String>>,
    pub cases: u64,
    pub different: u64,
}

/// Of so many random calls there is one farm whose tiles are laid.
const FARMS: u64 = 32;

/// All short inputs, the limits, `count` random calls, the ends of curves, and tiles of farms.
pub fn run(seed: u64, count: u64) -> Result<Run, String> {
    let mut run = Run::new(seed);
    let start = clock::now();
    exhaustive::all(&mut |call| run.check("short", call).map(drop))?;
    limits::all(&mut |call| run.check("limits", call).map(drop))?;
    for index in 0..count {
        // Each case has its own numbers, so that it is the same whatever came before it.
        let mut random = Random::new(seed.wrapping_mul(0xD134_2543_DE82_EF95).wrapping_add(index));
        let call = if random.chance(2) { solver::call(&mut random) } else { geometry::call(&mut random) };
        run.check("random", call)?;
    }
    // Behind the random calls, since how a call is turned goes by how many came before it.
    stones::all(&mut |call| run.check("stones", call).map(drop))?;
    for index in 0..count.div_ceil(FARMS) {
        run.check_farm(&mut Random::new(seed.wrapping_mul(0xC2B2_AE3D_27D4_EB4F).wrapping_add(index)))?;
    }
    run.report(clock::now() - start);
    Ok(run)
}

impl Run {
    fn new(seed: u64) -> Run {
        Run {
            seed,
            tallies: BTreeMap::new(),
            turned: Default::default(),
            strips: Default::default(),
            tiles: Default::default(),
            shown: BTreeMap::new(),
            cases: 0,
            different: 0,
        }
    }

    /// Compares a call; what is expected of it.
    fn check(&mut self, kind: &'static str, call: Call) -> Result<Vec<Effect>, String> {
        let expected = expected::effects(&call)?;
        self.cases += 1;
        let tally = self.tallies.entry((kind, call.function())).or_default();
        tally.cases += 1;
        for effect in &expected {
            match effect.refusal {
                0 => tally.accepted += 1,
                number => *tally.refused.entry(number).or_default() += 1,
            }
        }
        if difference(&expected, &call.made()).is_some() {
            self.different += 1;
            self.show(call)?;
        } else {
            self.check_unread(&call, &expected)?;
            self.check_turned(call, &expected)?;
        }
        Ok(expected)
    }

    /// A strip again, with other breaks where they are not read: its effect must be the one that is expected of it as it was.
    fn check_unread(&mut self, call: &Call, expected: &[Effect]) -> Result<(), String> {
        let seed = self.seed.wrapping_mul(0x9FB2_1C65_1E98_DF25).wrapping_add(self.cases);
        let Some(other) = strips::with_other_breaks(call, &mut Random::new(seed)) else {
            return Ok(());
        };
        self.strips.count(call, expected);
        if difference(expected, &other.made()).is_some() {
            self.different += 1;
            self.show(other)?;
        }
        Ok(())
    }

    /// A farm is solved and its tiles are laid from the counts; then rounds are made on these, and the tiles are laid from what they leave.
    fn check_farm(&mut self, random: &mut Random) -> Result<(), String> {
        let mut solve = tiles::solve(random);
        let solved = self.left("farms", solve.clone())?;
        if solved.refusal != 0 {
            return Ok(());
        }
        self.tiles.farm();
        let records = tiles::regions(&mut solve);
        self.check_tiles(random, &records, &solved.numbers)?;
        let rounds = tiles::rounds(random, &records.concat(), &solved.numbers);
        let after = self.left("farms", rounds)?;
        self.check_tiles(random, &records, &after.numbers)
    }

    /// Compares a call; what this library's last answer is, and the counts that it leaves.
    fn left(&mut self, kind: &'static str, call: Call) -> Result<Effect, String> {
        let last = call.made().pop().ok_or("a call of the solver has an effect")?;
        self.check(kind, call)?;
        Ok(last)
    }

    /// Each region of a farm laid from counts that a solve, or rounds begun on its counts, left: none is 22.
    fn check_tiles(&mut self, random: &mut Random, records: &[Vec<u16>], counts: &[u32]) -> Result<(), String> {
        for record in records {
            let tile = tiles::tile(random, record, counts);
            let expected = self.check("farms", tile.clone())?;
            if self.tiles.tile(record, &expected) {
                self.different += 1;
                println!("a tile of a solved farm is 22\n{}", line::write("unequal", "", &tile, &expected));
            }
        }
        Ok(())
    }

    /// The call again, on its sheet turned round: its effects must be those that are expected on the sheet as it was.
    fn check_turned(&mut self, call: Call, expected: &[Effect]) -> Result<(), String> {
        // By its own numbers, so that the calls of a seed are those that they were.
        let seed = self.seed.wrapping_mul(0xA24B_AED4_963E_E407).wrapping_add(self.cases);
        let Some(turned) = turned::of_call(&call, seed) else {
            return Ok(());
        };
        self.turned.count(&call, &turned, expected);
        let came = turned.made();
        if difference_turned(expected, &came).is_some() {
            self.different += 1;
            return self.show_turned(call, seed);
        }
        if Random::new(!seed).chance(turned::ASKED) && difference(&expected::effects(&turned)?, &came).is_some() {
            self.different += 1;
            self.show(turned)?;
        }
        Ok(())
    }

    /// A difference in its smallest form, as the line that `replay` reads: with the answer that is expected.
    fn show(&mut self, call: Call) -> Result<(), String> {
        let shown = self.shown.entry(("", call.function())).or_default();
        if shown.len() >= SHOWN {
            return Ok(());
        }
        let call = shrink::smallest(call, shrink::differs);
        let expected = expected::effects(&call)?;
        let line = line::write("difference", "", &call, &expected);
        if !shown.contains(&line) {
            let what = difference(&expected, &call.made()).unwrap_or_default();
            println!("different, {}: {what}\n{line}", call.function());
            shown.push(line);
        }
        Ok(())
    }

    /// A difference on a turned sheet: the line of the call as it was, then that of the turned one, as the vectors have such pairs.
    fn show_turned(&mut self, call: Call, seed: u64) -> Result<(), String> {
        let shown = self.shown.entry((RULE, call.function())).or_default();
        if shown.len() >= SHOWN {
            return Ok(());
        }
        let (call, turned) = turned::smallest(call, seed).ok_or("a difference on a turned sheet came once and not again")?;
        let expected = expected::effects(&call)?;
        let lines = [
            line::write("difference", "", &call, &expected),
            line::write("difference-turned", RULE, &turned, &expected::effects(&turned)?),
        ]
        .join("\n");
        if !shown.contains(&lines) {
            let what = difference_turned(&expected, &turned.made()).unwrap_or_default();
            println!("different, {} on a turned sheet: {what}\n{lines}", call.function());
            shown.push(lines);
        }
        Ok(())
    }

    fn report(&self, seconds: f64) {
        println!("\n| input | function | cases | accepted | refused, by number |");
        println!("|---|---|---|---|---|");
        for ((kind, function), tally) in &self.tallies {
            let refused: Vec<String> = tally.refused.iter().map(|(number, times)| format!("{number}: {times}")).collect();
            println!("| {kind} | {function} | {} | {} | {} |", tally.cases, tally.accepted, refused.join(", "));
        }
        self.turned.report();
        let [turned, exchanged] = self.turned.calls();
        println!("\n{} cases, {} different, {seconds:.0} s of CPU time", self.cases, self.different);
        println!("{turned} of them once more on a turned sheet, {exchanged} with sides exchanged");
        self.strips.report();
        self.tiles.report();
    }
}
