//! A long solve made by hand: round after round, with a line of progress now and then, and a way to stop.
//!
//!     cargo run --release --example rounds [ROWS [TILES [SECONDS [LIMIT]]]]
//!
//! The farm is a wall of bricks: ROWS rows of TILES tiles, each row shifted by half a tile against the one below, and 4 rows of 6 if nothing is said.
//! It stops when a round finds no move, or after SECONDS, 10 if nothing is said, and could as well stop when somebody presses a key: whenever it
//! does, opposite sides of every tile add up to the same, since they did at the start and every round keeps that. LIMIT is how many expansions each
//! search may make, 0 to 100,000; if it is left out, none is stated, and it is 10,000. The rounds make the moves that `solve` with the same
//! limit makes; as each searches anew, they may take longer.

use juplatsk::{constraints_hold, energy, round, Refusal, Region, SearchLimit};
use std::env;
use std::process::ExitCode;
use std::time::{Duration, Instant};

/// The edges of the wall: level ones of half a tile on the lines between the rows, from the lowest, then upright ones row by row.
struct Wall {
    rows: usize,
    tiles: usize,
}

impl Wall {
    /// Half tiles along a line: a row has two for each tile, and the shifted rows stick out by one.
    fn halves(&self) -> usize {
        2 * self.tiles + 1
    }

    fn upright(&self, row: usize, number: usize) -> usize {
        (self.rows + 1) * self.halves() + row * (self.tiles + 1) + number
    }

    fn edges(&self) -> usize {
        self.upright(self.rows, 0)
    }

    fn tile(&self, row: usize, number: usize) -> Region {
        let first = 2 * number + row % 2;
        let level = |line: usize| vec![line * self.halves() + first, line * self.halves() + first + 1];
        Region::new([level(row), vec![self.upright(row, number + 1)], level(row + 1), vec![self.upright(row, number)]])
    }

    fn regions(&self) -> Vec<Region> {
        (0..self.rows).flat_map(|row| (0..self.tiles).map(move |number| self.tile(row, number))).collect()
    }

    /// From 2 to 9 pieces.
    fn ideals(&self) -> Vec<f64> {
        (0..self.edges()).map(|edge| 2.0 + (edge * 37 % 71) as f64 / 10.0).collect()
    }
}

fn solve_by_rounds(wall: &Wall, time: Duration, limit: SearchLimit) -> Result<(), Refusal> {
    let (regions, ideals) = (wall.regions(), wall.ideals());
    let mut counts = vec![0; wall.edges()];
    let (start, mut moves, mut told) = (Instant::now(), 0, Duration::ZERO);
    let end = loop {
        let made = round(&regions, &ideals, &mut counts, limit)?;
        let run = start.elapsed();
        if made.cost.is_none() {
            break if made.cut { "no move found, but a search was cut: there may be one" } else { "no move is left" };
        }
        moves += 1;
        if run >= time {
            break "stopped";
        }
        if run >= told + Duration::from_secs(1) {
            told = run;
            println!("{moves} moves in {} s, energy {:.3}", run.as_secs(), energy(&counts, &ideals)?);
        }
    };
    println!("{end}: {moves} moves in {:.1} s, energy {:.3}", start.elapsed().as_secs_f64(), energy(&counts, &ideals)?);
    println!("opposite sides agree: {}", constraints_hold(&regions, &counts)?);
    let empty = counts.iter().filter(|&&count| count == 0).count();
    println!("{empty} of {} edges have no piece", counts.len());
    Ok(())
}

fn main() -> ExitCode {
    let words: Vec<String> = env::args().skip(1).collect();
    let number = |at: usize| words.get(at).map(|word| word.parse::<u32>()).transpose();
    let (Ok(rows), Ok(tiles), Ok(seconds), Ok(limit)) = (number(0), number(1), number(2), number(3)) else {
        eprintln!("rounds: ROWS, TILES, SECONDS and LIMIT are whole numbers");
        return ExitCode::FAILURE;
    };
    let wall = Wall { rows: rows.unwrap_or(4) as usize, tiles: tiles.unwrap_or(6) as usize };
    let time = Duration::from_secs(seconds.unwrap_or(10).into());
    let limit = limit.map_or(SearchLimit::Default, |limit| SearchLimit::Expansions(limit as usize));
    match solve_by_rounds(&wall, time, limit) {
        Ok(()) => ExitCode::SUCCESS,
        Err(refusal) => {
            eprintln!("rounds: {refusal}");
            ExitCode::FAILURE
        }
    }
}
