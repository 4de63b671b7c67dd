//! Refusals: 01's numbers and places for the error messages of the Rust.

use std::fmt;

/// A row of 01's table of refusals, with its two places (0 where none is named).
#[derive(Clone, Copy, Debug, PartialEq, Eq)]
pub struct Refusal {
    pub number: u32,
    pub first: u32,
    pub second: u32,
}

impl Refusal {
    /// One that names no place.
    pub fn plain(number: u32) -> Refusal {
        Refusal { number, first: 0, second: 0 }
    }
}

/// Why an operation has no good answer.
#[derive(Clone, Debug, PartialEq)]
pub enum Stop {
    /// The Rust refuses.
    Refused(Refusal),
    /// 01 refuses by this number, by a rule that the Rust does not have.
    Undecided(u32),
    /// The oracle itself is at fault, or the Rust said what 01 has no number for.
    Broken(String),
}

impl fmt::Display for Stop {
    fn fmt(&self, f: &mut fmt::Formatter<'_>) -> fmt::Result {
        match self {
            Stop::Refused(r) => write!(f, "refused {} {} {}", r.number, r.first, r.second),
            Stop::Undecided(number) => write!(f, "undecided {number}"),
            Stop::Broken(why) => write!(f, "{why}"),
        }
    }
}

pub fn refused(number: u32, first: u32, second: u32) -> Stop {
    Stop::Refused(Refusal { number, first, second })
}

/// A message that belongs to none of 01's rows.
pub fn unknown(message: &str) -> Stop {
    Stop::Broken(format!("the Rust refuses with a message that 01 has no number for: {message}"))
}

/// The first whole number of `message` behind `word`.
pub fn number_after(message: &str, word: &str) -> Result<u32, Stop> {
    let behind = message.split_once(word).map_or("", |(_, rest)| rest);
    let digits: String = behind.chars().skip_while(|c| !c.is_ascii_digit()).take_while(char::is_ascii_digit).collect();
    digits.parse().map_err(|_| unknown(message))
}

/// The refusal that a message of the solver stands for.
pub fn of_solver(message: &str) -> Stop {
    solver_refusal(message).unwrap_or_else(|stop| stop)
}

fn solver_refusal(message: &str) -> Result<Stop, Stop> {
    let after = |word| number_after(message, word);
    let says = |words| message.contains(words);
    Ok(if says("ideal subdivision count must be finite and positive") {
        refused(2, after("edge")?, 0)
    } else if says("is out of range") {
        refused(3, after("region")?, after("side")?)
    } else if says("is listed more than once") {
        refused(4, after("region")?, after("side")?)
    } else if says("lies on both sides of constraint") {
        refused(5, after("region")?, after("constraint")?)
    } else if says("region-side constraints") {
        refused(6, after("edge")?, 0)
    } else if says("augmentation limit") {
        refused(7, 0, 0)
    } else if message.starts_with("energy:") {
        refused(8, 0, 0)
    } else {
        return Err(unknown(message));
    })
}

/// The number of a curve that `ArcCurve::new` refuses.
pub fn of_curve(message: &str, curve: u32) -> Stop {
    if message.contains("needs at least two points") {
        refused(13, curve, 0)
    } else if message.contains("non-finite point") {
        refused(14, curve, 0)
    } else if message.contains("zero length") {
        refused(15, curve, 0)
    } else {
        unknown(message)
    }
}

/// The refusals of geometry whose message says all; those of curves and of crossings do not (geometry.rs finds their places).
pub fn of_geometry(message: &str) -> Stop {
    geometry_refusal(message).unwrap_or_else(|stop| stop)
}

fn geometry_refusal(message: &str) -> Result<Stop, Stop> {
    let after = |word| number_after(message, word);
    let says = |words| message.contains(words);
    Ok(if says("closed boundary loop must have") {
        refused(12, 0, 0)
    } else if says("not connected at corner") {
        refused(16, after("corner")?, 0)
    } else if says("must wind counter-clockwise") {
        refused(17, 0, 0)
    } else if says("parameter seam needs at least two values") {
        refused(18, seam(message)?, 0)
    } else if says("is outside [0, 1]") {
        refused(19, seam(message)?, after("parameter")?)
    } else if says("are not non-decreasing at index") {
        refused(20, seam(message)?, after("at index")?)
    } else if says("must start at 0 and end at 1") {
        refused(21, seam(message)?, 0)
    } else if message.starts_with("coons: bottom has") {
        refused(22, 0, 0)
    } else if message.starts_with("coons: left has") {
        refused(22, 1, 0)
    } else if message.starts_with("coons: quad (") {
        refused(25, after("quad (")?, after(",")?)
    } else if says("n_u and n_v must both be at least one") {
        refused(26, 0, 0)
    } else {
        return Err(unknown(message));
    })
}

/// The side whose seam a message names.
fn seam(message: &str) -> Result<u32, Stop> {
    let named = message.trim_start_matches("coons: ").trim_start_matches("the ");
    let sides = [("bottom", 0), ("right", 1), ("top", 2), ("left", 3)];
    sides.iter().find(|(name, _)| named.starts_with(name)).map(|(_, side)| *side).ok_or_else(|| unknown(message))
}
