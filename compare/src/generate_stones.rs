//! Cases of curves that end on their stones (02, item 12), where a blend of two points would miss them or lose a zero's sign: in all
//! functions of grids. The answers are the oracle's.

use crate::dice::Dice;
use crate::generate::{expected, Cases};
use crate::generate_geometry::Input;
use crate::geometry::Flat;
use crate::refusal::Refusal;

pub fn all() -> Cases {
    Ok([everywhere()?, far_away()?, one_curve()?, seams()?].concat())
}

type Point = [f64; 2];

/// How a curve comes to a corner.
#[derive(Clone, Copy, Debug, PartialEq)]
pub enum End {
    Plain,
    /// The stone twice.
    Twice,
    /// Zeros are -0.
    MinusZero,
    /// The stone is 2^-600 beside the point before it: the square of this is 0, so the segment has no length.
    NoLength,
    /// The next numbers in both coordinates.
    Neighbour,
    /// Within the allowance of 16.
    Allowed,
    /// Not within it.
    Apart,
    /// From so far away that the blend misses the stone by more than the allowance.
    FromAfar,
    /// 2e-9 past the corner, after a way so long that its length does not grow by that: the blend ends at the corner.
    Absorbed,
}

pub const ENDS: [End; 9] =
    [End::Plain, End::Twice, End::MinusZero, End::NoLength, End::Neighbour, End::Allowed, End::Apart, End::FromAfar, End::Absorbed];

/// 2^25, where neighbouring numbers are 2^-27, about 7e-9, apart.
const FAR: f64 = 33_554_432.0;

impl End {
    /// From the stone on into the curve.
    fn points(self, corner: Point) -> Vec<Point> {
        let zeros = |other: f64| corner.map(|x| if x == 0.0 { other } else { x });
        let [x, y] = corner;
        match self {
            End::Plain => vec![corner],
            End::Twice => vec![corner; 2],
            End::MinusZero => vec![zeros(-0.0)],
            End::NoLength => vec![zeros(2f64.powi(-600)), corner],
            End::Neighbour => vec![corner.map(f64::next_up)],
            End::Allowed => vec![[x + 0.9e-9, y - 0.9e-9]],
            End::Apart => vec![[x + 1.1e-9, y]],
            End::FromAfar => vec![corner, [FAR; 2]],
            End::Absorbed => vec![[x + 2e-9, y], corner, [FAR, y]],
        }
    }
}

/// Corners with zeros; between two of them a blend is exact. The allowance of 16 is 1e-9.
pub const ZEROS: [Point; 4] = [[0.0, -0.4], [0.4, 0.0], [0.0, 0.4], [-0.4, 0.0]];
/// The blend of two of them misses the second, on each side, by a bit or two.
pub const MISSED: [Point; 4] = [[0.1, 0.7], [0.3, -0.2], [0.9, -0.2], [0.8, 0.6]];

/// The four curves of a tile. Of each corner: how the curve before it ends there, and how the next one begins.
pub fn curves(corners: [Point; 4], ends: [[End; 2]; 4]) -> [Flat; 4] {
    std::array::from_fn(|side| {
        let next = (side + 1) % 4;
        let mut last = ends[next][0].points(corners[next]);
        last.reverse();
        [ends[side][1].points(corners[side]), last].concat().concat()
    })
}

fn tile(corners: [Point; 4], ends: [[End; 2]; 4]) -> Input {
    let mut input = Input::good();
    input.curves = curves(corners, ends);
    input
}

/// Every function.
fn functions(input: Input) -> Cases {
    let mut cases = input.clone().everywhere()?;
    cases.push(input.lay()?);
    Ok(cases)
}

/// The same at all corners.
fn everywhere() -> Cases {
    let mut cases = functions(tile(MISSED, [[End::Plain; 2]; 4]))?;
    for end in ENDS.into_iter().filter(|&end| end != End::Plain) {
        cases.extend(functions(tile(ZEROS, [[end, End::Plain]; 4]))?);
    }
    for end in [End::Twice, End::MinusZero, End::NoLength, End::Neighbour] {
        cases.extend(functions(tile(ZEROS, [[End::Plain, end]; 4]))?);
    }
    cases.extend(functions(tile(ZEROS, [[End::MinusZero; 2]; 4]))?);
    Ok(cases)
}

/// Curves that come back from far away: one ends where the next begins, and was refused; one ends beside it, and was not.
fn far_away() -> Cases {
    let mut back = tile([[-0.9, 0.0], [0.1, 0.0], [0.1, 1.0], [-0.9, 1.0]], [[End::Plain; 2]; 4]);
    back.curves[1] = vec![0.1, 0.0, FAR, 0.5, 0.1, 1.0];
    let mut past = tile([[0.0, 0.0], [1.0, 0.0], [1.0, 1.0], [0.0, 1.0]], [[End::Plain; 2]; 4]);
    past.curves[0] = vec![0.0, 0.0, FAR, 0.0, 1.0, 0.0, 1.0 + 2e-9, 0.0];
    let mut cases = back.clone().on_curves()?;
    cases.push(back.lay()?);
    for case in past.clone().on_curves()?.into_iter().chain([past.lay()?]) {
        cases.push(expected(case, Refusal { number: 16, first: 0, second: 0 })?);
    }
    Ok(cases)
}

/// One curve alone from far away, past its corner and with no length at its end, by one function each.
fn one_curve() -> Cases {
    let mut cases = Vec::new();
    let run = [Input::coons_curves, Input::mesh_tile_curves, Input::lay, Input::coons_from_parameters];
    for (kind, end) in (0..).zip([End::FromAfar, End::Absorbed, End::NoLength]) {
        for corner in 0..4 {
            let mut ends = [[End::Plain; 2]; 4];
            ends[corner][0] = end;
            cases.push(run[(corner + kind) % 4](tile(ZEROS, ends).cells(1, 1))?);
        }
    }
    Ok(cases)
}

/// Where a seam may begin and end: on the end of its curve also where it is a little past it, or so near that 1 minus it is 1.
pub const STARTS: [f64; 6] = [0.0, -0.0, -1e-9, -f64::from_bits(1), 1e-17, 1e-9];
pub const STOPS: [f64; 5] = [1.0, 1.0 + 0.9e-9, 1.0 + f64::EPSILON, 1.0 - f64::EPSILON / 2.0, 1.0 - 0.9e-9];

/// Seams with every start and stop on all sides, and with random ones.
fn seams() -> Cases {
    let mut dice = Dice(0x5EED_0404);
    let mut cases = Vec::new();
    let mut with = |ends: [(f64, f64); 4]| -> Result<(), String> {
        let mut input = tile(MISSED, [[End::Plain; 2]; 4]);
        for (seam, (start, stop)) in input.seams.iter_mut().zip(ends) {
            (seam[0], seam[2]) = (start, stop);
        }
        cases.push(input.clone().coons_from_parameters()?);
        cases.push(input.lay()?);
        Ok(())
    };
    for (start, stop) in STARTS.into_iter().zip(STOPS.into_iter().cycle()) {
        with([(start, stop); 4])?;
    }
    for _ in 0..4 {
        with(std::array::from_fn(|_| (dice.pick(&STARTS), dice.pick(&STOPS))))?;
    }
    Ok(cases)
}
