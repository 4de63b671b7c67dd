//! The one error of the package.

use crate::limit::{side, Limit};
use std::error::Error;
use std::fmt;

/// Why a call was turned away: the number and the two places, by the scope paper's table or by the change request that added the number.
/// Both `Display` and `Debug` print the number, the places and a sentence that says what is wrong and what to do.
///
/// A place is 0 where the number names none. Sides, curves and seams are numbered bottom 0, right 1, top 2, left 3.
///
/// ```
/// let refusal = juplatsk::solve_counts(&[], &[4.0, -1.0]).unwrap_err();
/// assert_eq!((refusal.number, refusal.first, refusal.second), (2, 1, 0));
/// assert_eq!(
///     refusal.to_string(),
///     "refusal 2 at edge 1: its ideal count, or an end of its range, is not finite or not above 0; give finite numbers above 0"
/// );
/// ```
///
/// Number 1 says which limit is exceeded:
///
/// ```
/// let refusal = juplatsk::solve_counts(&[], &[1.0; 300]).unwrap_err();
/// let limit = refusal.limit.unwrap();
/// assert_eq!((refusal.number, limit.given, limit.most), (1, 300, 256));
/// assert!(refusal.to_string().starts_with("refusal 1: there are 300 edges (ideals, ranges or counts), and 256 is the most; "));
/// ```
///
/// It turns into a `String`, so that `?` works in a function that answers `Result<_, String>`:
///
/// ```
/// fn pieces(length: f64) -> Result<usize, String> {
///     let counts = juplatsk::solve_counts(&[], &[length])?;
///     Ok(counts[0])
/// }
/// assert_eq!(pieces(3.2), Ok(3));
/// assert!(pieces(f64::NAN).is_err());
/// ```
#[derive(Clone, Copy, PartialEq, Eq, Hash)]
#[non_exhaustive]
pub struct Refusal {
    /// 1 to 28, by the table; 35: a range whose least is above its most; 101: the versions of the archive and of the package do not fit, and the
    /// archive was not called.
    pub number: u32,
    /// The first place: a region, an edge, a curve, a corner, a seam, a pair, a side or a column, as the number has it. Of 101: the version
    /// of the archive, 10,000 times its first part, 100 times its second and its third.
    pub first: u32,
    /// The second place: a side, an index or a row. Of 101: the version of the package.
    pub second: u32,
    /// Of number 1: the limit that is exceeded. None for all others.
    pub limit: Option<Limit>,
}

pub(crate) const MALFORMED: u32 = 1;
pub(crate) const BAD_LOOP: u32 = 12;
pub(crate) const BAD_VERSION: u32 = 101;

impl Refusal {
    pub(crate) fn new(number: u32, first: u32, second: u32) -> Refusal {
        Refusal { number, first, second, limit: None }
    }

    pub(crate) fn unless_accepted(number: u32, first: u32, second: u32) -> Result<(), Refusal> {
        match number {
            0 => Ok(()),
            _ => Err(Refusal::new(number, first, second)),
        }
    }

    /// The places that the number names, as they stand behind it.
    fn places(&self) -> String {
        let (first, second) = (self.first, self.second);
        match self.number {
            2 | 6 | 9 | 35 => format!(" at edge {first}"),
            3 | 4 => format!(" at region {first}, side {second} ({})", side(second)),
            5 => {
                let opposite = second.saturating_add(2);
                format!(" at region {first}, sides {second} and {opposite} ({} and {})", side(second), side(opposite))
            }
            13..=15 => format!(" at curve {first} ({})", side(first)),
            16 => format!(" at corner {first} ({})", corner(first)),
            18 | 21 => format!(" at seam {first} ({})", side(first)),
            19 | 20 => format!(" at seam {first} ({}), value {second}", side(first)),
            22 => format!(" at pair {first} ({})", pair(first)),
            23..=25 => format!(" at column {first}, row {second}"),
            27 => format!(" at side {first} ({})", side(first)),
            BAD_VERSION => format!(" (archive {}, package {})", parts(first), parts(second)),
            _ => String::new(),
        }
    }

    /// What is wrong, and what to do.
    fn sentence(&self) -> &'static str {
        match self.number {
            1 => "a limit is exceeded; give less",
            2 => "its ideal count, or an end of its range, is not finite or not above 0; give finite numbers above 0",
            3 => "an edge number is not below the number of edges; number them from 0 up, and give an ideal or a range for each (to lay_region a count)",
            4 => "an edge is listed twice on this side; list it once",
            5 => "an edge lies on both of these opposite sides; give each side edges of its own",
            6 => "it lies on more than two sides; an edge borders two tiles at most, so give the others edges of their own",
            7 => "a further move was found after 200,000 moves; lower the ideals or leasts, or make rounds from counts of your own",
            8 => "there are not as many counts as ideals or ranges; give one of each for every edge",
            9 => "its count is above 1,000,000; lower it, and the opposite side with it",
            10 => "the search limit is above 100,000; state 0 to 100,000",
            11 => "the output is too short; lend more",
            12 => LOOP,
            13 => "the curve has fewer than two points; give at least its two ends",
            14 => "a point of the curve is not finite; mend it or leave it out",
            15 => BAD_LENGTH,
            16 => "the curves do not meet there; let each curve begin at the point where the one before it ends",
            17 => CLOCKWISE,
            18 => SEAM_SHORT,
            19 => "the value is not from 0 to 1; mend the seam, or in lay_region the side's breaks",
            20 => "the value is below the one before it; mend the seam, or in lay_region the side's breaks",
            21 => SEAM_ENDS,
            22 => "the opposite seams are not equally long; give both equally many values (to lay_region counts of a solve of this region)",
            23 => "the two grid lines there are parallel; make the seams of opposite sides more alike",
            24 => "the two grid lines there cross outside the tile; make the seams of opposite sides more alike",
            25 => BAD_AREA,
            26 => "n_u or n_v is 0; give 1 or more",
            27 => BAD_BREAKS,
            28 => "a NaN or a number below 0 has no root; give a number from 0 up",
            35 => "the least of its range is above the most; change their places",
            BAD_VERSION => "the versions of archive and package do not fit; link the archive that was made with this package",
            _ => "turned away",
        }
    }
}

const LOOP: &str = "the loop has neither 4 points nor 8 or more in fours, where a last point equal to the first does not count from 5 points up; \
                    give its four corners, or four curves of equally many points with each corner twice, and the first point once more if the \
                    loop ends just there";
const BAD_LENGTH: &str =
    "the curve's length, as it is worked out, is 0 or not finite; give at least two points that differ, neither too near nor \
                          too far for the square of their distance";
const CLOCKWISE: &str =
    "the area of the corners, as it is worked out, is at or below 0; if they run clockwise, turn their order round; far from \
                         the origin, move it near the tile";
const SEAM_SHORT: &str = "the seam has fewer than two values; give it 0 and 1 at least (to lay_region a side whose counts add up to 1 or \
                          more, or no edges on it and on the opposite side)";
const SEAM_ENDS: &str =
    "the seam does not start at 0 or does not end at 1; to lay_region give breaks from 0 to 1, and where the side's first edge \
                         has count 0, solve again with a range from 1 for it";
const BAD_AREA: &str =
    "the quad's area, as it is worked out, is not finite or not above 0; let no two seam values (or breaks) in a row be equal, \
                        straighten the curves, or, far from the origin, move it near the tile";
const BAD_BREAKS: &str = "the side's breaks are not one more than its edges; give where each edge begins, and 1 as the last (only two \
                          opposite sides that both have no edges take any)";

/// The answer; a refusal by number 1 names the limit that is exceeded.
pub(crate) fn naming<T>(exceeded: impl FnOnce() -> Option<Limit>, answer: Result<T, Refusal>) -> Result<T, Refusal> {
    answer.map_err(|refusal| match refusal.number {
        MALFORMED => Refusal { limit: exceeded(), ..refusal },
        _ => refusal,
    })
}

/// 3 is never answered: there the left curve's first point is held against itself.
fn corner(number: u32) -> &'static str {
    match number {
        0 => "lower right",
        1 => "upper right",
        2 => "upper left",
        _ => "lower left",
    }
}

/// A version as it is written.
fn parts(version: u32) -> String {
    format!("{}.{}.{}", version / 10_000, version / 100 % 100, version % 100)
}

fn pair(number: u32) -> &'static str {
    match number {
        0 => "bottom and top",
        _ => "left and right",
    }
}

impl fmt::Display for Refusal {
    fn fmt(&self, f: &mut fmt::Formatter<'_>) -> fmt::Result {
        write!(f, "refusal {}{}: ", self.number, self.places())?;
        match self.limit {
            Some(limit) => write!(f, "{limit}; {}", limit.of.remedy()),
            None => f.write_str(self.sentence()),
        }
    }
}

/// As `Display`: it is what an `unwrap` shows.
impl fmt::Debug for Refusal {
    fn fmt(&self, f: &mut fmt::Formatter<'_>) -> fmt::Result {
        fmt::Display::fmt(self, f)
    }
}

impl Error for Refusal {}

impl From<Refusal> for String {
    fn from(refusal: Refusal) -> String {
        refusal.to_string()
    }
}
