//! Two builds of this library side by side: each is a shared object that is loaded at run time, so both are in one process. The same
//! rounds and solves by both in turn, with equal results.

use super::clock::{race, Effort, Pair};
use super::farms::Farm;
use super::speed::{free_edges, made, seconds, Made, LARGEST};
use super::speed_ranges::{same, solve, Solved};
use crate::limits::{SEARCH, SIDE, SIDE_EDGES};
use std::ffi::{c_char, c_int, c_void, CStr, CString};
use std::fs;
use std::mem::transmute;
use std::os::unix::ffi::OsStrExt;

extern "C" {
    fn dlopen(path: *const c_char, mode: c_int) -> *mut c_void;
    fn dlsym(object: *mut c_void, name: *const c_char) -> *mut c_void;
    fn dlerror() -> *const c_char;
}

/// RTLD_NOW | RTLD_LOCAL: all names are bound at once, and none of one object to another's.
const MODE: c_int = 2;

type VersionFn = unsafe extern "C" fn() -> u32;
type RoundFn = unsafe extern "C" fn(*const u16, usize, *const f64, usize, *mut u32, usize, bool, u32, *mut [u32; 4], *mut [f64; 1]) -> u32;
type SolveFn = unsafe extern "C" fn(*const u16, usize, *const f64, usize, *mut u32, usize, bool, u32, *mut [u32; 3]) -> u32;
type FormerRoundFn = unsafe extern "C" fn(*const u16, usize, *const f64, usize, *mut u32, usize, u32, *mut [u32; 4], *mut [f64; 1]) -> u32;
type FormerSolveFn = unsafe extern "C" fn(*const u16, usize, *const f64, usize, *mut u32, usize, *mut [u32; 3]) -> u32;

/// From this version on, 0.3.0, a side of a record has as many places as here; before it had 16.
const MORE_PLACES: u32 = 300;

/// From this version on, 0.4.0, rounds and solves take a limit that may be left out; before, a round's was always stated, and a solve
/// searched with 100,000.
const LIMIT_MAY_BE_STATED: u32 = 400;

/// Ratios near 1 are looked at, so there are more turns than where both are far apart.
pub const EFFORT: Effort = Effort { turn: 0.02, seconds: 2.0, turns: 5 };

/// A loaded build. Its object is never closed, so its functions stay where they are.
pub struct Build {
    name: String,
    version: u32,
    functions: Functions,
}

/// The functions of a build, by the types of its version.
enum Functions {
    Former { round: FormerRoundFn, solve_counts: FormerSolveFn },
    Now { round: RoundFn, solve_counts: SolveFn },
}

impl Build {
    /// # Safety
    /// The file is a build of this library: its functions take and do what rust/src/archive.rs says, in the record and with the limits of
    /// their version.
    pub unsafe fn load(name: &str) -> Result<Build, String> {
        // SAFETY: by this function's condition; the object is never closed, and what has these names are functions of these types, the
        // last two by the version. The first one takes nothing.
        unsafe {
            let object = open(name)?;
            let version = transmute::<*mut c_void, VersionFn>(found(object, name, c"juplatsk_version")?)();
            let (round, solve_counts) = (found(object, name, c"juplatsk_round")?, found(object, name, c"juplatsk_solve_counts")?);
            let functions = if version < LIMIT_MAY_BE_STATED {
                Functions::Former {
                    round: transmute::<*mut c_void, FormerRoundFn>(round),
                    solve_counts: transmute::<*mut c_void, FormerSolveFn>(solve_counts),
                }
            } else {
                Functions::Now {
                    round: transmute::<*mut c_void, RoundFn>(round),
                    solve_counts: transmute::<*mut c_void, SolveFn>(solve_counts),
                }
            };
            Ok(Build { name: name.to_string(), version, functions })
        }
    }

    fn places(&self) -> usize {
        if self.version < MORE_PLACES {
            16
        } else {
            SIDE_EDGES
        }
    }

    /// The farm's records as this build reads them; none where a side has more edges than places.
    fn records(&self, farm: &Farm) -> Option<Vec<u16>> {
        let places = self.places();
        let mut records = Vec::new();
        for side in farm.records.chunks_exact(SIDE) {
            if usize::from(side[0]) > places {
                return None;
            }
            records.extend(&side[..=places]);
        }
        Some(records)
    }

    /// A round with limit 100,000.
    fn round(&self, farm: &Farm, records: &[u16]) -> Result<Made, String> {
        let (regions, many) = (records.as_ptr(), records.len());
        let (ideals, edges) = (farm.ideals.as_ptr(), farm.ideals.len());
        made(farm, |counts, answer, cost| {
            let (lent, length) = (counts.as_mut_ptr(), counts.len());
            // SAFETY: each pointer is that of a slice or array, with its length, and what is written is lent by `&mut` alone.
            unsafe {
                match self.functions {
                    Functions::Former { round, .. } => round(regions, many, ideals, edges, lent, length, SEARCH, answer, cost),
                    Functions::Now { round, .. } => round(regions, many, ideals, edges, lent, length, true, SEARCH, answer, cost),
                }
            }
        })
    }

    /// A solve by that limit, which the former ones had without saying it.
    fn solve(&self, farm: &Farm, records: &[u16]) -> Solved {
        let (regions, many) = (records.as_ptr(), records.len());
        let (ideals, edges) = (farm.ideals.as_ptr(), farm.ideals.len());
        solve(farm, |counts, answer| {
            let (lent, length) = (counts.as_mut_ptr(), counts.len());
            // SAFETY: as for a round.
            unsafe {
                match self.functions {
                    Functions::Former { solve_counts, .. } => solve_counts(regions, many, ideals, edges, lent, length, answer),
                    Functions::Now { solve_counts, .. } => solve_counts(regions, many, ideals, edges, lent, length, true, SEARCH, answer),
                }
            }
        })
    }

    fn told(&self) -> String {
        let version = self.version;
        let parts = [version / 10_000, version / 100 % 100, version % 100].map(|part| part.to_string()).join(".");
        format!("{}, version {parts}, {} places a side", self.name, self.places())
    }
}

/// Loads an object. A name without a slash would be looked for in the system's folders, so the whole path is given.
///
/// # Safety
/// What the object runs when it is loaded does no harm. A build of this library runs nothing of its own.
pub unsafe fn open(name: &str) -> Result<*mut c_void, String> {
    let told = |problem: String| format!("{name}: {problem}");
    let path = fs::canonicalize(name).map_err(|e| told(e.to_string()))?;
    let path = CString::new(path.as_os_str().as_bytes()).map_err(|e| told(e.to_string()))?;
    // SAFETY: the path ends with its zero; the rest is this function's condition.
    let object = unsafe { dlopen(path.as_ptr(), MODE) };
    if object.is_null() {
        return Err(problem(name));
    }
    Ok(object)
}

/// The place of a function in an object.
///
/// # Safety
/// The object was opened and never closed.
pub unsafe fn found(object: *mut c_void, name: &str, function: &CStr) -> Result<*mut c_void, String> {
    // SAFETY: the object is open, and the name ends with its zero.
    let place = unsafe { dlsym(object, function.as_ptr()) };
    if place.is_null() {
        return Err(problem(name));
    }
    Ok(place)
}

/// What the loader says of its last failure; it names the file itself.
fn problem(name: &str) -> String {
    // SAFETY: it takes nothing.
    let text = unsafe { dlerror() };
    if text.is_null() {
        return format!("{name}: the loader does not say why it fails");
    }
    // SAFETY: the text ends with its zero and stays until the next call of the loader; it is copied before that.
    unsafe { CStr::from_ptr(text) }.to_string_lossy().into_owned()
}

/// A farm with its records as each build reads them.
struct Row<'a> {
    farm: &'a Farm,
    old: Vec<u16>,
    new: Vec<u16>,
}

/// The tables of rounds and of solves, and the mean of each.
pub fn tables(old: &Build, new: &Build, farms: &[Farm]) -> Result<(), String> {
    println!("Old: {}.\nNew: {}.", old.told(), new.told());
    let free = free_edges();
    let both = rows(old, new, farms.iter());
    let short = both.iter().filter(|row| row.farm.entries <= LARGEST);
    println!("\nOne round with limit {SEARCH}, on counts from the middle of the farm's solve.\n");
    let rounds = table(both.iter(), |row| race(EFFORT, || old.round(row.farm, &row.old), || new.round(row.farm, &row.new), same))?;
    println!("\nA whole solve with limit {SEARCH}, of those with at most {LARGEST} entries.\n");
    let solves = table(short.chain(&rows(old, new, [&free])), |row| {
        race(EFFORT, || old.solve(row.farm, &row.old), || new.solve(row.farm, &row.new), same)
    })?;
    println!("\nGeometric mean of old / new: rounds {:.3}, solves {:.3}.", mean(&rounds), mean(&solves));
    Ok(())
}

/// The farms that both builds can be given; the others are named.
fn rows<'a>(old: &Build, new: &Build, farms: impl IntoIterator<Item = &'a Farm>) -> Vec<Row<'a>> {
    let row = |farm: &'a Farm| match (old.records(farm), new.records(farm)) {
        (Some(old), Some(new)) => Some(Row { farm, old, new }),
        _ => {
            println!("Left out, for a side has more than {} edges: {}.", old.places().min(new.places()), farm.name);
            None
        }
    };
    farms.into_iter().filter_map(row).collect()
}

/// A line for each farm; the ratios.
fn table<'a>(rows: impl Iterator<Item = &'a Row<'a>>, race: impl Fn(&Row) -> Result<Pair, String>) -> Result<Vec<f64>, String> {
    println!("| farm | old | new | old / new |");
    println!("|---|---|---|---|");
    let line = |row: &Row| {
        let pair = race(row).map_err(|problem| format!("{}: {problem}", row.farm.name))?;
        println!("| {} | {} | {} | **{:.3}** |", row.farm.name, seconds(pair.rust), seconds(pair.here), pair.ratio());
        Ok(pair.ratio())
    };
    rows.map(line).collect()
}

pub fn mean(ratios: &[f64]) -> f64 {
    (ratios.iter().map(|ratio| ratio.ln()).sum::<f64>() / ratios.len() as f64).exp()
}
