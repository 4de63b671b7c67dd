//! The same call on a sheet turned round (02, item 13), and what it must do: all that it did on the sheet as it was.
//!
//! Of lists that are not accepted 02 says nothing, but 01's order of tests does: 3 to 5 are tested by region and pair of sides, and a pair
//! has such a fault whichever way round it stands. So the refusal may be another of the three, on the other side, in the same region and
//! pair; any other refusal keeps its number and places. `constraints_hold` has the same answer on any list.

use super::call::{self, Call, Effect};
use super::line;
use super::random::Random;
use crate::limits::RECORD;
use crate::turned::{exchanged, scribbled, turned};

/// What the vectors say of a case that is the one before it on a turned sheet.
pub const RULE: &str = "turned sheet";

/// The call with pairs of sides exchanged at random; none if it has no region.
pub fn turned_call(call: &Call, random: &mut Random) -> Option<Call> {
    on_regions(call, |regions| turned(regions, |_| [random.chance(2), random.chance(2)]))
}

/// The call with other values where nothing is read: numbers that edges may have, and any.
pub fn scribbled_call(call: &Call, random: &mut Random) -> Option<Call> {
    let mut value = || if random.chance(2) { random.below(8) as u16 } else { random.bits() as u16 };
    on_regions(call, |regions| scribbled(regions, &mut value))
}

/// The call on its regions changed; none if it has no whole record.
fn on_regions(call: &Call, change: impl FnOnce(&[u16]) -> Vec<u16>) -> Option<Call> {
    let mut changed = call.clone();
    let regions = changed.regions().filter(|regions| regions.len() >= RECORD)?;
    *regions = change(regions);
    Some(changed)
}

/// What differs between the effects on the sheet as it was and those on the turned one; none if nothing does.
pub fn difference(as_it_was: &[Effect], on_turned: &[Effect]) -> Option<String> {
    call::difference(&by_pairs(as_it_was), &by_pairs(on_turned))
}

/// The effects with 3, 4 and 5 made one refusal, of a region and a pair of sides.
fn by_pairs(effects: &[Effect]) -> Vec<Effect> {
    let by_pair = |effect: &Effect| match (effect.refusal, effect.places) {
        (3..=5, [region, side]) => Effect { refusal: 3, places: [region, side % 2], ..effect.clone() },
        _ => effect.clone(),
    };
    effects.iter().map(by_pair).collect()
}

/// In how many pairs of sides the second call has the regions of the first the other way round; none if it has not the first one's turned.
pub fn exchanged_pairs(as_it_was: &Call, on_turned: &Call) -> Option<usize> {
    exchanged(as_it_was.clone().regions()?, on_turned.clone().regions()?)
}

/// Whether the second case is the first one on a turned sheet: as many pairs of sides are exchanged; or what is otherwise.
pub fn held(as_it_was: &(Call, Vec<Effect>), on_turned: &(Call, Vec<Effect>)) -> Result<usize, String> {
    let input = |(call, _): &(Call, Vec<Effect>)| on_regions(call, |_| Vec::new()).map(|call| line::write("", "", &call, &[]));
    match (input(as_it_was), input(on_turned)) {
        (Some(before), Some(after)) if before == after => {}
        _ => return Err("besides the regions, the input is not that of the case before".to_string()),
    }
    let pairs = exchanged_pairs(&as_it_was.0, &on_turned.0).ok_or("the regions are not those of the case before, turned")?;
    match difference(&as_it_was.1, &on_turned.1) {
        None => Ok(pairs),
        Some(what) => Err(format!("the answer is not that of the case before: {what}")),
    }
}
