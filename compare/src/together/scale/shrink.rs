//! The smallest form of a call that differs: as long as a simpler call differs too, that one is taken.

use crate::generate::PLACES;
use crate::lay;
use crate::limits::{RECORD, SIDE};
use crate::together::call::{difference, Call, Spacing};
use crate::together::expected;

/// Calls that are tried at most.
const TRIES: usize = 20_000;

/// Whether the oracle and this library differ on a call.
pub fn differs(call: &Call) -> bool {
    expected::effects(call).is_ok_and(|effects| difference(&effects, &call.made()).is_some())
}

/// A call with this property of which no simpler one has it.
pub fn smallest(call: Call, has: impl Fn(&Call) -> bool) -> Call {
    smaller(call, TRIES, has)
}

/// The same, but no more than so many calls are tried.
pub fn smaller(call: Call, tries: usize, has: impl Fn(&Call) -> bool) -> Call {
    let mut call = call;
    let mut left = tries;
    while left > 0 {
        let Some(next) = simpler(&call).take(left).inspect(|_| left -= 1).find(&has) else {
            break;
        };
        call = next;
    }
    call
}

/// Calls that are simpler in one place, the boldest first. Those of a kind are made when their turn comes: of many regions they are many.
fn simpler(call: &Call) -> impl Iterator<Item = Call> + '_ {
    let kinds = [rounds, shorter_breaks, regions, sides, places, edges, points, seams, breaks, sizes, values];
    kinds.into_iter().flat_map(move |kind: fn(&Call, &mut Vec<Call>)| {
        let mut found = Vec::new();
        kind(call, &mut found);
        found
    })
}

/// Parts of a list of this length that may be left out: halves, quarters, .. single ones.
fn parts(length: usize) -> Vec<std::ops::Range<usize>> {
    let mut found = Vec::new();
    let mut size = length;
    while size > 0 {
        found.extend((0..length).step_by(size).map(|start| start..(start + size).min(length)));
        size /= 2;
    }
    found
}

fn rounds(call: &Call, found: &mut Vec<Call>) {
    let Call::Rounds { regions, counts, steps } = call else {
        return;
    };
    for part in parts(steps.len()) {
        let mut steps = steps.clone();
        steps.drain(part);
        found.push(Call::Rounds { regions: regions.clone(), counts: counts.clone(), steps });
    }
    for step in steps {
        found.push(Call::Round { regions: regions.clone(), counts: counts.clone(), step: step.clone() });
    }
}

fn records(call: &mut Call) -> Option<&mut Vec<u16>> {
    match call {
        Call::Lay { record, .. } => Some(record),
        other => other.regions(),
    }
}

/// The call with its records changed.
fn with_records(call: &Call, change: impl FnOnce(&mut Vec<u16>)) -> Call {
    let mut changed = call.clone();
    if let Some(records) = records(&mut changed) {
        change(records);
    }
    changed
}

fn regions(call: &Call, found: &mut Vec<Call>) {
    let length = records(&mut call.clone()).map_or(0, |list| list.len());
    for part in parts(length / RECORD) {
        found.push(with_records(call, |list| drop(list.drain(part.start * RECORD..part.end * RECORD))));
    }
}

/// Fewer edges on a side, zeros in the places that are not read.
fn sides(call: &Call, found: &mut Vec<Call>) {
    let list = records(&mut call.clone()).cloned().unwrap_or_default();
    for start in (0..list.len() / SIDE).map(|side| side * SIDE) {
        let edges = usize::from(list[start]);
        for place in (1..=edges).filter(|_| edges < SIDE) {
            found.push(with_records(call, |list| {
                list[start..start + SIDE][place..].rotate_left(1);
                list[start] -= 1;
            }));
        }
        if edges < SIDE && list[start + 1 + edges..start + SIDE].iter().any(|&place| place != 0) {
            found.push(with_records(call, |list| list[start + 1 + edges..start + SIDE].fill(0)));
        }
    }
}

/// Lower numbers in the records.
fn places(call: &Call, found: &mut Vec<Call>) {
    let list = records(&mut call.clone()).cloned().unwrap_or_default();
    for index in (0..list.len()).filter(|&index| list[index] > 0) {
        for lower in [0, list[index] / 2, list[index] - 1] {
            found.push(with_records(call, |list| list[index] = lower));
        }
    }
}

fn spacing_lists(spacing: &mut Spacing) -> Vec<&mut Vec<f64>> {
    match spacing {
        Spacing::Ideals(ideals) => vec![ideals],
        Spacing::Within { least, most } => vec![least, most],
    }
}

/// Lists with a value for each edge.
fn edge_lists(call: &mut Call) -> (Vec<&mut Vec<u32>>, Vec<&mut Vec<f64>>) {
    match call {
        Call::Energy { counts, ideals } => (vec![counts], vec![ideals]),
        Call::Solve { counts, spacing, .. } => (vec![counts], spacing_lists(spacing)),
        Call::Round { counts, step, .. } => (vec![counts], spacing_lists(&mut step.spacing)),
        Call::Rounds { counts, steps, .. } => (vec![counts], steps.iter_mut().flat_map(|step| spacing_lists(&mut step.spacing)).collect()),
        Call::Hold { counts, .. } | Call::Lay { counts, .. } => (vec![counts], vec![]),
        _ => (vec![], vec![]),
    }
}

/// One edge less in all lists; the edges above it move down, and no side lists it any more.
fn edges(call: &Call, found: &mut Vec<Call>) {
    let mut copy = call.clone();
    let (counts, ideals) = edge_lists(&mut copy);
    let most = counts.iter().map(|list| list.len()).chain(ideals.iter().map(|list| list.len())).max().unwrap_or(0);
    for edge in (0..most).rev() {
        let mut fewer = with_records(call, |list| {
            for side in list.chunks_exact_mut(SIDE) {
                let edges = usize::from(side[0]).min(SIDE - 1);
                let kept: Vec<u16> = side[1..=edges].iter().copied().filter(|&other| usize::from(other) != edge).collect();
                side[0] = side[0] - edges as u16 + kept.len() as u16;
                for (place, &other) in side[1..].iter_mut().zip(&kept) {
                    *place = other - u16::from(usize::from(other) > edge);
                }
            }
        });
        let (counts, ideals) = edge_lists(&mut fewer);
        for list in counts.into_iter().filter(|list| edge < list.len()) {
            list.remove(edge);
        }
        for list in ideals.into_iter().filter(|list| edge < list.len()) {
            list.remove(edge);
        }
        found.push(fewer);
    }
    shorter_alone(call, found);
}

/// Lists of different lengths: each of them shorter alone.
fn shorter_alone(call: &Call, found: &mut Vec<Call>) {
    let mut copy = call.clone();
    let (of_counts, of_ideals) = edge_lists(&mut copy);
    for index in 0..of_counts.len() + of_ideals.len() {
        let mut fewer = call.clone();
        let (mut counts, mut ideals) = edge_lists(&mut fewer);
        let popped = match index.checked_sub(counts.len()) {
            None => counts[index].pop().is_some(),
            Some(index) => ideals[index].pop().is_some(),
        };
        if popped {
            found.push(fewer);
        }
    }
}

fn curves(call: &mut Call) -> Vec<&mut Vec<f64>> {
    match call {
        Call::FromParameters { curves, .. } | Call::Curves { curves, .. } | Call::Lay { curves, .. } | Call::MeshCurves { curves, .. } => {
            curves.iter_mut().collect()
        }
        Call::Checked { boundary, .. } | Call::Mesh { boundary, .. } => vec![boundary],
        _ => vec![],
    }
}

fn points(call: &Call, found: &mut Vec<Call>) {
    let lengths: Vec<usize> = curves(&mut call.clone()).iter().map(|curve| curve.len()).collect();
    for (index, length) in lengths.into_iter().enumerate() {
        for part in parts(length / 2) {
            let mut fewer = call.clone();
            drop(curves(&mut fewer)[index].drain(2 * part.start..2 * part.end));
            found.push(fewer);
        }
        let mut fewer = call.clone();
        if curves(&mut fewer)[index].pop().is_some() {
            found.push(fewer);
        }
    }
}

/// Seams lose values alone, or with the same values of the opposite seam.
fn seams(call: &Call, found: &mut Vec<Call>) {
    let Call::FromParameters { seams, .. } = call else {
        return;
    };
    for chosen in [vec![0, 2], vec![1, 3], vec![0], vec![1], vec![2], vec![3]] {
        let length = chosen.iter().map(|&side| seams[side].len()).min().unwrap_or(0);
        for part in parts(length) {
            let mut fewer = call.clone();
            if let Call::FromParameters { seams, .. } = &mut fewer {
                chosen.iter().for_each(|&side| drop(seams[side].drain(part.clone())));
            }
            found.push(fewer);
        }
    }
}

/// Longer lists of breaks only lose their ends, and are not made simpler value by value: there would be too many ways.
const LONG: usize = 2 * SIDE;

/// A side of lay has fewer breaks, from none on ever nearer to as many; and where they are not read, all at once are 0.
fn shorter_breaks(call: &Call, found: &mut Vec<Call>) {
    let Call::Lay { record, breaks, .. } = call else {
        return;
    };
    let unread = lay::unread(record);
    for side in 0..4 {
        let length = breaks[side].len();
        let mut with = |list: Vec<f64>| {
            let mut simpler = call.clone();
            if let Call::Lay { breaks, .. } = &mut simpler {
                breaks[side] = list;
            }
            found.push(simpler);
        };
        for less in std::iter::successors(Some(length), |less| Some(less / 2)).take_while(|&less| less > 0) {
            with(breaks[side][..length - less].to_vec());
        }
        if unread[side] && breaks[side].iter().any(|x| x.to_bits() != 0) {
            with(vec![0.0; length]);
        }
    }
}

/// A side of lay loses an edge and a break.
fn breaks(call: &Call, found: &mut Vec<Call>) {
    let Call::Lay { breaks, .. } = call else {
        return;
    };
    for side in (0..4).filter(|&side| breaks[side].len() <= LONG) {
        for place in 0..breaks[side].len() {
            let mut fewer = call.clone();
            if let Call::Lay { record, breaks, .. } = &mut fewer {
                breaks[side].remove(place);
                if let Some(edges @ [1..=PLACES, ..]) = record.get_mut(side * SIDE..(side + 1) * SIDE) {
                    edges[0] -= 1;
                    edges[(place + 1).min(SIDE - 1)..].rotate_left(1);
                }
            }
            found.push(fewer);
        }
    }
}

/// Cells, limits, lengths of output.
fn sizes(call: &Call, found: &mut Vec<Call>) {
    let lower = |n: u32| [0, 1, 2, n / 2, n.saturating_sub(1)].into_iter().filter(move |&m| m < n);
    for index in 0..2 {
        let mut copy = call.clone();
        let Some(n) = cells(&mut copy).map(|cells| cells[index]) else {
            break;
        };
        for m in lower(n) {
            let mut fewer = call.clone();
            if let Some(cells) = cells(&mut fewer) {
                cells[index] = m;
            }
            found.push(fewer);
        }
    }
    for index in 0..lengths(&mut call.clone()).len() {
        let n = *lengths(&mut call.clone())[index] as u32;
        for m in lower(n) {
            let mut fewer = call.clone();
            *lengths(&mut fewer)[index] = m as usize;
            found.push(fewer);
        }
    }
    for index in 0..limits(&mut call.clone()).len() {
        // No limit is simpler than any.
        if let Some(n) = *limits(&mut call.clone())[index] {
            for limit in [None].into_iter().chain(lower(n).map(Some)) {
                let mut simpler = call.clone();
                *limits(&mut simpler)[index] = limit;
                found.push(simpler);
            }
        }
    }
}

fn cells(call: &mut Call) -> Option<&mut [u32; 2]> {
    match call {
        Call::Curves { cells, .. } | Call::Checked { cells, .. } | Call::MeshCurves { cells, .. } | Call::Mesh { cells, .. } => Some(cells),
        _ => None,
    }
}

fn lengths(call: &mut Call) -> Vec<&mut usize> {
    match call {
        Call::FromParameters { out, .. } | Call::Curves { out, .. } | Call::Lay { out, .. } | Call::Checked { out, .. } => vec![out],
        Call::MeshCurves { points, indices, .. } | Call::Mesh { points, indices, .. } => vec![points, indices],
        _ => vec![],
    }
}

fn limits(call: &mut Call) -> Vec<&mut Option<u32>> {
    match call {
        Call::Solve { limit, .. } => vec![limit],
        Call::Round { step, .. } => vec![&mut step.limit],
        Call::Rounds { steps, .. } => steps.iter_mut().map(|step| &mut step.limit).collect(),
        _ => vec![],
    }
}

/// All f64 of a call.
fn floats(call: &mut Call) -> Vec<&mut f64> {
    match call {
        Call::Root { x } => vec![x],
        Call::FromParameters { curves, seams, .. } => curves.iter_mut().chain(seams).flatten().collect(),
        Call::Lay { breaks, curves, .. } => breaks.iter_mut().filter(|list| list.len() <= LONG).chain(curves).flatten().collect(),
        Call::Curves { .. } | Call::MeshCurves { .. } | Call::Checked { .. } | Call::Mesh { .. } => {
            curves(call).into_iter().flatten().collect()
        }
        _ => edge_lists(call).1.into_iter().flatten().collect(),
    }
}

/// How plain a number is: fewer digits are plainer.
fn rank(x: f64) -> u64 {
    match x {
        0.0 if x.is_sign_positive() => 0,
        1.0 => 1,
        x if x == x.trunc() && x.abs() < 1000.0 => 2 + x.abs() as u64,
        x if x.is_nan() || x.is_infinite() => 2000,
        x => 3000 + 53 - u64::from(x.to_bits().trailing_zeros().min(52)),
    }
}

fn plainer(x: f64) -> impl Iterator<Item = f64> {
    let shorter = [4, 12, 24].map(|bits| f64::from_bits(x.to_bits() >> (52 - bits) << (52 - bits)));
    let plain = [0.0, 1.0, 2.0, -1.0, 0.5, x.trunc(), x.ceil()];
    plain.into_iter().chain(shorter).filter(move |&y| rank(y) < rank(x))
}

/// Plainer values: one alone, or all that are equal, as where curves meet.
fn values(call: &Call, found: &mut Vec<Call>) {
    let all = floats(&mut call.clone()).into_iter().map(|x| *x).collect::<Vec<f64>>();
    for (index, &x) in all.iter().enumerate() {
        for y in plainer(x) {
            let mut together = call.clone();
            floats(&mut together).into_iter().filter(|other| other.to_bits() == x.to_bits()).for_each(|other| *other = y);
            found.push(together);
            let mut next = call.clone();
            *floats(&mut next)[index] = y;
            found.push(next);
        }
    }
    let counts: Vec<u32> = edge_lists(&mut call.clone()).0.into_iter().flatten().map(|count| *count).collect();
    for (index, &n) in counts.iter().enumerate() {
        for m in [0, 1, n / 2, n.saturating_sub(1)].into_iter().filter(|&m| m < n) {
            let mut next = call.clone();
            if let Some(count) = edge_lists(&mut next).0.into_iter().flatten().nth(index) {
                *count = m;
            }
            found.push(next);
        }
    }
}

#[cfg(test)]
mod tests {
    use super::*;
    use crate::farm::{grid, record};
    use crate::together::call::Step;
    use crate::together::speed::{bent, seams};

    #[test]
    fn farm() {
        let farm = grid(4, 3);
        let ideals: Vec<f64> = (0..farm.edges).map(|edge| 1.3 + edge as f64).collect();
        let call = Call::Solve { regions: farm.regions, spacing: ideals.into(), counts: vec![7; farm.edges], limit: Some(100_000) };
        let has = |call: &Call| match call {
            Call::Solve { regions, spacing: Spacing::Ideals(ideals), .. } => {
                regions.chunks_exact(RECORD).any(|r| r[2 * SIDE] > 0) && ideals.iter().any(|&x| x > 9.0)
            }
            _ => false,
        };
        let smallest = smallest(call, has);
        let (regions, spacing) = (record([&[], &[], &[0], &[]]), vec![0.0, 10.0].into());
        let expected = Call::Solve { regions, spacing, counts: vec![], limit: None };
        assert_eq!(
            with_records(&smallest, |list| list.retain(|&place| place == 1)),
            with_records(&expected, |list| list.retain(|&place| place == 1))
        );
    }

    #[test]
    fn rounds() {
        let step = Step::new(vec![1.25, 3.5], 77);
        let call = Call::Rounds { regions: vec![], counts: vec![5, 900], steps: vec![step; 5] };
        let has = |call: &Call| match call {
            Call::Round { counts, step, .. } => counts.iter().any(|&count| count > 20) && step.limit.is_some_and(|limit| limit >= 3),
            Call::Rounds { steps, .. } => !steps.is_empty(),
            _ => false,
        };
        assert_eq!(smallest(call, has), Call::Round { regions: vec![], counts: vec![21], step: Step::new(vec![], 3) });
    }

    #[test]
    fn limits() {
        let call = |limit| Call::Solve { regions: vec![], spacing: vec![].into(), counts: vec![], limit };
        let stated = |least: u32| move |call: &Call| matches!(call, Call::Solve { limit, .. } if limit.is_some_and(|limit| limit >= least));
        assert_eq!(smallest(call(Some(100_000)), stated(5)), call(Some(5)));
        assert_eq!(smallest(call(Some(100_000)), stated(0)), call(Some(0)));
        assert_eq!(smallest(call(Some(100_000)), |_| true), call(None));
        assert_eq!(smallest(call(None), |_| true), call(None));
    }

    #[test]
    fn ranges() {
        let within = Spacing::Within { least: vec![1.25, 3.5, 2.0], most: vec![2.5, 7.75, 2.0] };
        let steps = vec![Step::new(vec![1.5; 3], 9), Step::new(within, 9)];
        let call = Call::Rounds { regions: vec![], counts: vec![5, 9, 1], steps };
        let has = |call: &Call| match call {
            Call::Round { counts, step: Step { spacing: Spacing::Within { most, .. }, .. }, .. } => {
                counts.iter().any(|&count| count > 2) && most.iter().any(|&end| end > 7.0)
            }
            Call::Rounds { .. } => true,
            _ => false,
        };
        let smaller = Spacing::Within { least: vec![], most: vec![8.0] };
        let smallest = smallest(call, |call| !matches!(call, Call::Rounds { steps, .. } if steps.is_empty()) && has(call));
        assert_eq!(smallest, Call::Round { regions: vec![], counts: vec![3], step: Step::new(smaller, None) });
    }

    #[test]
    fn seam() {
        let call = Call::FromParameters { curves: bent(7), seams: seams(6, true), out: 300 };
        let has = |call: &Call| match call {
            Call::FromParameters { curves, seams, .. } => seams[2].iter().any(|&x| x > 0.1 && x < 0.9) && curves[1].len() >= 4,
            _ => false,
        };
        let Call::FromParameters { curves, seams, out } = smallest(call, has) else {
            panic!("the function has changed");
        };
        assert_eq!((seams, out), ([vec![], vec![], vec![0.5], vec![]], 0));
        assert_eq!(curves, [vec![], vec![0.0; 4], vec![], vec![]]);
    }

    /// Breaks that are not read fall away, but for as many as make the difference, which are 0.
    #[test]
    fn strip() {
        let regions = [record([&[], &[0, 1], &[], &[2]]), record([&[0, 1], &[], &[2], &[]])];
        for (side, record) in regions.into_iter().enumerate() {
            let breaks = std::array::from_fn(|k| vec![f64::NAN; if k % 2 == side { 100_000 } else { 3 }]);
            let call = Call::Lay { record, counts: vec![1, 2, 3], breaks, curves: bent(5), out: 24 };
            let has = |call: &Call| match call {
                Call::Lay { record, breaks, .. } => lay::unread(record)[side] && breaks[side].len() >= 1026,
                _ => false,
            };
            let Call::Lay { counts, mut breaks, curves, out, .. } = smallest(call, has) else {
                panic!("the function has changed");
            };
            assert_eq!(std::mem::take(&mut breaks[side]), vec![0.0; 1026]);
            assert_eq!((counts, breaks.concat(), curves.concat(), out), (vec![], vec![], vec![], 0));
        }
    }

    /// A value that must stay a NaN stays one, by itself.
    #[test]
    fn unread_value() {
        let breaks = [vec![0.5, f64::NAN, 2.0], vec![0.0, 1.0], vec![f64::NAN; 2000], vec![0.0, 1.0]];
        let call = Call::Lay { record: record([&[], &[0], &[], &[0]]), counts: vec![1], breaks, curves: bent(3), out: 8 };
        let has = |call: &Call| matches!(call, Call::Lay { breaks, .. } if breaks[0].iter().any(|x| x.is_nan()));
        let Call::Lay { breaks, .. } = smallest(call, has) else {
            panic!("the function has changed");
        };
        assert!(breaks[0].len() <= 2 && breaks[0].iter().filter(|x| x.is_nan()).count() == 1, "{breaks:?}");
        assert_eq!(breaks[1..].concat(), vec![]);
    }
}
