//! 01's and 02's limits: each with one below and one above.

use super::Sink;
use crate::farm::{grid, record, rows, Farm};
use crate::former;
use crate::generate::{self, LENGTHS, LISTED, PLACES};
use crate::generate_limits::LAST_WAYS;
use crate::generate_strips::odd_breaks;
use crate::generate_wide::{self, wide_fields, Wide};
use crate::grids::needed;
use crate::limits::{CELLS, CURVE_POINTS, EDGES, SEAM, SEARCH, SEARCH_UNSTATED, SIDE};
use crate::together::call::{Call, Sides, Spacing, Step, LENT_NUMBER};
use crate::together::speed::{bent, even, seams, straight};

pub fn all(sink: Sink) -> Result<(), String> {
    regions_and_edges(sink)?;
    sides(sink)?;
    list_lengths(sink)?;
    wide(sink)?;
    last_places(sink)?;
    counts_and_moves(sink)?;
    search(sink)?;
    last_ways(sink)?;
    curve_points(sink)?;
    grid_sizes(sink)?;
    loops(sink)?;
    lay(sink)?;
    unread_breaks(sink)?;
    strips(sink)?;
    far_corners(sink)?;
    largest(sink)
}

fn lent(length: usize) -> Vec<u32> {
    vec![LENT_NUMBER; length]
}

/// These ideals, and ranges from them up.
fn both_kinds(ideals: Vec<f64>, factor: f64) -> [Spacing; 2] {
    let most = ideals.iter().map(|ideal| factor * ideal).collect();
    [Spacing::Ideals(ideals.clone()), Spacing::Within { least: ideals, most }]
}

/// All functions of the solver on a farm.
fn solver_calls(sink: Sink, regions: &[u16], edges: usize) -> Result<(), String> {
    let ideals: Vec<f64> = (0..edges).map(|edge| 0.6 + (edge % 5) as f64 * 0.5).collect();
    let (regions, counts) = (regions.to_vec(), vec![2; edges]);
    for spacing in both_kinds(ideals.clone(), 1.2) {
        for limit in [None, Some(SEARCH)] {
            sink(Call::Solve { regions: regions.clone(), spacing: spacing.clone(), counts: lent(edges), limit })?;
        }
        sink(Call::Round { regions: regions.clone(), counts: counts.clone(), step: Step::new(spacing, 50) })?;
    }
    sink(Call::Hold { regions, counts: counts.clone() })?;
    sink(Call::Energy { counts, ideals })
}

fn regions_and_edges(sink: Sink) -> Result<(), String> {
    for number in [126, 127, 128, 129, 130] {
        // A column of regions with one edge between two of them: few edges, many regions.
        let regions: Vec<u16> = (0..number).flat_map(|k| record([&[k], &[], &[k + 1], &[]])).collect();
        solver_calls(sink, &regions, usize::from(number) + 1)?;
    }
    for edges in [254, 255, 256, 257, 258, 1000] {
        solver_calls(sink, &grid(3, 2).regions, edges)?;
        sink(Call::Energy { counts: vec![1; edges], ideals: vec![1.0; 3] })?;
        sink(Call::Round { regions: vec![], counts: vec![1; edges], step: Step::new(vec![1.0; 3], 9) })?;
        sink(Call::Round { regions: vec![], counts: vec![1; 3], step: Step::new(vec![1.0; edges], 9) })?;
        sink(Call::Solve { regions: vec![], spacing: vec![1.0; 3].into(), counts: lent(edges), limit: None })?;
        // Each of the three lists by itself.
        for [least, most, counts] in [[edges, 3, 3], [3, edges, 3], [3, 3, edges], [edges, edges, 3], [3, edges, edges]] {
            let spacing = Spacing::Within { least: vec![1.0; least], most: vec![2.0; most] };
            sink(Call::Round { regions: vec![], counts: vec![1; counts], step: Step::new(spacing.clone(), 9) })?;
            for limit in [None, Some(9), Some(SEARCH + 1)] {
                sink(Call::Solve { regions: vec![], spacing: spacing.clone(), counts: lent(counts), limit })?;
            }
        }
    }
    Ok(())
}

/// Edges of a side about as many as it has places, and as it had before; with more than that the records are longer than they may be.
fn sides(sink: Sink) -> Result<(), String> {
    for edges in [former::PLACES, PLACES].into_iter().flat_map(|places| places - 2..=places + 2) {
        let bottom: Vec<u32> = (0..=edges.into()).collect();
        let mut farm = rows(&[vec![0, edges.into()]]);
        let long = rows(&[bottom, vec![0, edges.into()]]);
        solver_calls(sink, &long.regions, long.edges)?;
        for side in 0..4 {
            farm.regions[SIDE * side] = edges;
            solver_calls(sink, &farm.regions, farm.edges)?;
            farm.regions[SIDE * side] = 1;
        }
    }
    Ok(())
}

/// Lists about as long as one record and two, of now and of before; an old caller's lists.
fn list_lengths(sink: Sink) -> Result<(), String> {
    for regions in generate::list_lengths() {
        solver_calls(sink, &regions, LISTED)?;
    }
    for length in LENGTHS {
        let mut numbers = record([&[0], &[1], &[2], &[3]]).repeat(2);
        numbers.truncate(length);
        let breaks: Sides = std::array::from_fn(|_| vec![0.0, 1.0]);
        sink(Call::Lay { record: numbers, counts: vec![2; 4], breaks, curves: bent(4), out: 32 })?;
    }
    Ok(())
}

/// Fields of many regions or many edges with wide sides.
fn wide(sink: Sink) -> Result<(), String> {
    for Wide { farm: Farm { regions, edges }, limits, ideals } in wide_fields() {
        let any: Vec<f64> = (0..edges).map(|edge| 0.6 + (edge % 7) as f64 * 0.7).collect();
        let steps = limits.iter().flat_map(|&limit| both_kinds(any.clone(), 1.3).map(|spacing| Step::new(spacing, limit)));
        let steps: Vec<Step> = steps.collect();
        for count in [0, 1, 2] {
            sink(Call::Rounds { regions: regions.clone(), counts: vec![count; edges], steps: steps.clone() })?;
            sink(Call::Hold { regions: regions.clone(), counts: vec![count; edges] })?;
        }
        for spacing in ideals.into_iter().flat_map(|ideals| both_kinds(ideals, 1.05)) {
            for limit in [None, Some(limits[0]), Some(SEARCH)] {
                sink(Call::Solve { regions: regions.clone(), spacing: spacing.clone(), counts: lent(edges), limit })?;
            }
        }
    }
    Ok(())
}

/// Faults in the last place of a wide side.
fn last_places(sink: Sink) -> Result<(), String> {
    generate_wide::last_places().into_iter().try_for_each(|(regions, edges, _)| solver_calls(sink, &regions, edges))
}

fn counts_and_moves(sink: Sink) -> Result<(), String> {
    for count in [999_998, 999_999, 1_000_000, 1_000_001, u32::MAX] {
        for ideal in [1.0, 999_999.5, 2e6, 1e300] {
            let steps = both_kinds(vec![ideal; 2], 2.0).map(|spacing| Step::new(spacing, 3));
            for order in [[0, 0, 0, 0], [1, 1, 1, 1], [0, 1, 1, 0]] {
                let steps = order.map(|kind: usize| steps[kind].clone()).to_vec();
                sink(Call::Rounds { regions: vec![], counts: vec![1, count], steps })?;
            }
            sink(Call::Energy { counts: vec![count, 1], ideals: vec![ideal; 2] })?;
            sink(Call::Hold { regions: record([&[0], &[], &[1], &[]]), counts: vec![count; 2] })?;
        }
    }
    for ideal in [199_999.0, 200_000.0, 200_001.0] {
        for spacing in both_kinds(vec![ideal], 1.5) {
            for limit in [None, Some(0), Some(1), Some(SEARCH)] {
                sink(Call::Solve { regions: vec![], spacing: spacing.clone(), counts: lent(3), limit })?;
            }
        }
    }
    Ok(())
}

fn around(limit: u32) -> [u32; 5] {
    [limit - 2, limit - 1, limit, limit + 1, limit + 2]
}

/// Limits around the entries that a search makes, around 10,000 and around 100,000, and none.
fn search(sink: Sink) -> Result<(), String> {
    let chain = grid(12, 1);
    let stated = (0..30).chain(around(SEARCH_UNSTATED)).chain(around(SEARCH)).chain([u32::MAX]);
    for limit in stated.map(Some).chain([None]) {
        for spacing in both_kinds(vec![1.5; chain.edges], 1.25) {
            let step = Step::new(spacing.clone(), limit);
            for count in [0, 1, 3] {
                sink(Call::Round { regions: chain.regions.clone(), counts: vec![count; chain.edges], step: step.clone() })?;
            }
            sink(Call::Solve { regions: chain.regions.clone(), spacing, counts: lent(chain.edges), limit })?;
        }
        for spacing in both_kinds(vec![], 1.0) {
            sink(Call::Round { regions: vec![], counts: vec![], step: Step::new(spacing.clone(), limit) })?;
            sink(Call::Solve { regions: vec![], spacing, counts: vec![], limit })?;
        }
    }
    between(sink, former::PLACES.into(), &[200, 271, 272, 273, 274, 289, 290, 1000, 5000])?;
    for edges in [former::PLACES, PLACES].map(u32::from) {
        // From a level line of the row: itself, all other ways through one of the regions, and on through the other one.
        let entries = edges * edges + 3 * edges;
        between(sink, edges, &[entries - edges, entries - edges + 1, entries - 1, entries, entries + 1])?;
    }
    Ok(())
}

/// Two regions with a row of so many between them: searches of many entries, limits on both sides of their number.
fn between(sink: Sink, edges: u32, limits: &[u32]) -> Result<(), String> {
    let wide = rows(&[vec![0, edges], (0..=edges).collect(), vec![0, edges]]);
    for &limit in limits {
        let ideals = (0..wide.edges).map(|edge| 1.0 + (edge % 7) as f64 * 0.3).collect();
        for step in both_kinds(ideals, 1.1).map(|spacing| Step::new(spacing, limit)) {
            sink(Call::Round { regions: wide.regions.clone(), counts: vec![1; wide.edges], step })?;
        }
    }
    Ok(())
}

/// Farms of which only the way pays to which a search comes last: limits around its entries, around 10,000, and none.
fn last_ways(sink: Sink) -> Result<(), String> {
    for way in LAST_WAYS {
        let farm = way.farm();
        let entries = way.entries.map(|entries| around(entries as u32)).concat();
        let stated = entries.into_iter().chain(around(SEARCH_UNSTATED)).chain([SEARCH]);
        for limit in stated.map(Some).chain([None]) {
            for spacing in [way.ideals().into(), way.ranges()] {
                let counts = vec![0; farm.edges];
                sink(Call::Round { regions: farm.regions.clone(), counts, step: Step::new(spacing.clone(), limit) })?;
                sink(Call::Solve { regions: farm.regions.clone(), spacing, counts: lent(farm.edges), limit })?;
            }
        }
    }
    Ok(())
}

/// Points of a curve around 01's limit, and around 64, from where on the grid takes larger tables.
const OF_SIDE: [usize; 7] = [63, 64, 65, 1022, 1023, 1024, 1025];

/// A tile whose curve `side` has this many points.
fn long_curve(side: usize, points: usize) -> Sides {
    let mut curves = bent(5);
    curves[side].clone_from(&bent(points)[side]);
    curves
}

fn on_curves(sink: Sink, curves: Sides, cells: [u32; 2]) -> Result<(), String> {
    let [n_u, n_v] = cells.map(|n| n.min(1025) as usize);
    let [out, points, indices] = needed(n_u, n_v).map(|length| length + 1);
    sink(Call::Curves { curves: curves.clone(), cells, out })?;
    sink(Call::MeshCurves { curves, cells, points, indices })
}

fn curve_points(sink: Sink) -> Result<(), String> {
    for side in 0..4 {
        for points in OF_SIDE {
            let curves = long_curve(side, points);
            sink(Call::FromParameters { curves: curves.clone(), seams: seams(4, true), out: 8 * 16 })?;
            on_curves(sink, curves, [3, 2])?;
        }
        let mut odd = bent(5);
        odd[side].pop();
        on_curves(sink, odd, [3, 2])?;
    }
    Ok(())
}

/// Seams of 1,024 to 1,026 values, n_u and n_v at 1,024, output one too short, just right and one longer; and 62 to 65 cells, where the grid
/// takes larger tables.
fn grid_sizes(sink: Sink) -> Result<(), String> {
    let curves = bent(9);
    for long in [62, 63, 64, 65, 1023, 1024, 1025] {
        for slanted in [false, true] {
            let [across, up] = [seams(long, slanted), seams(2, slanted)];
            let wide = [across[0].clone(), up[1].clone(), across[2].clone(), up[3].clone()];
            let high = [up[0].clone(), across[1].clone(), up[2].clone(), across[3].clone()];
            for (seams, room) in [(wide, 0), (high, 1)] {
                sink(Call::FromParameters { curves: curves.clone(), seams, out: 16 * long + room })?;
            }
        }
        for cells in [[long as u32, 1], [1, long as u32], [long as u32, 0], [0, long as u32], [long as u32, u32::MAX]] {
            on_curves(sink, curves.clone(), cells)?;
        }
    }
    for cells in [[1, 1], [2, 3], [5, 1]] {
        let [n_u, n_v] = cells.map(|n| n as usize);
        let [out, points, indices] = needed(n_u, n_v).map(|length| length + 1);
        for less in 0..3 {
            let seams = [even(n_u), even(n_v), even(n_u), even(n_v)];
            sink(Call::FromParameters { curves: curves.clone(), seams, out: out - less })?;
            sink(Call::Curves { curves: curves.clone(), cells, out: out - less })?;
            for other in 0..3 {
                let (points, indices) = (points - less, indices - other);
                sink(Call::MeshCurves { curves: curves.clone(), cells, points, indices })?;
            }
        }
    }
    Ok(())
}

/// A square as four pieces of this many points, which do not share their ends.
fn square(points: usize) -> Vec<f64> {
    straight([[0.0, 0.0], [2.0, 0.0], [2.0, 2.0], [0.0, 2.0]], points).concat()
}

fn loops(sink: Sink) -> Result<(), String> {
    for points in [1022, 1023, 1024, 1025] {
        let open = square(points);
        let mut closed = open.clone();
        closed.extend([0.0, 0.0]);
        let mut odd = open.clone();
        odd.push(0.0);
        // The last point within the allowance of a corner, but not equal to the first: it is not dropped.
        let mut apart = open.clone();
        apart[8 * points - 1] = 1e-10;
        for boundary in [open, closed, odd, apart] {
            sink(Call::Checked { boundary: boundary.clone(), cells: [2, 3], out: 48 })?;
            sink(Call::Mesh { boundary, cells: [2, 3], points: 36, indices: 24 })?;
        }
    }
    for points in 0..20 {
        let list: Vec<f64> = square(5)[..2 * points].to_vec();
        let closed = [list.clone(), vec![0.0, 0.0]].concat();
        for boundary in [list, closed] {
            for cells in [[1, 1], [0, 1], [1025, 0]] {
                sink(Call::Checked { boundary: boundary.clone(), cells, out: 8 })?;
                sink(Call::Mesh { boundary: boundary.clone(), cells, points: 12, indices: 4 })?;
            }
        }
    }
    Ok(())
}

/// Sums of counts at 1,024, wide sides, 255 to 257 counts.
fn lay(sink: Sink) -> Result<(), String> {
    for sum in [1022, 1023, 1024, 1025] {
        for long in 0..4 {
            let counts: Vec<u32> = (0..4).map(|side| if side == long || side == (long + 2) % 4 { sum } else { 1 }).collect();
            let breaks: Sides = std::array::from_fn(|_| vec![0.0, 1.0]);
            let record = record([&[0], &[1], &[2], &[3]]);
            sink(Call::Lay { record, counts, breaks, curves: bent(4), out: 8 * sum as usize })?;
        }
    }
    for length in [255, 256, 257] {
        let record = record([&[0], &[1], &[2], &[3]]);
        let breaks: Sides = std::array::from_fn(|_| vec![0.0, 1.0]);
        sink(Call::Lay { record, counts: vec![2; length], breaks, curves: bent(4), out: 32 })?;
    }
    for places in [former::PLACES, PLACES] {
        wide_lay(sink, places)?;
        same_count(sink, places)?;
    }
    Ok(())
}

/// Sides of so many edges, one less and one more: where that is more than there are places, one side's number alone.
fn wide_lay(sink: Sink, places: u16) -> Result<(), String> {
    for edges in [places - 1, places, places + 1] {
        let side: Vec<u16> = (0..edges).collect();
        let mut numbers = record([&[0], &[1], &[2], &[3]]);
        if edges <= PLACES {
            numbers = record([&side; 4]);
        } else {
            numbers[2 * SIDE] = edges;
        }
        let breaks: Sides = std::array::from_fn(|_| even(edges.into()));
        let needed = 8 * usize::from(edges) * usize::from(edges);
        sink(Call::Lay { record: numbers, counts: vec![1; edges.max(places).into()], breaks, curves: bent(4), out: needed })?;
    }
    Ok(())
}

/// One edge so many times on each side, with counts up to the largest: the sum is up to 1,024, one more, just 2^32, over 32 bits.
fn same_count(sink: Sink, times: u16) -> Result<(), String> {
    let record = record([&vec![0; times.into()]; 4]);
    let most = CELLS / u32::from(times);
    for count in [0, most - 1, most, most + 1, u32::MAX / u32::from(times) + 1, u32::MAX] {
        let breaks: Sides = std::array::from_fn(|_| even(times.into()));
        sink(Call::Lay { record: record.clone(), counts: vec![count], breaks, curves: bent(4), out: 0 })?;
    }
    Ok(())
}

/// The pair of sides without an edge, bottom and top or right and left; the other two have these edges.
fn strip(unmarked: usize, edges: &[u16]) -> Vec<u16> {
    record(std::array::from_fn(|side| if side % 2 == unmarked { &[] } else { edges }))
}

/// Breaks that are not read, about as many as a side and a seam may have and far more: on one side of a pair, on both, on all four; and on a
/// side that is empty alone, where they are 27.
fn unread_breaks(sink: Sink) -> Result<(), String> {
    let lengths = [usize::from(PLACES), usize::from(PLACES) + 1, SEAM - 1, SEAM, SEAM + 1, SEAM + 2, 100_000, 1_000_000];
    let records = [strip(0, &[0]), strip(1, &[0]), record([&[]; 4]), record([&[], &[0], &[0], &[0]]), record([&[0], &[0], &[0], &[]])];
    for (length, record) in lengths.into_iter().flat_map(|length| records.iter().map(move |record| (length, record))) {
        for sides in [&[0][..], &[1], &[2], &[3], &[0, 2], &[1, 3], &[0, 1, 2, 3]] {
            let breaks: Sides = std::array::from_fn(|side| match (sides.contains(&side), record[side * SIDE]) {
                (false, 0) => vec![],
                (true, 0) => odd_breaks(length),
                _ => vec![0.0, 1.0],
            });
            sink(Call::Lay { record: record.clone(), counts: vec![2], breaks, curves: bent(3), out: 32 })?;
        }
    }
    Ok(())
}

/// Strips of 1,024 cells and about that, of one edge and of as many as there may be; their curves, counts and output at their limits.
fn strips(sink: Sink) -> Result<(), String> {
    for unmarked in [0, 1] {
        let breaks = |edges: usize| std::array::from_fn(|side| if side % 2 == unmarked { vec![] } else { even(edges) });
        for (edges, least) in [(1, CELLS - 2), (u32::from(PLACES), CELLS / u32::from(PLACES) - 1)] {
            let side: Vec<u16> = (0..edges as u16).collect();
            for count in least..least + 4 {
                let needed = 8 * (edges * count) as usize;
                for out in [needed - 1, needed, needed + 1] {
                    let (record, counts) = (strip(unmarked, &side), vec![count; edges as usize]);
                    sink(Call::Lay { record, counts, breaks: breaks(edges as usize), curves: bent(4), out })?;
                }
            }
        }
        for points in [CURVE_POINTS - 1, CURVE_POINTS, CURVE_POINTS + 1] {
            let curves = long_curve(unmarked, points);
            sink(Call::Lay { record: strip(unmarked, &[0]), counts: vec![3], breaks: breaks(1), curves, out: 24 })?;
        }
        for length in [0, 1, EDGES - 1, EDGES, EDGES + 1] {
            for record in [strip(unmarked, &[0]), record([&[]; 4])] {
                sink(Call::Lay { record, counts: vec![1; length], breaks: breaks(1), curves: bent(4), out: 8 })?;
            }
        }
    }
    Ok(())
}

/// Squares so large or small that lengths and areas leave the range of f64; a corner area may be a NaN, which 17 lets by.
fn far_corners(sink: Sink) -> Result<(), String> {
    for scale in [1e-170, 1e-162, 1e-160, 1e-154, 1e150, 1e153, 1.2e154, 1.35e154, 1.5e154, 1.9e154, 1e155] {
        for shift in [0.0, -0.5, -1.0] {
            for points in [2, 3, 9] {
                let corners = [[0.0, 0.0], [1.0, 0.0], [1.0, 1.0], [0.0, 1.0]].map(|p| p.map(|x: f64| (x + shift) * scale));
                let curves = straight(corners, points);
                for cells in [[1, 1], [8, 8]] {
                    on_curves(sink, curves.clone(), cells)?;
                }
            }
        }
    }
    Ok(())
}

/// Grids of 1,024 by 1,024 on curves of 1,024 points.
fn largest(sink: Sink) -> Result<(), String> {
    let curves = bent(1024);
    sink(Call::FromParameters { curves: curves.clone(), seams: seams(1024, true), out: 8 << 20 })?;
    on_curves(sink, curves, [1024, 1024])
}
