//! Curves that end on their stones (02, item 12): all that two curves may do at a corner, and two opposite seams at their ends.

use super::Sink;
use crate::farm::record;
use crate::generate_stones::{curves, End, ENDS, MISSED, STARTS, STOPS, ZEROS};
use crate::together::call::{Call, Sides};
use crate::together::speed::{even, seams};

pub fn all(sink: Sink) -> Result<(), String> {
    for corners in [ZEROS, MISSED] {
        for [ending, beginning] in ENDS.into_iter().flat_map(|ending| ENDS.map(|beginning| [ending, beginning])) {
            for corner in 0..4 {
                let mut ends = [[End::Plain; 2]; 4];
                ends[corner] = [ending, beginning];
                on_curves(sink, &curves(corners, ends))?;
            }
            let everywhere = curves(corners, [[ending, beginning]; 4]);
            on_curves(sink, &everywhere)?;
            on_loop(sink, &everywhere)?;
        }
    }
    seam_ends(sink)
}

fn on_curves(sink: Sink, curves: &Sides) -> Result<(), String> {
    let curves = || curves.clone();
    sink(Call::FromParameters { curves: curves(), seams: seams(2, true), out: 32 })?;
    sink(Call::Curves { curves: curves(), cells: [2, 1], out: 16 })?;
    sink(Call::MeshCurves { curves: curves(), cells: [1, 2], points: 18, indices: 8 })?;
    let breaks = std::array::from_fn(|_| even(1));
    sink(Call::Lay { record: record([&[0], &[1], &[0], &[1]]), counts: vec![1, 3], breaks, curves: curves(), out: 24 })
}

/// The curves have as many points each. The first point stands again at the end.
fn on_loop(sink: Sink, curves: &Sides) -> Result<(), String> {
    let mut boundary = curves.concat();
    boundary.extend_from_within(..2);
    sink(Call::Checked { boundary: boundary.clone(), cells: [1, 1], out: 8 })?;
    sink(Call::Mesh { boundary, cells: [2, 2], points: 27, indices: 16 })
}

/// Every start and stop of two opposite seams, of bottom and top and of left and right.
fn seam_ends(sink: Sink) -> Result<(), String> {
    let plain = [[End::Plain; 2]; 4];
    let ends = || STARTS.into_iter().flat_map(|start| STOPS.map(|stop| vec![start, 0.5, stop]));
    for (one, other) in ends().flat_map(|one| ends().map(move |other| (one.clone(), other))) {
        let across = [one.clone(), even(2), other.clone(), even(2)];
        let up = [even(2), one, even(2), other];
        for seams in [across, up] {
            sink(Call::FromParameters { curves: curves(MISSED, plain), seams, out: 32 })?;
        }
    }
    Ok(())
}
