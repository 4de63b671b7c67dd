//! The functions of the archive, as include/juplatsk.h declares them, each behind a function over slices. A `&mut` slice overlaps no
//! other, no slice is null or misaligned, and each has its length: so the conditions that the header names are met here by the types.
//!
//! Each function returns the number of the refusal, 0 if there is none; `answer` gets both places and what the function tells in numbers.
//! The tools of `compare` call the archive by this file too.

extern "C" {
    fn juplatsk_version() -> u32;
    fn juplatsk_solve_counts(
        regions: *const u16,
        regions_len: usize,
        ideals: *const f64,
        ideals_len: usize,
        counts: *mut u32,
        counts_len: usize,
        stated: bool,
        limit: u32,
        answer: *mut [u32; 3],
    ) -> u32;
    fn juplatsk_round(
        regions: *const u16,
        regions_len: usize,
        ideals: *const f64,
        ideals_len: usize,
        counts: *mut u32,
        counts_len: usize,
        stated: bool,
        limit: u32,
        answer: *mut [u32; 4],
        cost: *mut [f64; 1],
    ) -> u32;
    fn juplatsk_solve_counts_within(
        regions: *const u16,
        regions_len: usize,
        least: *const f64,
        least_len: usize,
        most: *const f64,
        most_len: usize,
        counts: *mut u32,
        counts_len: usize,
        stated: bool,
        limit: u32,
        answer: *mut [u32; 3],
    ) -> u32;
    fn juplatsk_round_within(
        regions: *const u16,
        regions_len: usize,
        least: *const f64,
        least_len: usize,
        most: *const f64,
        most_len: usize,
        counts: *mut u32,
        counts_len: usize,
        stated: bool,
        limit: u32,
        answer: *mut [u32; 4],
        cost: *mut [f64; 1],
    ) -> u32;
    fn juplatsk_energy(
        counts: *const u32,
        counts_len: usize,
        ideals: *const f64,
        ideals_len: usize,
        answer: *mut [u32; 2],
        sum: *mut [f64; 1],
    ) -> u32;
    fn juplatsk_constraints_hold(
        regions: *const u16,
        regions_len: usize,
        counts: *const u32,
        counts_len: usize,
        answer: *mut [u32; 3],
    ) -> u32;
    fn juplatsk_root(x: f64, root: *mut [f64; 1]) -> u32;
    fn juplatsk_coons_from_parameters(
        bottom: *const f64,
        bottom_len: usize,
        right: *const f64,
        right_len: usize,
        top: *const f64,
        top_len: usize,
        left: *const f64,
        left_len: usize,
        bottom_u: *const f64,
        bottom_u_len: usize,
        top_u: *const f64,
        top_u_len: usize,
        left_v: *const f64,
        left_v_len: usize,
        right_v: *const f64,
        right_v_len: usize,
        out: *mut f64,
        out_len: usize,
        answer: *mut [u32; 3],
    ) -> u32;
    fn juplatsk_coons_curves(
        bottom: *const f64,
        bottom_len: usize,
        right: *const f64,
        right_len: usize,
        top: *const f64,
        top_len: usize,
        left: *const f64,
        left_len: usize,
        n_u: u32,
        n_v: u32,
        out: *mut f64,
        out_len: usize,
        answer: *mut [u32; 3],
    ) -> u32;
    fn juplatsk_lay_region(
        region: *const u16,
        region_len: usize,
        counts: *const u32,
        counts_len: usize,
        breaks0: *const f64,
        breaks0_len: usize,
        breaks1: *const f64,
        breaks1_len: usize,
        breaks2: *const f64,
        breaks2_len: usize,
        breaks3: *const f64,
        breaks3_len: usize,
        bottom: *const f64,
        bottom_len: usize,
        right: *const f64,
        right_len: usize,
        top: *const f64,
        top_len: usize,
        left: *const f64,
        left_len: usize,
        out: *mut f64,
        out_len: usize,
        answer: *mut [u32; 3],
    ) -> u32;
    fn juplatsk_mesh_tile_curves(
        bottom: *const f64,
        bottom_len: usize,
        right: *const f64,
        right_len: usize,
        top: *const f64,
        top_len: usize,
        left: *const f64,
        left_len: usize,
        n_u: u32,
        n_v: u32,
        points: *mut f64,
        points_len: usize,
        cells: *mut u32,
        cells_len: usize,
        answer: *mut [u32; 3],
    ) -> u32;
    fn juplatsk_coons_checked(
        boundary: *const f64,
        boundary_len: usize,
        n_u: u32,
        n_v: u32,
        out: *mut f64,
        out_len: usize,
        answer: *mut [u32; 3],
    ) -> u32;
    fn juplatsk_mesh_tile(
        boundary: *const f64,
        boundary_len: usize,
        n_u: u32,
        n_v: u32,
        points: *mut f64,
        points_len: usize,
        cells: *mut u32,
        cells_len: usize,
        answer: *mut [u32; 3],
    ) -> u32;
}

pub type Answer<'a> = &'a mut [u32; 3];

pub fn version() -> u32 {
    unsafe { juplatsk_version() }
}

/// Four lists by side: bottom, right, top, left.
pub type BySide<'a> = [&'a [f64]; 4];

/// A search limit, if one is stated.
pub type SearchLimit = Option<u32>;

pub fn solve_counts(regions: &[u16], ideals: &[f64], counts: &mut [u32], limit: SearchLimit, answer: Answer) -> u32 {
    let (lent, length) = (counts.as_mut_ptr(), counts.len());
    let (stated, limit) = (limit.is_some(), limit.unwrap_or(0));
    unsafe { juplatsk_solve_counts(regions.as_ptr(), regions.len(), ideals.as_ptr(), ideals.len(), lent, length, stated, limit, answer) }
}

pub fn round(regions: &[u16], ideals: &[f64], counts: &mut [u32], limit: SearchLimit, answer: &mut [u32; 4], cost: &mut [f64; 1]) -> u32 {
    let (lent, length) = (counts.as_mut_ptr(), counts.len());
    let (stated, limit) = (limit.is_some(), limit.unwrap_or(0));
    unsafe { juplatsk_round(regions.as_ptr(), regions.len(), ideals.as_ptr(), ideals.len(), lent, length, stated, limit, answer, cost) }
}

/// A least and a most for each edge.
pub type Ends<'a> = [&'a [f64]; 2];

pub fn solve_counts_within(regions: &[u16], ends: Ends, counts: &mut [u32], limit: SearchLimit, answer: Answer) -> u32 {
    let [least, most] = ends;
    let (lent, length) = (counts.as_mut_ptr(), counts.len());
    let (stated, limit) = (limit.is_some(), limit.unwrap_or(0));
    unsafe {
        juplatsk_solve_counts_within(
            regions.as_ptr(),
            regions.len(),
            least.as_ptr(),
            least.len(),
            most.as_ptr(),
            most.len(),
            lent,
            length,
            stated,
            limit,
            answer,
        )
    }
}

pub fn round_within(
    regions: &[u16],
    ends: Ends,
    counts: &mut [u32],
    limit: SearchLimit,
    answer: &mut [u32; 4],
    cost: &mut [f64; 1],
) -> u32 {
    let [least, most] = ends;
    let (lent, length) = (counts.as_mut_ptr(), counts.len());
    let (stated, limit) = (limit.is_some(), limit.unwrap_or(0));
    unsafe {
        juplatsk_round_within(
            regions.as_ptr(),
            regions.len(),
            least.as_ptr(),
            least.len(),
            most.as_ptr(),
            most.len(),
            lent,
            length,
            stated,
            limit,
            answer,
            cost,
        )
    }
}

pub fn energy(counts: &[u32], ideals: &[f64], answer: &mut [u32; 2], sum: &mut [f64; 1]) -> u32 {
    unsafe { juplatsk_energy(counts.as_ptr(), counts.len(), ideals.as_ptr(), ideals.len(), answer, sum) }
}

pub fn constraints_hold(regions: &[u16], counts: &[u32], answer: Answer) -> u32 {
    unsafe { juplatsk_constraints_hold(regions.as_ptr(), regions.len(), counts.as_ptr(), counts.len(), answer) }
}

pub fn root(x: f64, root: &mut [f64; 1]) -> u32 {
    unsafe { juplatsk_root(x, root) }
}

pub fn coons_from_parameters(curves: BySide, seams: BySide, out: &mut [f64], answer: Answer) -> u32 {
    let [bottom, right, top, left] = curves;
    let [bottom_u, right_v, top_u, left_v] = seams;
    unsafe {
        juplatsk_coons_from_parameters(
            bottom.as_ptr(),
            bottom.len(),
            right.as_ptr(),
            right.len(),
            top.as_ptr(),
            top.len(),
            left.as_ptr(),
            left.len(),
            bottom_u.as_ptr(),
            bottom_u.len(),
            top_u.as_ptr(),
            top_u.len(),
            left_v.as_ptr(),
            left_v.len(),
            right_v.as_ptr(),
            right_v.len(),
            out.as_mut_ptr(),
            out.len(),
            answer,
        )
    }
}

pub fn coons_curves(curves: BySide, [n_u, n_v]: [u32; 2], out: &mut [f64], answer: Answer) -> u32 {
    let [bottom, right, top, left] = curves;
    unsafe {
        juplatsk_coons_curves(
            bottom.as_ptr(),
            bottom.len(),
            right.as_ptr(),
            right.len(),
            top.as_ptr(),
            top.len(),
            left.as_ptr(),
            left.len(),
            n_u,
            n_v,
            out.as_mut_ptr(),
            out.len(),
            answer,
        )
    }
}

pub fn lay_region(region: &[u16], counts: &[u32], breaks: BySide, curves: BySide, out: &mut [f64], answer: Answer) -> u32 {
    let [bottom, right, top, left] = curves;
    unsafe {
        juplatsk_lay_region(
            region.as_ptr(),
            region.len(),
            counts.as_ptr(),
            counts.len(),
            breaks[0].as_ptr(),
            breaks[0].len(),
            breaks[1].as_ptr(),
            breaks[1].len(),
            breaks[2].as_ptr(),
            breaks[2].len(),
            breaks[3].as_ptr(),
            breaks[3].len(),
            bottom.as_ptr(),
            bottom.len(),
            right.as_ptr(),
            right.len(),
            top.as_ptr(),
            top.len(),
            left.as_ptr(),
            left.len(),
            out.as_mut_ptr(),
            out.len(),
            answer,
        )
    }
}

pub fn coons_checked(boundary: &[f64], [n_u, n_v]: [u32; 2], out: &mut [f64], answer: Answer) -> u32 {
    unsafe { juplatsk_coons_checked(boundary.as_ptr(), boundary.len(), n_u, n_v, out.as_mut_ptr(), out.len(), answer) }
}

pub fn mesh_tile_curves(curves: BySide, [n_u, n_v]: [u32; 2], points: &mut [f64], cells: &mut [u32], answer: Answer) -> u32 {
    let [bottom, right, top, left] = curves;
    unsafe {
        juplatsk_mesh_tile_curves(
            bottom.as_ptr(),
            bottom.len(),
            right.as_ptr(),
            right.len(),
            top.as_ptr(),
            top.len(),
            left.as_ptr(),
            left.len(),
            n_u,
            n_v,
            points.as_mut_ptr(),
            points.len(),
            cells.as_mut_ptr(),
            cells.len(),
            answer,
        )
    }
}

pub fn mesh_tile(boundary: &[f64], [n_u, n_v]: [u32; 2], points: &mut [f64], cells: &mut [u32], answer: Answer) -> u32 {
    let (lent, length) = (points.as_mut_ptr(), points.len());
    unsafe { juplatsk_mesh_tile(boundary.as_ptr(), boundary.len(), n_u, n_v, lent, length, cells.as_mut_ptr(), cells.len(), answer) }
}
