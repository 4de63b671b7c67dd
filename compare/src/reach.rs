//! A module inside the published `simons_qgp`, so that its private functions and fields of the solver can be named here. It adds no rule of
//! its own but the two that 01 adds to the Rust: a limit that is set, also in a solve (02, item 5), and the mark that a search was cut.

use super::*;

pub use super::Region;

/// Edges with their changes, in the order of the reading.
pub type Changes = Vec<(usize, i32)>;

/// What one round of searches found.
pub struct Found {
    /// The kept reading and its cost.
    pub best: Option<(f64, Changes)>,
    /// Whether any search turned an entry back.
    pub cut: bool,
    /// The entries of all searches together.
    pub expansions: usize,
}

pub fn delta(count: usize, ideal: f64, sign: i32) -> f64 {
    edge_delta(count, ideal, sign)
}

/// The limit that the published search has.
pub fn published_limit() -> usize {
    MAX_SEARCH_NODES
}

/// `build_graph`, for its refusals.
pub fn check_regions(regions: &[Region], edges: usize) -> Result<(), String> {
    build_graph(regions, edges).map(|_| ())
}

/// A round: the best move, and what the searches for it make.
pub fn find(regions: &[Region], counts: &[usize], ideals: &[f64], limit: usize) -> Result<Found, String> {
    let graph = build_graph(regions, ideals.len())?;
    let mut found = Found { best: best_move(&graph, counts, ideals, limit), cut: false, expansions: 0 };
    for start in starts(counts) {
        let entered = expansions(&graph, counts, ideals, start, limit + 1);
        found.cut |= entered > limit;
        found.expansions += entered.min(limit);
    }
    if limit == MAX_SEARCH_NODES {
        same_as_published(&found.best, find_augmentation(&graph, counts, ideals))?;
    }
    Ok(found)
}

/// The starts of a round, in the order of `find_augmentation`.
fn starts(counts: &[usize]) -> impl Iterator<Item = (usize, i32)> + '_ {
    let both = (0..counts.len()).flat_map(|edge| [(edge, 1), (edge, -1)]);
    both.filter(|&(edge, sign)| sign > 0 || counts[edge] > 0)
}

/// `find_augmentation` with `max_expansions` set.
fn best_move(graph: &Graph, counts: &[usize], ideals: &[f64], limit: usize) -> Option<(f64, Changes)> {
    let mut best = None;
    for (edge, sign) in starts(counts) {
        let mut search = AugmentSearch::new(graph, counts, ideals, edge, sign);
        search.max_expansions = limit;
        if let Some((cost, changes)) = search.run() {
            keep(&mut best, cost, changes);
        }
    }
    best
}

/// The entries of the search from one edge and sign.
pub fn entries(regions: &[Region], counts: &[usize], ideals: &[f64], start: (usize, i32), limit: usize) -> Result<usize, String> {
    let graph = build_graph(regions, ideals.len())?;
    Ok(expansions(&graph, counts, ideals, start, limit))
}

/// The entries that a search makes under a limit, by the steps of `AugmentSearch::run`. A search with limit L turned an entry back just
/// if it makes L + 1 entries under the limit L + 1.
fn expansions(graph: &Graph, counts: &[usize], ideals: &[f64], start: (usize, i32), limit: usize) -> usize {
    let (edge, sign) = start;
    let mut search = AugmentSearch::new(graph, counts, ideals, edge, sign);
    search.max_expansions = limit;
    search.visited[edge] = true;
    search.changes.push(start);
    search.dfs(edge, sign, edge_delta(counts[edge], ideals[edge], sign));
    search.expansions
}

/// The choice between starts that `find_augmentation` makes.
fn keep(best: &mut Option<(f64, Changes)>, cost: f64, changes: Changes) {
    if cost >= -EPS_IMPROVEMENT {
        return;
    }
    let replaces = match best {
        None => true,
        Some((kept, _)) => cost < *kept - EPS_IMPROVEMENT,
    };
    if replaces {
        *best = Some((cost, changes));
    }
}

fn same_as_published(ours: &Option<(f64, Changes)>, published: Option<(f64, Changes)>) -> Result<(), String> {
    let bits = |found: &Option<(f64, Changes)>| found.as_ref().map(|(cost, changes)| (cost.to_bits(), changes.clone()));
    if bits(ours) == bits(&published) {
        Ok(())
    } else {
        Err(format!("the round of this oracle found {ours:?}, find_augmentation {published:?}"))
    }
}

pub fn apply(counts: &mut [usize], changes: &Changes) -> Result<(), String> {
    apply_changes(counts, changes)
}

/// `solve_counts` with `max_expansions` set: its tests and its loop, repeated. The number of moves, and the counts.
pub fn solve(regions: &[Region], ideals: &[f64], limit: usize) -> Result<(u32, Vec<usize>), String> {
    let mut counts = vec![0; ideals.len()];
    // It tests the ideals as `solve_counts` does.
    energy(&counts, ideals)?;
    let graph = build_graph(regions, ideals.len())?;
    let mut moves = 0;
    while let Some((_, changes)) = best_move(&graph, &counts, ideals, limit) {
        if moves >= MAX_AUGMENTATIONS {
            return Err(format!("augmentation limit ({MAX_AUGMENTATIONS}) reached before the energy stopped improving"));
        }
        apply_changes(&mut counts, &changes)?;
        moves += 1;
    }
    if !constraints_hold(regions, &counts) {
        return Err("internal error: the counts are not balanced after the solve".to_string());
    }
    Ok((moves as u32, counts))
}

/// The entries that the searches of a round make, counted no further than just past `most`. Input that is refused makes none.
pub fn round_effort(regions: &[Region], counts: &[usize], ideals: &[f64], limit: usize, most: usize) -> usize {
    match build_graph(regions, ideals.len()) {
        Ok(graph) if counts.len() == ideals.len() => searches_effort(&graph, counts, ideals, limit, most),
        _ => 0,
    }
}

fn searches_effort(graph: &Graph, counts: &[usize], ideals: &[f64], limit: usize, most: usize) -> usize {
    let mut total = 0;
    for start in starts(counts) {
        if total <= most {
            total += expansions(graph, counts, ideals, start, limit.min(most + 1));
        }
    }
    total
}

/// The same for all rounds of a solve.
pub fn solve_effort(regions: &[Region], ideals: &[f64], limit: usize, most: usize) -> usize {
    let Ok(graph) = build_graph(regions, ideals.len()) else {
        return 0;
    };
    let mut counts = vec![0; ideals.len()];
    let mut total = 0;
    while total <= most {
        total += searches_effort(&graph, &counts, ideals, limit, most);
        match best_move(&graph, &counts, ideals, limit) {
            Some((_, changes)) if apply_changes(&mut counts, &changes).is_ok() => {}
            _ => break,
        }
    }
    total
}

/// A round as `solve_counts` makes it, with the graph built for it: the cost of the move made.
pub fn published_round(regions: &[Region], counts: &mut [usize], ideals: &[f64]) -> Result<Option<f64>, String> {
    let graph = build_graph(regions, ideals.len())?;
    match find_augmentation(&graph, counts, ideals) {
        None => Ok(None),
        Some((cost, changes)) => apply_changes(counts, &changes).map(|()| Some(cost)),
    }
}
