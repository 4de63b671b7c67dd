//! A plain model of a round and of a solve by a least and a most for each edge (02, item 7), which the Rust does not have. It is written
//! from the texts of 01 and 02, by a hand that knew the published Rust and had seen nothing of this library, and so that it can be read
//! beside these texts: nothing in it is there for speed. That a limit may be left out (item 5) came later. It decides every refusal itself,
//! and calls nothing of the Rust. With equal ends it must do what the Rust does with that ideal.

use crate::limits;
use crate::refusal::Refusal;

/// 01's E.
const E: f64 = 1e-12;

/// A further move than these is refused with 7.
const MOVES: u32 = 200_000;

/// A least and a most for each edge.
#[derive(Clone, Copy)]
pub struct Ends<'a> {
    pub least: &'a [f64],
    pub most: &'a [f64],
}

/// A round that is not refused.
#[derive(Clone, Copy, Debug)]
pub struct Round {
    /// The cost of the move made.
    pub cost: Option<f64>,
    /// Whether any search was cut.
    pub cut: bool,
    /// The entries of all searches together.
    pub entries: usize,
}

/// One public round. The move found, if any, is made on the counts; a refused round leaves them.
pub fn round(records: &[u16], ends: Ends, counts: &mut [u32], limit: Option<u32>) -> Result<Round, Refusal> {
    let regions = regions(records)?;
    refuse_if([ends.least.len(), ends.most.len(), counts.len()].iter().any(|&edges| edges > limits::EDGES), 1)?;
    let limit = limits::expansions(limit);
    refuse_if(limit > limits::SEARCH, 10)?;
    refuse_if(ends.least.len() != ends.most.len() || ends.least.len() != counts.len(), 8)?;
    check_ends(ends)?;
    check_counts(counts)?;
    let field = Field::new(&regions, ends)?;
    let found = field.best_move(counts, limit as usize);
    if let Some(best) = &found.best {
        best.reading.iter().for_each(|&change| make(counts, change));
    }
    Ok(Round { cost: found.best.map(|best| best.cost), cut: found.cut, entries: found.entries })
}

/// A solve: the number of moves. It writes the counts of the edges, and none past them. Its limit is tested as a round's.
pub fn solve(records: &[u16], ends: Ends, counts: &mut [u32], limit: Option<u32>) -> Result<u32, Refusal> {
    let regions = regions(records)?;
    refuse_if([ends.least.len(), ends.most.len()].iter().any(|&edges| edges > limits::EDGES), 1)?;
    let limit = limits::expansions(limit);
    refuse_if(limit > limits::SEARCH, 10)?;
    refuse_if(ends.least.len() != ends.most.len(), 8)?;
    refuse_if(counts.len() < ends.least.len(), 11)?;
    check_ends(ends)?;
    let field = Field::new(&regions, ends)?;
    let needed = &mut counts[..ends.least.len()];
    needed.fill(0);
    let mut moves = 0;
    while let Some(best) = field.best_move(needed, limit as usize).best {
        if moves == MOVES {
            needed.fill(0);
            return Err(Refusal::plain(7));
        }
        best.reading.iter().for_each(|&change| make(needed, change));
        moves += 1;
    }
    Ok(moves)
}

fn make(counts: &mut [u32], change: Change) {
    let count = &mut counts[change.edge];
    *count = count.checked_add_signed(change.sign).expect("no change takes a count below 0, and none is over 1,000,000 before it");
}

// ------------------------------------------------------------------------------------------------------------------------------------
// Tests
// ------------------------------------------------------------------------------------------------------------------------------------

/// A refusal that names no place.
fn refuse_if(fault: bool, number: u32) -> Result<(), Refusal> {
    if fault {
        Err(Refusal::plain(number))
    } else {
        Ok(())
    }
}

/// A refusal whose first place is the lowest edge that is at fault.
fn refuse_edge(edges: usize, number: u32, fault: impl Fn(usize) -> bool) -> Result<(), Refusal> {
    match (0..edges).find(|&edge| fault(edge)) {
        Some(edge) => Err(Refusal { number, first: edge as u32, second: 0 }),
        None => Ok(()),
    }
}

/// 2 over all edges, either end; then 35 over all edges.
fn check_ends(ends: Ends) -> Result<(), Refusal> {
    let edges = ends.least.len();
    let bad = |end: f64| !end.is_finite() || end <= 0.0;
    refuse_edge(edges, 2, |edge| bad(ends.least[edge]) || bad(ends.most[edge]))?;
    refuse_edge(edges, 35, |edge| ends.least[edge] > ends.most[edge])
}

fn check_counts(counts: &[u32]) -> Result<(), Refusal> {
    refuse_edge(counts.len(), 9, |edge| counts[edge] > limits::COUNT)
}

/// Four sides by number, each the edges that it lists.
type Region = [Vec<usize>; 4];

/// The records as regions, or 1: not whole records, too many, a side of too many edges.
fn regions(records: &[u16]) -> Result<Vec<Region>, Refusal> {
    refuse_if(!records.len().is_multiple_of(limits::RECORD) || records.len() / limits::RECORD > limits::REGIONS, 1)?;
    let mut regions = Vec::new();
    for record in records.chunks(limits::RECORD) {
        let mut region = Region::default();
        for (side, numbers) in region.iter_mut().zip(record.chunks(limits::SIDE)) {
            let edges = usize::from(numbers[0]);
            refuse_if(edges > limits::SIDE_EDGES, 1)?;
            side.extend(numbers[1..=edges].iter().map(|&edge| usize::from(edge)));
        }
        regions.push(region);
    }
    Ok(regions)
}

/// 3 and 4: the edges of a side, one after the other.
fn check_side(region: usize, side: usize, listed: &[usize], edges: usize) -> Result<(), Refusal> {
    let refused = |number| Err(Refusal { number, first: region as u32, second: side as u32 });
    for (place, edge) in listed.iter().enumerate() {
        if *edge >= edges {
            return refused(3);
        }
        if listed[..place].contains(edge) {
            return refused(4);
        }
    }
    Ok(())
}

// ------------------------------------------------------------------------------------------------------------------------------------
// Constraints and edge costs
// ------------------------------------------------------------------------------------------------------------------------------------

/// A change of a count by +1 or -1.
#[derive(Clone, Copy, Debug)]
struct Change {
    edge: usize,
    sign: i32,
}

/// Two opposite sides of a region, which must add up to the same.
struct Constraint {
    sides: [Vec<usize>; 2],
}

impl Constraint {
    /// On which of the two sides the edge is.
    fn side(&self, edge: usize) -> Option<usize> {
        self.sides.iter().position(|side| side.contains(&edge))
    }

    /// Opposite sides with like signs, or one side with unlike signs.
    fn balance(&self, one: Change, other: Change) -> bool {
        let one_side = self.side(one.edge) == self.side(other.edge);
        let like_signs = one.sign == other.sign;
        one_side != like_signs
    }
}

/// Regions that are accepted, and what is wanted of the edges.
struct Field<'a> {
    constraints: Vec<Constraint>,
    /// The constraints that each edge is in, in region order.
    of_edge: Vec<Vec<usize>>,
    ends: Ends<'a>,
}

/// The deviation of a count, which is a whole number.
fn deviation(count: f64, least: f64, most: f64) -> f64 {
    if count < least {
        count / least - 1.0
    } else if count > most {
        count / most - 1.0
    } else {
        0.0
    }
}

impl<'a> Field<'a> {
    /// 3, 4 and 5 by region and pair; then 6.
    fn new(regions: &[Region], ends: Ends<'a>) -> Result<Field<'a>, Refusal> {
        let edges = ends.least.len();
        let mut field = Field { constraints: Vec::new(), of_edge: vec![Vec::new(); edges], ends };
        for (number, region) in regions.iter().enumerate() {
            for (first, second) in [(0, 2), (1, 3)] {
                check_side(number, first, &region[first], edges)?;
                check_side(number, second, &region[second], edges)?;
                if region[first].iter().any(|edge| region[second].contains(edge)) {
                    return Err(Refusal { number: 5, first: number as u32, second: first as u32 });
                }
                field.add(Constraint { sides: [region[first].clone(), region[second].clone()] });
            }
        }
        refuse_edge(edges, 6, |edge| field.of_edge[edge].len() > 2)?;
        Ok(field)
    }

    fn add(&mut self, constraint: Constraint) {
        for &edge in constraint.sides.iter().flatten() {
            self.of_edge[edge].push(self.constraints.len());
        }
        self.constraints.push(constraint);
    }

    /// What a change of the count costs: the new square minus the old one.
    fn cost(&self, count: u32, change: Change) -> f64 {
        let (least, most) = (self.ends.least[change.edge], self.ends.most[change.edge]);
        let old = deviation(f64::from(count), least, most);
        let new = deviation(f64::from(count) + f64::from(change.sign), least, most);
        new * new - old * old
    }

    /// All starts: edges upward, +1 before -1.
    fn best_move(&self, counts: &[u32], limit: usize) -> Found {
        let mut found = Found { best: None, cut: false, entries: 0 };
        for edge in 0..counts.len() {
            for sign in [1, -1] {
                if sign == -1 && counts[edge] == 0 {
                    continue;
                }
                let search = Search::run(self, counts, limit, Change { edge, sign });
                found.cut |= search.cut;
                found.entries += search.entries;
                let Some(kept) = search.kept else {
                    continue;
                };
                if kept.cost < -E && found.best.as_ref().is_none_or(|best| kept.cost < best.cost - E) {
                    found.best = Some(kept);
                }
            }
        }
        found
    }
}

// ------------------------------------------------------------------------------------------------------------------------------------
// The search
// ------------------------------------------------------------------------------------------------------------------------------------

/// What the searches from all starts found.
struct Found {
    best: Option<Kept>,
    cut: bool,
    entries: usize,
}

/// A complete reading and its cost.
struct Kept {
    cost: f64,
    reading: Vec<Change>,
}

/// A search depth first from one edge and sign.
struct Search<'a> {
    field: &'a Field<'a>,
    counts: &'a [u32],
    limit: usize,
    entries: usize,
    /// Whether an entry was turned back.
    cut: bool,
    /// The changes so far, from the start on.
    reading: Vec<Change>,
    /// For each constraint, whether the reading has its two changes.
    balanced: Vec<bool>,
    kept: Option<Kept>,
}

impl<'a> Search<'a> {
    /// The search from this start, at its end.
    fn run(field: &'a Field, counts: &'a [u32], limit: usize, start: Change) -> Search<'a> {
        let balanced = vec![false; field.constraints.len()];
        let mut search = Search { field, counts, limit, entries: 0, cut: false, reading: vec![start], balanced, kept: None };
        search.enter(start, field.cost(counts[start.edge], start));
        search
    }

    /// Comes to an edge, whose change is the last of the reading and part of the cost.
    fn enter(&mut self, current: Change, cost: f64) {
        if self.entries == self.limit {
            self.cut = true;
            return;
        }
        self.entries += 1;
        let field = self.field;
        let open: Vec<usize> = field.of_edge[current.edge].iter().copied().filter(|&number| !self.balanced[number]).collect();
        if open.is_empty() {
            self.keep(cost);
        }
        for number in open {
            let constraint = &field.constraints[number];
            let others = self.reading.iter().filter(|change| change.edge != current.edge && constraint.side(change.edge).is_some());
            let others: Vec<Change> = others.copied().collect();
            self.balanced[number] = true;
            match others[..] {
                [] => self.cross(number, current, cost),
                // Back at the start: a loop.
                [other] if other.edge == self.reading[0].edge && constraint.balance(current, other) => self.keep(cost),
                _ => {}
            }
            self.balanced[number] = false;
        }
    }

    /// Balances the change in a constraint by each other edge of it in turn: the opposite side, then the own side.
    fn cross(&mut self, number: usize, current: Change, cost: f64) {
        let constraint = &self.field.constraints[number];
        let [first, second] = &constraint.sides;
        let (own, opposite) = if first.contains(&current.edge) { (first, second) } else { (second, first) };
        for &edge in opposite {
            self.step(Change { edge, sign: current.sign }, number, cost);
        }
        for &edge in own.iter().filter(|&&edge| edge != current.edge) {
            self.step(Change { edge, sign: -current.sign }, number, cost);
        }
    }

    /// Goes on to an edge through a constraint, unless that is no unit move: the edge is changed already, or its count is 0, or it would
    /// be a third change in a constraint that has its two.
    fn step(&mut self, next: Change, through: usize, cost: f64) {
        let count = self.counts[next.edge];
        let changed = self.reading.iter().any(|change| change.edge == next.edge);
        let third = self.field.of_edge[next.edge].iter().any(|&number| number != through && self.balanced[number]);
        if changed || third || (next.sign == -1 && count == 0) {
            return;
        }
        self.reading.push(next);
        self.enter(next, cost + self.field.cost(count, next));
        self.reading.pop();
    }

    /// Keeps the reading if it is complete and costs less than the kept one by more than E.
    fn keep(&mut self, cost: f64) {
        let kept_cost = self.kept.as_ref().map_or(f64::INFINITY, |kept| kept.cost);
        if cost < kept_cost - E && self.complete() {
            self.kept = Some(Kept { cost, reading: self.reading.clone() });
        }
    }

    /// Whether every constraint that holds a changed edge has its two changes.
    fn complete(&self) -> bool {
        let mut touched = self.reading.iter().flat_map(|change| &self.field.of_edge[change.edge]);
        touched.all(|&number| self.balanced[number])
    }
}
