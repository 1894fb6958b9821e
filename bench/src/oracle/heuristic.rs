//! Heuristics as functions from states to estimates, and by the definitions over every transition whether they are
//! admissible, consistent, and what the check of a table has to say.
use super::costs::{Cost, Graph};
use super::random::Random;
use crate::proved::{Row, Setup};

/// The entry that says dead end.
const DEAD_END: u32 = u32::MAX;

/// An estimate in coins for each state; none where it says dead end.
pub type Estimates = Vec<Option<u64>>;

fn table(entries: &[u32]) -> Estimates {
    entries.iter().map(|&entry| (entry != DEAD_END).then_some(u64::from(entry))).collect()
}

/// Zero but at multiples of the stride.
fn strided(below: Estimates, stride: u32) -> Estimates {
    let stride = if stride == 0 { 1 } else { stride as usize };
    below
        .into_iter()
        .enumerate()
        .map(|(state, estimate)| if state % stride == 0 { estimate } else { Some(0) })
        .collect()
}

fn maximum(one: Estimates, other: Estimates) -> Estimates {
    one.into_iter().zip(other).map(|pair| Some(pair.0?.max(pair.1?))).collect()
}

/// The heuristic that a setup makes of its tables; none where one that it needs is not of the right length.
pub fn combined(setup: &Setup, first: &[u32], second: &[u32], states: u32) -> Option<Estimates> {
    let fits = |entries: &[u32]| entries.len() == states as usize;
    match setup.heuristic {
        0 => Some(vec![Some(0); states as usize]),
        1 => fits(first).then(|| table(first)),
        2 => fits(first).then(|| strided(table(first), setup.stride)),
        _ => (fits(first) && fits(second)).then(|| maximum(table(first), strided(table(second), setup.stride))),
    }
}

/// Never after the cost of a solution, and a dead end only where there is none.
pub fn admissible(estimates: &Estimates, costs: &[Option<Cost>]) -> bool {
    estimates.iter().zip(costs).all(|(estimate, cost)| match (estimate, cost) {
        (_, None) => true,
        (None, Some(_)) => false,
        (Some(estimate), Some(cost)) => (*estimate, 0) <= *cost,
    })
}

/// Whether the estimate falls by no more than the charge from one to the other, and a dead end leads to a dead end.
fn steady(from: Option<u64>, charge: Cost, to: Option<u64>) -> bool {
    match (from, to) {
        (_, None) => true,
        (None, Some(_)) => false,
        (Some(from), Some(to)) => (from, 0) <= (charge.0 + to, charge.1),
    }
}

pub fn consistent(estimates: &Estimates, graph: &Graph, counted: bool) -> bool {
    (0..graph.states()).all(|state| {
        let estimate = estimates[state as usize];
        graph.from(state).iter().all(|edge| steady(estimate, edge.charge(counted), estimates[edge.target as usize]))
    })
}

/// What the check of a table answers: 10, 11 or 0.
pub fn check(entries: &[u32], graph: &Graph) -> Row {
    if entries.len() != graph.goal.len() {
        return Row { number: 10, place: u64::from(graph.states()), ..Row::default() };
    }
    let estimates = table(entries);
    for state in 0..graph.states() {
        let broken = |action: u16| Row { number: 11, place: u64::from(state), action, ..Row::default() };
        if graph.goal[state as usize] && entries[state as usize] != 0 {
            return broken(65_535);
        }
        for edge in graph.from(state) {
            if !steady(estimates[state as usize], edge.charge(false), estimates[edge.target as usize]) {
                return broken(edge.action);
            }
        }
    }
    Row::default()
}

/// A random table: exact costs, costs made smaller, costs made wrong, or anything. Now and then of the wrong length.
pub fn random_table(random: &mut Random, coins: &[Option<Cost>]) -> Vec<u32> {
    let unsolvable = random.pick(&[DEAD_END, DEAD_END, 0, 1, 1000, u32::MAX - 1]);
    let exact = |cost: &Option<Cost>| cost.map_or(unsolvable, |cost| cost.0.min(u64::from(u32::MAX - 1)) as u32);
    let mut entries: Vec<u32> = coins.iter().map(exact).collect();
    shape(random, &mut entries);
    if random.chance(15) {
        for _ in 0..random.between(1, 3) {
            let entry = random.pick(&[0, 1, 2, 1_000_000, DEAD_END - 1, DEAD_END]);
            entries[random.below(coins.len() as u64) as usize] = entry;
        }
    }
    if random.chance(4) {
        let length = random.pick(&[0, 1, entries.len() - 1, entries.len() + 1, entries.len() * 2]);
        entries.resize(length, 0);
    }
    entries
}

fn change(entries: &mut [u32], mut to: impl FnMut(u32) -> u32) {
    for entry in entries.iter_mut().filter(|entry| **entry != DEAD_END) {
        *entry = to(*entry);
    }
}

fn shape(random: &mut Random, entries: &mut [u32]) {
    match random.below(14) {
        0..=2 => (),
        3..=6 => {
            let part = random.pick(&[2, 2, 3, 10]);
            change(entries, |entry| entry / part);
        }
        7 => {
            let cap = random.pick(&[1, 2, 3, 10, 500_000]);
            change(entries, |entry| entry.min(cap));
        }
        8 => entries.fill(0),
        9 => {
            let all = random.pick(&[1, 7, 1_000_000, DEAD_END - 1, DEAD_END]);
            entries.fill(all);
        }
        10 => change(entries, |entry| entry.saturating_mul(2).min(DEAD_END - 1)),
        11 => change(entries, |entry| random.between(0, u64::from(entry)) as u32),
        12 => {
            let most = random.pick(&[1, 5, 100, 1_000_000, u64::from(DEAD_END)]);
            let dead_ends = random.pick(&[0, 0, 5, 30]);
            for entry in entries.iter_mut() {
                *entry = if random.chance(dead_ends) { DEAD_END } else { random.between(0, most) as u32 };
            }
        }
        _ => change(entries, |entry| if random.chance(20) { 0 } else { entry }),
    }
}
