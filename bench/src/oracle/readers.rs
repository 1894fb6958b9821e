//! Compares the library for readers: the check of each sheet, marks of single questions, and the texts of refusals.
use super::costs::{Cost, Graph, Verdict, verdict};
use super::random::Random;
use super::sheet::Refused;
use super::tally::{Case, Tally};
use super::task::Task;
use crate::proved::Setup;
use crate::reader;

/// The library serves tasks of so many states.
const STATES: u32 = 1024;

/// Nothing was set up or called step by step.
const NO_SETUP: Setup = Setup { cost: 0, heuristic: 0, list: 0, check: 0, stride: 0, records: 0, room: 0 };

fn case(seed: u64, index: u64, sheet: &[u8]) -> Case<'_> {
    Case { seed, index, sheet, setup: &NO_SETUP, first: &[], second: &[], steps: &[], rows: &[] }
}

pub fn check(tally: &mut Tally, seed: u64, index: u64, sheet: &[u8], answer: Result<&Task, &Refused>) {
    let expected = answer.map_or_else(|refused| (refused.number, refused.place), |_| (0, 0));
    let got = reader::check(sheet);
    tally.reader();
    if got != expected {
        tally.difference(&case(seed, index, sheet), "a reader's check", format!("{expected:?}"), format!("{got:?}"));
    }
}

/// What a question about the task has to get.
fn wanted(graph: &Graph, costs: &[Option<Cost>], state: u32, action: u16) -> (u8, u64) {
    if graph.states() > STATES {
        return (9, u64::from(graph.states()));
    }
    if state >= graph.states() {
        return (13, u64::from(state));
    }
    if usize::from(action) >= graph.actions {
        return (14, u64::from(action));
    }
    let Some(edge) = graph.edge(state, action) else { return (15, u64::from(action)) };
    if graph.goal[state as usize] {
        return (16, u64::from(state));
    }
    match verdict(graph, costs, state, edge, false) {
        Verdict::Best => (101, 0),
        Verdict::Other => (102, 0),
        Verdict::Stuck => (103, 0),
    }
}

/// A few questions about a task, absent states and actions among them.
pub fn marks(tally: &mut Tally, random: &mut Random, place: (u64, u64), sheet: &[u8], graph: &Graph, costs: &[Option<Cost>]) {
    for _ in 0..6 {
        let past = u64::from(random.below(8) == 0);
        let state = random.below(u64::from(graph.states()) + past) as u32;
        let action = match (random.below(10), graph.from(state.min(graph.states() - 1))) {
            (0, _) | (_, []) => random.below(graph.actions as u64 + 2) as u16,
            (_, edges) => edges[random.below(edges.len() as u64) as usize].action,
        };
        let expected = wanted(graph, costs, state, action);
        let got = reader::mark(sheet, state, action);
        tally.reader();
        if got != expected {
            let what = format!("a reader's mark of {state} {action}");
            tally.difference(&case(place.0, place.1, sheet), &what, format!("{expected:?}"), format!("{got:?}"));
        }
    }
}

/// Every number with buffers of every length up to 130: the length of the sentence, its first bytes, and nothing else.
pub fn texts(tally: &mut Tally) {
    for number in 0..=255 {
        let mut whole = [0; 130];
        let length = reader::text(number, &mut whole);
        let there = (1..=18).contains(&number);
        let mut fine = there == (length > 0) && length <= 110 && whole[length..].iter().all(|&byte| byte == 0);
        for room in 0..130 {
            let mut buffer = vec![b'#'; room + 2];
            let told = reader::text(number, &mut buffer[1..=room]);
            let kept = length.min(room);
            fine &= told == length && buffer[1..=kept] == whole[..kept];
            fine &= buffer[0] == b'#' && buffer[kept + 1..].iter().all(|&byte| byte == b'#');
            tally.reader();
        }
        if !fine {
            tally.difference(&case(0, 0, &[]), "a text", "a sentence".to_string(), format!("number {number}"));
        }
    }
}
