//! Compares markings: random tasks, heuristics and rows of calls, each answer against the rules, each verdict against
//! the exact costs-to-go.
use super::calls::{self, Field};
use super::costs::{Cost, Graph};
use super::heuristic::{check, combined, random_table};
use super::invent::{self, Size};
use super::marking::Marking;
use super::random::Random;
use super::readers;
use super::sheet::read;
use super::tally::{Case, Tally, UNTOUCHED};
use super::world::World;
use super::writer::write;
use crate::proved::play;

fn size(random: &mut Random) -> Size {
    let (states, actions) = match random.below(1000) {
        0 => (65_536, 24),
        1..=15 => (4096, 40),
        16..=80 => (1024, 40),
        81..=100 => (64, 200),
        101..=500 => (256, 24),
        501..=750 => (64, 24),
        751..=900 => (64, 12),
        _ => (16, 8),
    };
    Size { states, actions, name: 3 }
}

/// A task with all that is true of it: its sheet, its transitions, and its costs-to-go under both costs.
struct Ground {
    seed: u64,
    index: u64,
    sheet: Vec<u8>,
    graph: Graph,
    costs: [Vec<Option<Cost>>; 2],
}

/// One task with a few rows of calls on it.
pub fn compare(tally: &mut Tally, seed: u64, index: u64) {
    let random = &mut Random::new(!seed, index);
    let size = size(random);
    let task = invent::task(random, size);
    let sheet = write(&task).bytes;
    assert_eq!(read(&sheet).as_ref(), Ok(&task), "the oracle's reader and writer agree");
    let graph = Graph::of(&task);
    let costs = [graph.costs_to_go(false), graph.costs_to_go(true)];
    let ground = Ground { seed, index, sheet, graph, costs };
    tally.task(&task);
    readers::marks(tally, random, (seed, index), &ground.sheet, &ground.graph, &ground.costs[0]);
    for _ in 0..4 {
        compare_calls(tally, random, &ground);
    }
}

/// One setup with its tables, and a row of calls.
fn compare_calls(tally: &mut Tally, random: &mut Random, ground: &Ground) {
    let Ground { seed, index, sheet, graph, costs } = ground;
    let first = &random_table(random, &costs[0]);
    let second = &random_table(random, &costs[0]);
    let setup = &calls::setup(random, graph.states());
    let steps = &calls::steps(random, &Field { graph, costs: &costs[0] }, setup);
    let mut rows = vec![UNTOUCHED; steps.len()];
    let top = play(setup, sheet, first, second, steps, &mut rows);
    let case = Case { seed: *seed, index: *index, sheet, setup, first, second, steps, rows: &rows };
    let expected = check(first, graph);
    tally.play(expected.number);
    if top != Some(expected) {
        tally.difference(&case, "the check of the table", format!("{expected:?}"), format!("{top:?}"));
    }
    match combined(setup, first, second, graph.states()) {
        Some(estimates) => {
            let world = World::new(graph, &estimates, &costs[usize::from(setup.cost != 0)], setup);
            judge(tally, &case, Marking::new(world));
        }
        None => untouched(tally, &case),
    }
}

fn judge(tally: &mut Tally, case: &Case, mut marking: Marking) {
    for (number, (step, row)) in case.steps.iter().zip(case.rows).enumerate() {
        match marking.judge(tally, step, row) {
            Ok(exact) => tally.row(row, exact),
            Err(expected) => {
                tally.row(row, false);
                tally.difference(case, &format!("call {number}"), expected, format!("{step:?} {row:?}"));
                return;
            }
        }
    }
}

/// Without the tables that its heuristic needs there is no marking, and no row is written.
fn untouched(tally: &mut Tally, case: &Case) {
    for row in case.rows {
        tally.row(row, true);
        if *row != UNTOUCHED {
            tally.difference(case, "a row", "the row left as it was".to_string(), format!("{row:?}"));
        }
    }
}
