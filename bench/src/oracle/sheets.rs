//! Compares the reading of sheets: the refusal with its number and place, or, where the sheet is accepted, the number
//! of states and what a few starts tell of actions and goals.
use super::damage;
use super::random::Random;
use super::readers;
use super::sheet::{Refused, read};
use super::tally::{Case, Tally, UNTOUCHED};
use super::task::Task;
use super::world::OPEN;
use crate::proved::{Row, START, Setup, Step, play};

pub fn compare(tally: &mut Tally, seed: u64, index: u64) {
    let random = &mut Random::new(seed, index);
    let bytes = damage::sheet(random);
    let answer = read(&bytes);
    let (setup, steps) = starts(random, answer.as_ref().ok());
    let mut rows = vec![UNTOUCHED; steps.len()];
    let top = play(&setup, &bytes, &[], &[], &steps, &mut rows);
    let refused = match &answer {
        Ok(task) => Refused { number: 10, place: u64::from(task.states()) },
        Err(refused) => *refused,
    };
    let expected = Row { number: refused.number, place: refused.place, ..Row::default() };
    let case = Case { seed, index, sheet: &bytes, setup: &setup, first: &[], second: &[], steps: &steps, rows: &rows };
    tally.sheet(answer.as_ref().err());
    readers::check(tally, seed, index, &bytes, answer.as_ref());
    if top != Some(expected) {
        tally.difference(&case, "the sheet", format!("{expected:?}"), format!("{top:?}"));
    }
    for (step, row) in steps.iter().zip(&rows) {
        let wanted = answer.as_ref().map_or(UNTOUCHED, |task| started(task, step));
        tally.row(row, true);
        if *row != wanted {
            tally.difference(&case, "a start", format!("{wanted:?}"), format!("{step:?} {row:?}"));
        }
    }
}

/// A few starts with tables just long enough, or none where the task is large or not there.
fn starts(random: &mut Random, task: Option<&Task>) -> (Setup, Vec<Step>) {
    let states = task.map_or(4, Task::states);
    let wide = states > 1024;
    let size = if wide { 0 } else { states };
    let setup = Setup { cost: 0, heuristic: 0, list: random.byte() % 2, check: 1, stride: 1, records: size, room: size };
    let actions = task.map_or(1, |task| task.actions.len()) as u64;
    let mut steps = Vec::new();
    for _ in 0..if wide { 0 } else { random.below(5) } {
        let state = random.below(u64::from(states)) as u32;
        steps.push(Step { call: START, tagged: 0, action: random.below(actions) as u16, state, number: 1 });
    }
    (setup, steps)
}

/// What a start with a state and an action of the task answers under the blind heuristic.
fn started(task: &Task, step: &Step) -> Row {
    if task.transition(step.state, usize::from(step.action)).is_none() {
        return Row { number: 15, place: u64::from(step.action), ..Row::default() };
    }
    if task.is_goal(step.state) {
        return Row { number: 16, place: u64::from(step.state), ..Row::default() };
    }
    Row { status: OPEN, ..Row::default() }
}
